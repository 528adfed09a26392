/* The library that hosts link (hosts/c/fernmoldew.h) under a fuzzer: random words for queues, records, schedules and tapes, in slices that are exactly as
 * long as is said, so that AddressSanitizer finds any step beside them. Held besides: a refused call changes no word, what `broken` says holds of every call,
 * and what a tape reads as is written as that tape. */
#include "fernmoldew.h"
#include <stdio.h>
#include <stdlib.h>
#include <string.h>

static const uint8_t *at, *end;

static uint64_t byte(void) { return at < end ? *at++ : 0; }

/* Small numbers mostly, else any, or one at the edge of something. */
static uint64_t number(void) {
    static const uint64_t edges[] = {UINT64_MAX, UINT64_MAX - 1, UINT64_C(1) << 63, UINT32_MAX, UINT32_MAX - 1, 65535, 65536, 1024, 1025, 2048, 4096};
    uint64_t kind = byte(), n = 0;
    if (kind < 192) return kind & 63;
    if (kind < 224) return edges[kind % (sizeof edges / sizeof *edges)];
    for (int i = 0; i < 8; i++) n = n << 8 | byte();
    return n;
}

static void broken_promise(const char *what) {
    fprintf(stderr, "promise broken: %s\n", what);
    abort();
}

struct slice { uint64_t *words; size_t count; };

static struct slice slice(size_t count) {
    struct slice s = {malloc(count * sizeof(uint64_t) + !count), count};
    memset(s.words, 0, count * sizeof(uint64_t));
    return s;
}

static struct slice drawn(size_t count) {
    struct slice s = slice(count);
    for (size_t i = 0; i < count; i++) s.words[i] = number();
    return s;
}

static struct slice copy(struct slice from) {
    struct slice s = slice(from.count);
    memcpy(s.words, from.words, from.count * sizeof(uint64_t));
    return s;
}

static int differ(struct slice a, struct slice b) { return memcmp(a.words, b.words, a.count * sizeof(uint64_t)) != 0; }

struct lent { struct slice head, slots, records; };

/* A queue's functions on what is lent; the one-slot queue has no slots beside its head. */
struct face {
    struct lent (*drawn)(void);
    uint64_t (*make)(struct lent);
    uint64_t (*broken)(struct lent);
    uint64_t (*step)(struct lent, uint64_t first, uint64_t second);
    struct fern_reply (*run)(struct lent, struct slice schedule);
    struct fern_reply (*contents)(struct lent, struct slice buffer);
    struct fern_reply (*capacity)(struct lent);
    int may_break; /* an accepted entry may break words that no entries led to */
};

#define WORDS(s) (s).words, (s).count
#define RING(l) WORDS((l).head), WORDS((l).slots), WORDS((l).records)
#define SLOT(l) WORDS((l).head), WORDS((l).records)

static struct lent drawn_ring(void) {
    uint64_t shape = byte();
    struct lent l = {slice(shape & 1 ? number() & 15 : FERN_HEAD), slice(shape & 2 ? number() & 4095 : FERN_SLOTS), {0}};
    l.records = slice(shape & 4 ? number() & 511 : FERN_RECORD * (1 + (number() & 63)));
    if (!(shape & 8)) fern_ring_make(RING(l), number(), 1 + (byte() & 1));
    return l;
}

static uint64_t make_ring(struct lent l) {
    uint64_t capacity = number();
    return fern_ring_make(RING(l), capacity, byte() & 3);
}

static uint64_t broken_ring(struct lent l) { return fern_ring_broken(RING(l)); }
static uint64_t step_ring(struct lent l, uint64_t first, uint64_t second) { return fern_ring_step(RING(l), first, second); }
static struct fern_reply run_ring(struct lent l, struct slice schedule) { return fern_ring_run(RING(l), WORDS(schedule)); }
static struct fern_reply contents_ring(struct lent l, struct slice buffer) { return fern_ring_contents(RING(l), WORDS(buffer)); }
static struct fern_reply capacity_ring(struct lent l) { return fern_ring_capacity(RING(l)); }

static struct lent drawn_slot(void) {
    uint64_t shape = byte();
    struct lent l = {slice(shape & 1 ? number() & 15 : FERN_SLOT_HEAD), slice(0), slice(shape & 4 ? number() & 63 : FERN_SLOT_RECORDS)};
    if (!(shape & 8)) fern_slot_make(SLOT(l), number());
    return l;
}

static uint64_t make_slot(struct lent l) { return fern_slot_make(SLOT(l), number()); }
static uint64_t broken_slot(struct lent l) { return fern_slot_broken(SLOT(l)); }
static uint64_t step_slot(struct lent l, uint64_t first, uint64_t second) { return fern_slot_step(SLOT(l), first, second); }
static struct fern_reply run_slot(struct lent l, struct slice schedule) { return fern_slot_run(SLOT(l), WORDS(schedule)); }
static struct fern_reply contents_slot(struct lent l, struct slice buffer) { return fern_slot_contents(SLOT(l), WORDS(buffer)); }

static struct lent drawn_unbounded(void) {
    uint64_t shape = byte();
    struct lent l = {slice(shape & 1 ? number() & 15 : FERN_UNBOUNDED_HEAD_WORDS), slice(shape & 2 ? number() & 8191 : FERN_UNBOUNDED_POOL_WORDS), slice(shape & 4 ? number() & 127 : FERN_UNBOUNDED_RECORDS_WORDS)};
    if (!(shape & 8)) fern_unbounded_make(RING(l), number());
    return l;
}

static uint64_t make_unbounded(struct lent l) { return fern_unbounded_make(RING(l), number()); }
static uint64_t broken_unbounded(struct lent l) { return fern_unbounded_broken(RING(l)); }
static uint64_t step_unbounded(struct lent l, uint64_t first, uint64_t second) { return fern_unbounded_step(RING(l), first, second); }
static struct fern_reply run_unbounded(struct lent l, struct slice schedule) { return fern_unbounded_run(RING(l), WORDS(schedule)); }
static struct fern_reply contents_unbounded(struct lent l, struct slice buffer) { return fern_unbounded_contents(RING(l), WORDS(buffer)); }

static const struct face ring = {drawn_ring, make_ring, broken_ring, step_ring, run_ring, contents_ring, capacity_ring, 0};
static const struct face slot = {drawn_slot, make_slot, broken_slot, step_slot, run_slot, contents_slot, NULL, 0};
static const struct face unbounded = {drawn_unbounded, make_unbounded, broken_unbounded, step_unbounded, run_unbounded, contents_unbounded, NULL, 1};

static void changed(struct slice s) {
    if (s.count) s.words[byte() % s.count] = number();
}

static void calls(const struct face *queue) {
    struct lent l = queue->drawn();
    while (at < end) {
        struct lent was = {copy(l.head), copy(l.slots), copy(l.records)};
        uint64_t broken = queue->broken(l), refusal = 0, what = byte() % 9;
        int may_change = 0, on_its_way = 0, judges = what < 5 || (what == 5 && queue->capacity);
        if (broken != 0 && broken != FERN_BROKEN) broken_promise("broken answers 0 or 6");
        if (what < 3) {
            uint64_t first = what ? 16 * (byte() & 7) + (byte() % 10) : number();
            uint64_t second = (first & 15) < 2 || !what ? number() : 0;
            refusal = queue->step(l, first, second);
        } else if (what == 3) {
            struct slice schedule = drawn(byte() & 31);
            struct fern_reply reply = queue->run(l, schedule);
            refusal = reply.refusal;
            on_its_way = queue->may_break && reply.number > 0;
            may_change = (refusal != 6 || on_its_way) && refusal != 9 && refusal != 11;
            if (refusal == 0 && reply.number != schedule.count / 2) broken_promise("run counts its entries");
            if (refusal != 0 && reply.number > schedule.count / 2) broken_promise("run names an entry");
            free(schedule.words);
        } else if (what == 4) {
            struct slice buffer = drawn(byte() & 15), before = copy(buffer);
            struct fern_reply reply = queue->contents(l, buffer);
            refusal = reply.refusal;
            if (refusal == 0 && reply.number > buffer.count) broken_promise("contents fit their buffer");
            if (refusal != 0 && differ(buffer, before)) broken_promise("refused contents write nothing");
            free(buffer.words), free(before.words);
        } else if (what == 5) {
            refusal = judges ? queue->capacity(l).refusal : 0;
        } else if (what == 6) {
            changed(byte() & 1 ? l.head : l.slots);
        } else if (what == 7) {
            changed(l.records);
        } else {
            refusal = queue->make(l);
            if (!refusal && queue->broken(l)) broken_promise("what was made is not broken");
        }
        int differs = differ(l.head, was.head) || differ(l.slots, was.slots) || differ(l.records, was.records);
        if (judges && broken && refusal != FERN_BROKEN) broken_promise("broken words are refused with 6");
        if (judges && !broken && refusal == FERN_BROKEN && !on_its_way) broken_promise("6 of words that are not broken");
        if (refusal > FERN_NO_BLOCK) broken_promise("a refusal that there is none of");
        if (refusal && !may_change && differs) broken_promise("a refused call changes no word");
        if ((what == 4 || what == 5) && differs) broken_promise("to look changes no word");
        free(was.head.words), free(was.slots.words), free(was.records.words);
    }
    free(l.head.words), free(l.slots.words), free(l.records.words);
}

static void tapes(void) {
    size_t length = (size_t)(end - at), about_words = byte() & 1 ? FERN_TAPE_ABOUT : byte() & 7;
    uint8_t *tape = malloc(length + 1);
    memcpy(tape, at, (size_t)(end - at));
    length = (size_t)(end - at);
    tape = realloc(tape, length + !length);
    struct slice about = drawn(about_words);
    memset(about.words, 0xa5, about.count * sizeof(uint64_t));
    struct slice schedule = slice(FERN_TAPE_WORDS(length)), before = copy(about);
    struct fern_reply reply = fern_tape_read(tape, length, about.words, about.count, schedule.words, schedule.count);
    if (reply.refusal == FERN_TAPE_ROOM) broken_promise("half a tape's bytes are words enough");
    if (reply.refusal && differ(about, before)) broken_promise("a refused tape writes nothing");
    if (reply.refusal == 0) {
        uint8_t *again = malloc(length);
        struct fern_reply written = fern_tape_write(about.words[0], about.words[1], about.words[2], schedule.words, reply.number, again, length);
        if (written.refusal || written.number != length || memcmp(tape, again, length)) broken_promise("a tape that was read is written again");
        free(again);
        for (size_t room = 0; room < reply.number; room += 1 + reply.number / 3) {
            struct slice less = slice(room);
            if (fern_tape_read(tape, length, about.words, about.count, less.words, room).refusal != FERN_TAPE_ROOM) broken_promise("too little room is refused");
            free(less.words);
        }
    }
    free(tape), free(about.words), free(before.words), free(schedule.words);
}

static void writing(void) {
    uint64_t variant = byte() & 1 ? FERN_TAPE_BIG : byte() & 1 ? FERN_TAPE_LITTLE : number(), capacity = number(), workers = number();
    struct slice schedule = drawn(byte() & 31);
    size_t room = byte() & 1 ? FERN_TAPE_BYTES(schedule.count) : byte();
    uint8_t *tape = malloc(room + !room);
    memset(tape, 0xa5, room);
    struct fern_reply reply = fern_tape_write(variant, capacity, workers, schedule.words, schedule.count, tape, room);
    if (reply.refusal == 0 && reply.number > room) broken_promise("a tape fits its buffer");
    for (size_t i = 0; reply.refusal && i < room; i++)
        if (tape[i] != 0xa5) broken_promise("what is refused writes nothing");
    free(tape), free(schedule.words);
}

/* A recorder whose words, entries and buffers are anything: nothing is written past them, what is refused changes nothing, and what an honest one records is what fern_tape_write makes of it. */
static void recording(void) {
    struct slice words = drawn(byte() & 7 ? FERN_RECORDER_WORDS : byte() & 7), schedule = slice(512);
    uint64_t variant = byte() & 1 ? FERN_TAPE_BIG : byte() & 1 ? FERN_TAPE_LITTLE : number(), capacity = number() & 0x1ffff, workers = number() & 0x1ffff;
    size_t room = byte(), taken = 0;
    uint8_t *tape = malloc(room + !room), *whole = malloc(room + !room), *was = malloc(room + !room);
    memset(tape, 0xa5, room);
    int honest = 0;
    while (at < end && taken < 500) {
        struct slice before = copy(words);
        uint64_t first = number(), second = number();
        struct fern_reply reply;
        int what = byte() & 7;
        memcpy(was, tape, room);
        if (what == 0) {
            reply = fern_recorder_begin(words.words, words.count, variant, capacity, workers, tape, room);
            if (!reply.refusal) honest = 1, taken = 0;
        } else if (what == 1) {
            reply = fern_recorder_end(words.words, words.count, tape, room);
        } else if (what == 2) {
            changed(words);
            honest = 0, reply.refusal = 0;
        } else {
            if (byte() & 7) first %= 256, second = first % 16 < 2 ? second : 0;
            reply = fern_recorder_append(words.words, words.count, first, second, tape, room);
            if (!reply.refusal) schedule.words[taken++] = first, schedule.words[taken++] = second;
        }
        if (reply.refusal && (differ(words, before) || memcmp(tape, was, room))) broken_promise("what a recorder refuses changes nothing");
        if (honest && what == 1) {
            struct fern_reply written = fern_tape_write(variant, capacity, workers, schedule.words, taken, whole, room);
            if (reply.refusal || written.refusal || reply.number != written.number || memcmp(tape, whole, written.number)) broken_promise("a recorder's tape is that of the whole");
        }
        free(before.words);
    }
    free(tape), free(whole), free(was), free(words.words), free(schedule.words);
}

int LLVMFuzzerTestOneInput(const uint8_t *data, size_t size) {
    at = data, end = data + size;
    switch (byte() & 7) {
    case 0: case 4: tapes(); break;
    case 1: writing(); break;
    case 5: recording(); break;
    case 6: calls(&unbounded); break;
    case 7: calls(&slot); break;
    default: calls(&ring);
    }
    return 0;
}
