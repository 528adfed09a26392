/* The part of fernmoldew.h that is C and not proved, beside the proved functions that it calls: whole calls, also one that is still under way; accessors; a ring that is renewed; a recorder of tapes, by its words and in one struct; the one-slot queue under its names of today, and the unbounded queue; entries
 * that are refused, and words that somebody wrote over. Each answer is that of the entries one by one. C99 and C++11 to 20 take it. Status 1 where something is not so. */
#include "fernmoldew.h"

#include <stdio.h>
#include <stdlib.h>
#include <string.h>

#define WORKERS 3

static int wrong;

static void expect(bool right, const char *what) {
    if (!right) {
        wrong = 1;
        fprintf(stderr, "header: not so: %s\n", what);
    }
}

struct words {
    uint64_t head[FERN_HEAD_WORDS], slots[FERN_SLOTS_WORDS], records[WORKERS * FERN_RECORD_WORDS];
};

static struct words one, other;
static const struct fern_ring ring = {one.head, one.slots, one.records, WORKERS};

static uint64_t random_below(uint64_t *state, uint64_t below) {
    *state = *state * UINT64_C(6364136223846793005) + UINT64_C(1442695040888963407);
    return (*state >> 33) % below;
}

/* The same call by entries, on the other words. */
static struct fern_called by_entries(size_t worker, enum fern_call call, uint64_t item) {
    struct fern_called called = {FERN_UNREADABLE, FERN_NOTHING, 0};
    const uint64_t *record = other.records + 5 * worker;
    if (call > FERN_IS_CLOSED)
        return called;
    called.refusal = fern_ring_step(other.head, 8, other.slots, 2048, other.records, 15, 16 * worker + (uint64_t)call, item);
    for (int acts = 0; called.refusal == 0 && record[0] > 10 && acts < 7; acts++)
        called.refusal = fern_ring_step(other.head, 8, other.slots, 2048, other.records, 15, 16 * worker + 8, 0);
    if (called.refusal == 0) {
        called.answer = record[0] > 10 ? FERN_UNDER_WAY : (enum fern_answer)record[0];
        called.value = record[0] >= 6 && record[0] <= 10 ? record[1] : 0;
    }
    return called;
}

static bool same(struct fern_called a, struct fern_called b) {
    return a.refusal == b.refusal && a.answer == b.answer && a.value == b.value && memcmp(&one, &other, sizeof one) == 0;
}

static void whole_calls(void) {
    uint64_t state = 34, answers[256] = {0};
    for (int turn = 0; turn < 20000; turn++) {
        if (turn % 200 == 0) {
            expect(fern_ring_fresh(&ring, 1 + random_below(&state, 3), 1 + random_below(&state, 2)) == FERN_ACCEPTED, "a fresh ring");
            memcpy(&other, &one, sizeof one);
        }
        const size_t worker = random_below(&state, 20) == 0 ? WORKERS : random_below(&state, WORKERS);
        const enum fern_call call = (enum fern_call)(random_below(&state, 60) == 0 ? 6 : random_below(&state, 6));
        const uint64_t item = call <= FERN_FORCE_PUSH ? 1 + random_below(&state, 99) : random_below(&state, 50) == 0;
        if (worker < WORKERS && random_below(&state, 4) == 0) {
            /* one act, so that calls are under way beside others */
            const bool weak = fern_weak_next(fern_record(&ring, worker));
            expect(fern_ring_entry(&ring, fern_entry(worker, FERN_ACT), 0) == fern_ring_step(other.head, 8, other.slots, 2048, other.records, 15, 16 * worker + 8, 0), "an act");
            if (weak)
                answers[254]++;
            continue;
        }
        if (random_below(&state, 3) == 0 && worker < WORKERS) {
            const uint64_t code = one.records[5 * worker];
            const bool weak = fern_weak_next(fern_record(&ring, worker));
            const uint64_t refusal = fern_ring_entry(&ring, fern_entry(worker, call), item);
            expect(refusal == fern_ring_step(other.head, 8, other.slots, 2048, other.records, 15, 16 * worker + (uint64_t)call, item), "a begin");
            expect(code > 10 || !weak, "an idle worker's act is no weak exchange");
            continue;
        }
        const struct fern_called called = fern_ring_call(&ring, worker, call, item);
        expect(same(called, by_entries(worker, call, item)), "a whole call is its entries");
        answers[called.refusal == FERN_ACCEPTED ? (uint64_t)called.answer : 128 + called.refusal]++;
        if (worker < WORKERS && called.refusal == FERN_ACCEPTED)
            expect(fern_busy(fern_record(&ring, worker)) == (called.answer == FERN_UNDER_WAY) && fern_answer(fern_record(&ring, worker)) == called.answer, "what the record says");
    }
    for (int answer = FERN_PUSHED; answer <= FERN_LEN_IS; answer++)
        expect(answers[answer] > 0, "every answer came");
    expect(answers[FERN_UNDER_WAY] > 0 && answers[128 + FERN_NO_SUCH_WORKER] > 0 && answers[128 + FERN_BUSY] > 0 && answers[128 + FERN_UNREADABLE] > 0 && answers[254] > 0, "and every refusal");
    expect(same(fern_ring_call(&ring, 0, FERN_ACT, 0), by_entries(0, FERN_ACT, 0)), "an act is no call");
    expect(fern_record(&ring, WORKERS) == NULL, "no record of no worker");
}

/* Where FERN_ACT_LOSE is accepted a weak exchange comes next, and nowhere else. */
static void weak_exchanges(void) {
    uint64_t state = 35;
    bool places[FERN_CODES] = {false};
    expect(fern_ring_fresh(&ring, 2, 1) == FERN_ACCEPTED, "a fresh ring");
    for (int turn = 0; turn < 20000; turn++) {
        const size_t worker = random_below(&state, WORKERS);
        uint64_t *record = fern_record(&ring, worker);
        if (!fern_busy(record)) {
            const enum fern_call call = (enum fern_call)random_below(&state, 6);
            expect(fern_ring_entry(&ring, fern_entry(worker, call), call <= FERN_FORCE_PUSH ? 7 : 0) == FERN_ACCEPTED, "a begin");
            continue;
        }
        if (random_below(&state, 2) == 0) {
            expect(fern_ring_entry(&ring, fern_entry(worker, FERN_ACT), 0) == FERN_ACCEPTED, "an act");
            continue;
        }
        const bool weak = fern_weak_next(record);
        const uint64_t before = fern_differed(record) + fern_failed(record);
        const enum fern_place place = fern_place(record);
        const uint64_t refusal = fern_ring_entry(&ring, fern_entry(worker, FERN_ACT_LOSE), 0);
        expect(refusal == (weak ? (uint64_t)FERN_ACCEPTED : (uint64_t)FERN_NO_WEAK_EXCHANGE), "fern_weak_next is where an exchange may fail");
        if (weak)
            expect(fern_differed(record) + fern_failed(record) == before + 1, "a lost exchange is counted");
        else
            expect(fern_place(record) == place && fern_ring_entry(&ring, fern_entry(worker, FERN_ACT), 0) == FERN_ACCEPTED, "what is refused changes nothing");
        places[place] = true;
    }
    for (int place = FERN_P1_PUSH; place < FERN_CLOSE1; place++)
        expect(places[place], "every place but those of close and is_closed was tried");
}

static void renewed(void) {
    uint64_t items[FERN_CAPACITY], again[FERN_CAPACITY], state = 36;
    for (int turn = 0; turn < 300; turn++) {
        const uint64_t capacity = 1 + random_below(&state, 5), edition = 1 + random_below(&state, 2);
        expect(fern_ring_fresh(&ring, capacity, edition) == FERN_ACCEPTED, "a fresh ring");
        for (uint64_t call = random_below(&state, 12); call > 0; call--)
            expect(fern_ring_call(&ring, random_below(&state, WORKERS), random_below(&state, 3) == 0 ? FERN_POP : FERN_FORCE_PUSH, 0).refusal == FERN_ACCEPTED, "a call");
        const bool closed = random_below(&state, 2) == 0;
        if (closed)
            expect(fern_ring_call(&ring, 1, FERN_CLOSE, 0).answer == FERN_YES, "a close");
        const struct fern_reply waiting = fern_ring_contents(FERN_LENT(&ring), items, FERN_CAPACITY);
        one.head[FERN_HEAD_METER] = FERN_METER_LAST;
        memcpy(&other, &one, sizeof one);
        if (waiting.number > 0) {
            const struct fern_reply refused = fern_ring_renew(&ring, again, waiting.number - 1);
            expect(refused.refusal == FERN_BUFFER_SHORT && memcmp(&one, &other, sizeof one) == 0, "too little room: nothing is changed");
        }
        const struct fern_reply renewed = fern_ring_renew(&ring, again, waiting.number);
        expect(renewed.refusal == FERN_ACCEPTED && renewed.number == waiting.number && memcmp(items, again, 8 * waiting.number) == 0, "renewed");
        expect(one.head[FERN_HEAD_METER] < 100 && one.head[FERN_HEAD_CAPACITY] == capacity && one.head[FERN_HEAD_EDITION] == edition, "a fresh meter, the same ring");
        for (int word = 0; word < WORKERS * FERN_RECORD_WORDS; word++)
            expect(one.records[word] == 0, "all idle, with no answer yet");
        const struct fern_reply after = fern_ring_contents(FERN_LENT(&ring), again, FERN_CAPACITY);
        expect(after.number == waiting.number && memcmp(items, again, 8 * waiting.number) == 0, "the same contents");
        expect(fern_ring_call(&ring, 2, FERN_IS_CLOSED, 0).answer == (closed ? FERN_YES : FERN_NO), "closed as it was");
    }
    expect(fern_ring_entry(&ring, fern_entry(1, FERN_POP), 0) == FERN_ACCEPTED && fern_ring_renew(&ring, again, FERN_CAPACITY).refusal == FERN_BUSY, "not while a worker is busy");
    one.head[FERN_HEAD_LAYOUT]++;
    memcpy(&other, &one, sizeof one);
    expect(fern_ring_renew(&ring, again, FERN_CAPACITY).refusal == FERN_BROKEN && fern_ring_call(&ring, 0, FERN_LEN, 0).refusal == FERN_BROKEN && memcmp(&one, &other, sizeof one) == 0, "nor what is broken");
}

static void one_slot(void) {
    static uint64_t head[FERN_SINGLE_HEAD_WORDS], records[FERN_SINGLE_RECORDS_WORDS], item[1];
    const struct fern_single single = {head, records};
    expect(fern_single_make(&single, 17) == FERN_BAD_COUNT && fern_single_make(&single, 2) == FERN_ACCEPTED, "made");
    expect(fern_single_call(&single, 0, FERN_PUSH, 240).answer == FERN_PUSHED, "pushed");
    struct fern_called called = fern_single_call(&single, 0, FERN_FORCE_PUSH, 255);
    expect(called.answer == FERN_DISPLACED && called.value == 240, "displaced");
    expect(fern_single_contents(&single, item, 1).number == 1 && item[0] == 255, "contents");
    expect(fern_single_step(&single, fern_entry(1, FERN_POP), 0) == FERN_ACCEPTED && fern_single_place(fern_single_record(&single, 1)) == FERN_C1, "a pop begins");
    expect(fern_single_step(&single, fern_entry(1, FERN_ACT), 0) == FERN_ACCEPTED && fern_single_call(&single, 0, FERN_POP, 0).answer == FERN_EMPTY, "beside it there is none");
    const uint64_t rest[] = {16 + 8, 0, 16 + 8, 0};
    struct fern_reply ran = fern_single_run(&single, rest, 4);
    expect(ran.refusal == FERN_ACCEPTED && ran.number == 2 && fern_answer(fern_single_record(&single, 1)) == FERN_POPPED && fern_value(fern_single_record(&single, 1)) == 255, "popped");
    expect(fern_single_call(&single, 16, FERN_POP, 0).refusal == FERN_NO_SUCH_WORKER && fern_single_call(&single, 0, FERN_ACT, 0).refusal == FERN_UNREADABLE && fern_single_record(&single, 16) == NULL, "refused");
    head[FERN_SINGLE_HEAD_STATE] = 8;
    expect(fern_single_broken(&single) == FERN_BROKEN && fern_single_call(&single, 0, FERN_POP, 0).refusal == FERN_BROKEN, "broken");
    expect(fern_slot_broken(head, FERN_SLOT_HEAD, records, FERN_SLOT_RECORDS) == FERN_BROKEN && FERN_HEAD == 8 && FERN_SLOTS == 2048 && FERN_RECORD == 5, "the old names");
}

/* The unbounded queue's whole calls beside their entries, over the ends of blocks; where FERN_ACT_LOSE is accepted; a pool that is used up. */
static void unbounded(void) {
    static struct { uint64_t head[FERN_UNBOUNDED_HEAD_WORDS], pool[FERN_UNBOUNDED_POOL_WORDS], records[FERN_UNBOUNDED_RECORDS_WORDS]; } ours, theirs;
    static uint64_t items[FERN_UNBOUNDED_ITEMS];
    const struct fern_unbounded queue = {ours.head, ours.pool, ours.records};
    uint64_t state = 39, answers[256] = {0};
    bool lost = false, kept = false;
    expect(fern_unbounded_fresh(&queue, 17) == FERN_BAD_COUNT && fern_unbounded_fresh(&queue, WORKERS) == FERN_ACCEPTED, "made");
    for (int turn = 0; turn < 3000; turn++) {
        const size_t worker = random_below(&state, 40) == 0 ? WORKERS : random_below(&state, WORKERS);
        const enum fern_call call = random_below(&state, 2) == 0 ? FERN_PUSH : (enum fern_call)random_below(&state, turn < 2900 ? 6 : 8);
        const uint64_t item = call == FERN_PUSH ? 1 + random_below(&state, 99) : random_below(&state, 50) == 0;
        uint64_t *record = fern_unbounded_record(&queue, worker);
        if (worker < WORKERS && fern_busy(record) && random_below(&state, 2) == 0) {
            const bool weak = fern_unbounded_weak_next(record), asked = random_below(&state, 2) == 0;
            const uint64_t refusal = fern_unbounded_entry(&queue, fern_entry(worker, asked ? FERN_ACT_LOSE : FERN_ACT), 0);
            expect(refusal == (asked && !weak ? (uint64_t)FERN_NO_WEAK_EXCHANGE : (uint64_t)FERN_ACCEPTED), "fern_unbounded_weak_next is where an exchange may fail");
            lost |= asked && weak;
            kept |= asked && !weak;
            continue;
        }
        memcpy(&theirs, &ours, sizeof ours);
        const uint64_t *same_record = theirs.records + 5 * worker;
        struct fern_called expected = {fern_unbounded_step(theirs.head, 8, theirs.pool, 4096, theirs.records, 80, 16 * worker + (uint64_t)call, item), FERN_NOTHING, 0};
        for (int acts = 0; expected.refusal == 0 && same_record[0] > 10 && acts < 43; acts++)
            expected.refusal = fern_unbounded_step(theirs.head, 8, theirs.pool, 4096, theirs.records, 80, 16 * worker + 8, 0);
        if (expected.refusal == 0) {
            expected.answer = same_record[0] > 10 ? FERN_UNDER_WAY : (enum fern_answer)same_record[0];
            expected.value = same_record[0] >= 6 && same_record[0] <= 10 ? same_record[1] : 0;
        }
        if (random_below(&state, 5) == 0 && worker < WORKERS) {
            /* begun alone, so that calls are under way beside others */
            const uint64_t refusal = fern_unbounded_entry(&queue, fern_entry(worker, call), item);
            expect(refusal != FERN_ACCEPTED || (fern_busy(record) && fern_unbounded_place(record) >= FERN_U1 && fern_unbounded_place(record) < FERN_UNBOUNDED_CODES), "a begin");
            continue;
        }
        const struct fern_called called = fern_unbounded_call(&queue, worker, call, item);
        expect(called.refusal == expected.refusal && called.answer == expected.answer && called.value == expected.value && memcmp(&ours, &theirs, sizeof ours) == 0, "a whole call is its entries");
        answers[called.refusal == FERN_ACCEPTED ? (uint64_t)called.answer : 128 + called.refusal]++;
    }
    expect(lost && kept && answers[FERN_PUSHED] && answers[FERN_POPPED] && answers[FERN_LEN_IS] && answers[FERN_NO] && answers[FERN_CLOSED] && answers[128 + FERN_NO_SUCH_WORKER] && answers[128 + FERN_BUSY] && answers[128 + FERN_UNREADABLE], "of every kind");
    expect(fern_unbounded_call(&queue, 0, FERN_ACT, 0).refusal == FERN_UNREADABLE && fern_unbounded_record(&queue, 16) == NULL, "an act is no call");
    expect(fern_unbounded_fresh(&queue, 2) == FERN_ACCEPTED, "made anew");
    uint64_t most = 0;
    struct fern_called last = fern_unbounded_call(&queue, 0, FERN_PUSH, most);
    while (last.answer == FERN_PUSHED)
        last = fern_unbounded_call(&queue, 0, FERN_PUSH, ++most);
    expect(last.refusal == FERN_NO_BLOCK && most == FERN_UNBOUNDED_ITEMS - 1, "a pool that is used up");
    expect(fern_unbounded_contents(FERN_UNBOUNDED_LENT(&queue), items, FERN_UNBOUNDED_ITEMS).refusal == FERN_BUSY, "its push is under way");
    const uint64_t pop[] = {16 + FERN_POP, 0, 16 + FERN_ACT, 0, 16 + FERN_ACT, 0};
    const struct fern_reply ran = fern_unbounded_entries(&queue, pop, 6);
    expect(ran.refusal == FERN_ACCEPTED && ran.number == 3, "a schedule");
    ours.head[FERN_UNBOUNDED_HEAD_NOUGHT] = 1;
    expect(fern_unbounded_broken(FERN_UNBOUNDED_LENT(&queue)) == FERN_BROKEN && fern_unbounded_call(&queue, 0, FERN_POP, 0).refusal == FERN_BROKEN, "broken");
}

/* A recorder's tape and refusals beside fern_tape_write of the whole, in buffers that are exactly as long as is said. */
static void recorded(void) {
    uint64_t state = 37, refusals[32] = {0};
    for (int turn = 0; turn < 3000; turn++) {
        const size_t room = random_below(&state, 90);
        uint8_t *tape = (uint8_t *)malloc(room + 1), *whole = (uint8_t *)malloc(room + 1);
        uint64_t schedule[40];
        size_t words = 0;
        const uint64_t variant = random_below(&state, 9) == 0 ? 2 : random_below(&state, 2) == 0 ? 1 : 129, capacity = random_below(&state, 9) == 0 ? 65536 : 65535;
        struct fern_recorder recorder;
        memset(tape, 85, room + 1);
        memset(whole, 85, room + 1);
        struct fern_reply ours = fern_tape_begin(&recorder, variant, capacity, 3, tape, room), theirs = fern_tape_write(variant, capacity, 3, NULL, 0, whole, room);
        expect(ours.refusal == theirs.refusal && ours.number == theirs.number, "a recorder begins as a tape of no entries");
        for (int entries = 0; ours.refusal == FERN_ACCEPTED && entries < 15; entries++) {
            const uint64_t code = random_below(&state, 11), worker = random_below(&state, 20) == 0 ? 16 : random_below(&state, 16);
            schedule[words] = 16 * worker + code;
            schedule[words + 1] = code < 2 ? UINT64_C(0x0123456789abcdef) + (uint64_t)turn : random_below(&state, 20) == 0;
            const struct fern_recorder before = recorder;
            const struct fern_reply appended = fern_tape_append(&recorder, schedule[words], schedule[words + 1]);
            theirs = fern_tape_write(variant, capacity, 3, schedule, words + 2, whole, room);
            expect(appended.refusal == theirs.refusal && appended.number == theirs.number, "an entry is refused as the whole with it is");
            if (appended.refusal == FERN_ACCEPTED)
                words += 2;
            else
                expect(recorder.length == before.length && recorder.entries == before.entries, "what is refused is not recorded");
            refusals[appended.refusal]++;
            if (random_below(&state, 4) == 0) {
                const size_t bytes = fern_tape_end(&recorder);
                theirs = fern_tape_write(variant, capacity, 3, schedule, words, whole, room);
                expect(theirs.refusal == FERN_ACCEPTED && bytes == theirs.number && memcmp(tape, whole, bytes) == 0 && recorder.entries == words / 2, "a recorder's tape is that of the whole");
            }
        }
        refusals[ours.refusal]++;
        expect(tape[room] == 85, "nothing is written past the buffer");
        free(tape);
        free(whole);
    }
    expect(refusals[FERN_ACCEPTED] && refusals[FERN_TAPE_FIELD] && refusals[FERN_TAPE_ENTRY] && refusals[FERN_TAPE_ROOM], "of every refusal");
}

/* The proved recorder the same way, every byte of the buffer, and the struct's functions beside it in a buffer of their own; and its words written over, which are then refused exactly where they are no recorder's, by the header's own words. */
static bool is_recorder(const uint64_t *words, size_t count, size_t room) {
    if (count != 3 || (words[0] != 1 && words[0] != 129) || words[1] < 7 || room < 10 || words[1] > room - 3)
        return false;
    for (uint64_t items = 0; items <= words[2] && items < 100; items++)
        if (words[2] < 100 && words[1] == 7 + 4 * words[2] + 8 * items)
            return true;
    return false;
}

static bool is_as(const struct fern_recorder *recorder, const uint64_t *words) {
    return recorder->variant == words[FERN_RECORDER_VARIANT] && recorder->length == words[FERN_RECORDER_LENGTH] && recorder->entries == words[FERN_RECORDER_ENTRIES];
}

static void recorded_in_words(void) {
    uint64_t state = 37, refusals[32] = {0};
    for (int turn = 0; turn < 3000; turn++) {
        const size_t room = random_below(&state, 90);
        uint8_t *tape = (uint8_t *)malloc(room + 1), *whole = (uint8_t *)malloc(room + 1), *kept = (uint8_t *)malloc(room + 1), *beside = (uint8_t *)malloc(room + 1);
        uint64_t schedule[40];
        size_t words = 0;
        const uint64_t variant = random_below(&state, 9) == 0 ? 2 : random_below(&state, 2) == 0 ? 1 : 129, capacity = random_below(&state, 9) == 0 ? 65536 : 65535;
        uint64_t recorder[FERN_RECORDER_WORDS] = {7, 8, 9};
        struct fern_recorder in_one = {NULL, 4, 5, 6, 3};
        memset(tape, 85, room + 1);
        memset(whole, 85, room + 1);
        memset(beside, 85, room + 1);
        struct fern_reply ours = fern_recorder_begin(recorder, FERN_RECORDER_WORDS, variant, capacity, 3, tape, room), theirs = fern_tape_write(variant, capacity, 3, NULL, 0, whole, room);
        expect(ours.refusal == theirs.refusal && ours.number == theirs.number && memcmp(tape, whole, room) == 0, "a recorder begins as a tape of no entries");
        expect(ours.refusal == FERN_ACCEPTED ? recorder[0] == variant && recorder[1] == 7 && recorder[2] == 0 : recorder[0] == 7 && recorder[1] == 8 && recorder[2] == 9, "a recorder's words are those of no entries, or as they were");
        struct fern_reply same = fern_tape_begin(&in_one, variant, capacity, 3, beside, room);
        expect(same.refusal == ours.refusal && same.number == ours.number && memcmp(beside, tape, room + 1) == 0, "a struct begins as the words do");
        expect(ours.refusal == FERN_ACCEPTED ? in_one.tape == beside && in_one.tape_bytes == room && is_as(&in_one, recorder) : in_one.tape == NULL && in_one.tape_bytes == 4 && in_one.length == 5 && in_one.entries == 6 && in_one.variant == 3, "and holds them, or is as it was");
        for (int entries = 0; ours.refusal == FERN_ACCEPTED && entries < 15; entries++) {
            const uint64_t code = random_below(&state, 11), worker = random_below(&state, 20) == 0 ? 16 : random_below(&state, 16);
            schedule[words] = 16 * worker + code;
            schedule[words + 1] = code < 2 ? UINT64_C(0x0123456789abcdef) + (uint64_t)turn : random_below(&state, 20) == 0;
            const uint64_t before[] = {recorder[0], recorder[1], recorder[2]};
            memcpy(kept, tape, room + 1);
            const struct fern_reply appended = fern_recorder_append(recorder, FERN_RECORDER_WORDS, schedule[words], schedule[words + 1], tape, room);
            memset(whole, 85, room + 1);
            theirs = fern_tape_write(variant, capacity, 3, schedule, words + 2, whole, room);
            expect(appended.refusal == theirs.refusal && appended.number == theirs.number, "an entry is refused as the whole with it is");
            same = fern_tape_append(&in_one, schedule[words], schedule[words + 1]);
            expect(same.refusal == appended.refusal && same.number == appended.number && is_as(&in_one, recorder) && memcmp(beside, tape, room + 1) == 0, "a struct's entry is that of the words");
            if (appended.refusal == FERN_ACCEPTED)
                words += 2;
            else
                expect(memcmp(recorder, before, sizeof before) == 0 && memcmp(tape, kept, room + 1) == 0, "what is refused changes nothing");
            refusals[appended.refusal]++;
            if (random_below(&state, 4) == 0) {
                ours = fern_recorder_end(recorder, FERN_RECORDER_WORDS, tape, room);
                memset(whole, 85, room + 1);
                theirs = fern_tape_write(variant, capacity, 3, schedule, words, whole, room);
                expect(theirs.refusal == FERN_ACCEPTED && ours.refusal == FERN_ACCEPTED && ours.number == theirs.number && memcmp(tape, whole, room + 1) == 0 && recorder[2] == words / 2, "a recorder's buffer is that of the whole, every byte");
                expect(fern_tape_end(&in_one) == ours.number && is_as(&in_one, recorder) && memcmp(beside, tape, room + 1) == 0, "a struct's end is that of the words");
            }
            if (random_below(&state, 3) == 0) { /* words that somebody wrote over, in a buffer of their own */
                uint64_t spoiled[4] = {recorder[0], recorder[1], recorder[2], 0};
                size_t count = random_below(&state, 9) == 0 ? random_below(&state, 5) : 3, bytes = random_below(&state, 6) == 0 ? random_below(&state, room + 1) : room;
                const uint64_t far[] = {0, 1, 7, UINT64_MAX, UINT64_MAX - 2, (UINT64_MAX >> 2) + 1, spoiled[1] + 4, spoiled[1] + 8, spoiled[2] + 1, 129};
                for (uint64_t times = random_below(&state, 3); times > 0; times--)
                    spoiled[random_below(&state, 3)] = far[random_below(&state, sizeof far / sizeof *far)];
                uint8_t *lent = (uint8_t *)malloc(bytes + 1);
                memcpy(lent, tape, bytes);
                const bool stands = is_recorder(spoiled, count, bytes);
                uint64_t after[4] = {spoiled[0], spoiled[1], spoiled[2], 0};
                ours = fern_recorder_append(after, count, schedule[words ? words - 2 : 0], schedule[words ? words - 1 : 1], lent, bytes);
                expect((ours.refusal == FERN_BROKEN) == !stands, "words are refused with 6 exactly where they are no recorder's");
                expect(ours.refusal == FERN_ACCEPTED || (memcmp(after, spoiled, sizeof after) == 0 && memcmp(lent, tape, bytes) == 0), "and then nothing changes");
                memcpy(lent, tape, bytes);
                ours = fern_recorder_end(spoiled, count, lent, bytes);
                expect((ours.refusal == FERN_BROKEN) == !stands && (stands ? ours.number == spoiled[1] + 3 : ours.number == 0 && memcmp(lent, tape, bytes) == 0), "an end of such words");
                refusals[ours.refusal]++;
                free(lent);
            }
            ours.refusal = FERN_ACCEPTED;
        }
        refusals[ours.refusal]++;
        expect(tape[room] == 85, "nothing is written past the buffer");
        free(tape);
        free(whole);
        free(kept);
        free(beside);
    }
    uint64_t words[FERN_RECORDER_WORDS] = {5, 6, 7};
    uint8_t tape[10];
    expect(fern_recorder_begin(words, 2, FERN_TAPE_BIG, 1, 1, tape, 10).refusal == FERN_BROKEN && words[0] == 5 && words[1] == 6 && fern_recorder_begin(words, 3, FERN_TAPE_BIG, 1, 1, NULL, 0).refusal == FERN_TAPE_ROOM && words[2] == 7, "a begin that is refused");
    expect(refusals[FERN_ACCEPTED] && refusals[FERN_TAPE_FIELD] && refusals[FERN_TAPE_ENTRY] && refusals[FERN_TAPE_ROOM] && refusals[FERN_BROKEN], "of every refusal");
}

/* Fields of the struct that a host set itself, where the proved functions refuse such words: entries counted from elsewhere go on from there, a buffer made shorter has no room, a variant that there is none of is told with the place, and its end writes nothing. */
static void recorded_as_set(void) {
    uint8_t tape[40], before[40];
    uint64_t words[FERN_RECORDER_WORDS];
    struct fern_recorder recorder;
    const uint64_t push = fern_entry(1, FERN_PUSH);
    memset(tape, 85, sizeof tape);
    struct fern_reply reply = fern_tape_begin(&recorder, FERN_TAPE_BIG, 2, 2, tape, sizeof tape);
    recorder.entries = words[FERN_RECORDER_ENTRIES] = 1000;
    words[FERN_RECORDER_VARIANT] = FERN_TAPE_BIG;
    words[FERN_RECORDER_LENGTH] = 7;
    expect(reply.refusal == FERN_ACCEPTED && fern_recorder_append(words, FERN_RECORDER_WORDS, push, 5, tape, sizeof tape).refusal == FERN_BROKEN, "so many entries are not in so few bytes");
    reply = fern_tape_append(&recorder, push, 5);
    expect(reply.refusal == FERN_ACCEPTED && reply.number == 22 && recorder.entries == 1001 && recorder.length == 19 && fern_tape_end(&recorder) == 22, "and the struct goes on");
    reply = fern_tape_append(&recorder, 16 * 16, 0);
    expect(reply.refusal == FERN_TAPE_ENTRY && reply.number == 1001, "with places counted from there");
    memcpy(before, tape, sizeof tape);
    recorder.tape_bytes = 20;
    reply = fern_tape_append(&recorder, push, 5);
    expect(reply.refusal == FERN_TAPE_ROOM && reply.number == 34, "no room in a buffer made shorter");
    recorder.tape_bytes = sizeof tape;
    recorder.variant = 2;
    reply = fern_tape_append(&recorder, push, 5);
    expect(reply.refusal == FERN_TAPE_FIELD && reply.number == 1001 && fern_tape_end(&recorder) == 22 && memcmp(tape, before, sizeof tape) == 0 && recorder.entries == 1001 && recorder.length == 19, "no such variant");
}

int main(void) {
    expect(strcmp(fern_version(), FERN_VERSION) == 0, "the library is of the header's version");
    whole_calls();
    weak_exchanges();
    renewed();
    one_slot();
    unbounded();
    recorded();
    recorded_in_words();
    recorded_as_set();
    return wrong;
}
