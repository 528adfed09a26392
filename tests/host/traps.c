/* What hosts/README.md and fernmoldew.h say of the library besides its answers, tried: NULL where a length is 0; bytes of stack of every call; calls in two threads at once on words of their own, each as if it
 * were alone; words that are at the end of the meter. Status 1 where something is not so. */
#define _GNU_SOURCE
#define FERN_NODISCARD /* where stack is measured no answer is looked at */
#include "fernmoldew.h"

#include <inttypes.h>
#include <pthread.h>
#include <stdio.h>
#include <stdlib.h>
#include <string.h>

enum { STACK = 1 << 20, WORKERS = 4, ENTRIES = 50000 };

static int wrong;

static void expect(bool right, const char *what) {
    if (!right) {
        wrong = 1;
        fprintf(stderr, "traps: not so: %s\n", what);
    }
}

struct ring {
    uint64_t head[FERN_HEAD], slots[FERN_SLOTS], records[FERN_WORKERS * FERN_RECORD];
};
struct slot {
    uint64_t head[FERN_SLOT_HEAD], records[FERN_SLOT_RECORDS];
};
struct unbounded {
    uint64_t head[FERN_UNBOUNDED_HEAD_WORDS], pool[FERN_UNBOUNDED_POOL_WORDS], records[FERN_UNBOUNDED_RECORDS_WORDS];
};
#define UNBOUNDED(u) (u)->head, FERN_UNBOUNDED_HEAD_WORDS, (u)->pool, FERN_UNBOUNDED_POOL_WORDS, (u)->records, (size_t)FERN_UNBOUNDED_RECORDS_WORDS
#define RING(r) (r)->head, FERN_HEAD, (r)->slots, FERN_SLOTS, (r)->records, (size_t)WORKERS * FERN_RECORD
#define SLOT(s) (s)->head, FERN_SLOT_HEAD, (s)->records, (size_t)FERN_SLOT_RECORDS

static bool answers(struct fern_reply reply, uint64_t refusal, uint64_t number) {
    return reply.refusal == refusal && reply.number == number;
}

static uint64_t random_below(uint64_t *state, uint64_t below) {
    *state = *state * UINT64_C(6364136223846793005) + UINT64_C(1442695040888963407);
    return (*state >> 33) % below;
}

/* ---- NULL with length 0 */

static void nothing_lent(void) {
    static struct ring ring;
    static struct slot slot;
    static struct unbounded queue;
    uint64_t about[FERN_TAPE_ABOUT];
    uint8_t tape[FERN_TAPE_BYTES(0)];
    expect(fern_ring_make(NULL, 0, NULL, 0, NULL, 0, 1, 1) == FERN_BROKEN && fern_ring_broken(NULL, 0, NULL, 0, NULL, 0) == FERN_BROKEN &&
               fern_ring_step(NULL, 0, NULL, 0, NULL, 0, 0, 0) == FERN_BROKEN && answers(fern_ring_capacity(NULL, 0, NULL, 0, NULL, 0), FERN_BROKEN, 0),
           "no words are no ring");
    expect(fern_ring_make(RING(&ring), 2, 1) == FERN_ACCEPTED && answers(fern_ring_run(RING(&ring), NULL, 0), FERN_ACCEPTED, 0), "a schedule of no words runs");
    expect(answers(fern_ring_contents(RING(&ring), NULL, 0), FERN_ACCEPTED, 0), "nothing waits, and fits into no room");
    expect(fern_slot_make(NULL, 0, NULL, 0, 1) == FERN_BROKEN && fern_slot_broken(NULL, 0, NULL, 0) == FERN_BROKEN && fern_slot_step(NULL, 0, NULL, 0, 0, 0) == FERN_BROKEN, "no words are no one-slot queue");
    expect(fern_slot_make(SLOT(&slot), 1) == FERN_ACCEPTED && answers(fern_slot_run(SLOT(&slot), NULL, 0), FERN_ACCEPTED, 0) && answers(fern_slot_contents(SLOT(&slot), NULL, 0), FERN_ACCEPTED, 0), "nor in a one-slot queue");
    expect(fern_unbounded_make(NULL, 0, NULL, 0, NULL, 0, 1) == FERN_BROKEN && fern_unbounded_broken(NULL, 0, NULL, 0, NULL, 0) == FERN_BROKEN && fern_unbounded_step(NULL, 0, NULL, 0, NULL, 0, 0, 0) == FERN_BROKEN, "no words are no unbounded queue");
    expect(fern_unbounded_make(UNBOUNDED(&queue), 1) == FERN_ACCEPTED && answers(fern_unbounded_run(UNBOUNDED(&queue), NULL, 0), FERN_ACCEPTED, 0) && answers(fern_unbounded_contents(UNBOUNDED(&queue), NULL, 0), FERN_ACCEPTED, 0), "nor in an unbounded queue");
    expect(answers(fern_tape_write(FERN_TAPE_BIG, 1, 1, NULL, 0, tape, sizeof tape), FERN_ACCEPTED, sizeof tape) && answers(fern_tape_write(FERN_TAPE_BIG, 1, 1, NULL, 0, NULL, 0), FERN_TAPE_ROOM, sizeof tape), "a tape of no entries");
    expect(answers(fern_tape_read(tape, sizeof tape, about, FERN_TAPE_ABOUT, NULL, 0), FERN_ACCEPTED, 0) && answers(fern_tape_read(NULL, 0, about, FERN_TAPE_ABOUT, NULL, 0), FERN_TAPE_CUT, 0), "is read, and no bytes are cut short");
    uint64_t recorder[FERN_RECORDER_WORDS];
    expect(answers(fern_recorder_begin(recorder, FERN_RECORDER_WORDS, FERN_TAPE_BIG, 1, 1, NULL, 0), FERN_TAPE_ROOM, sizeof tape) && answers(fern_recorder_begin(NULL, 0, FERN_TAPE_BIG, 1, 1, tape, sizeof tape), FERN_BROKEN, 0) && answers(fern_recorder_begin(recorder, FERN_RECORDER_WORDS, FERN_TAPE_BIG, 1, 1, tape, sizeof tape), FERN_ACCEPTED, sizeof tape) && answers(fern_recorder_append(recorder, FERN_RECORDER_WORDS, fern_entry(0, FERN_POP), 0, NULL, 0), FERN_BROKEN, 0) && answers(fern_recorder_end(recorder, FERN_RECORDER_WORDS, NULL, 0), FERN_BROKEN, 0), "a recorder of no buffer and of no words");
}

/* ---- the end of the meter */

static void at_its_end(void) {
    static struct ring ring;
    uint64_t items[1];
    fern_ring_make(RING(&ring), 2, 1);
    const uint64_t push[] = {fern_entry(0, FERN_PUSH), 7, fern_entry(0, FERN_ACT), 0, fern_entry(0, FERN_ACT), 0, fern_entry(0, FERN_ACT), 0, fern_entry(0, FERN_ACT), 0, fern_entry(0, FERN_ACT), 0};
    expect(answers(fern_ring_run(RING(&ring), push, sizeof push / sizeof *push), FERN_ACCEPTED, 6), "a push");
    ring.head[FERN_HEAD_METER] = FERN_METER_LAST;
    expect(fern_ring_broken(RING(&ring)) == 0 && answers(fern_ring_contents(RING(&ring), items, 1), FERN_ACCEPTED, 1) && items[0] == 7, "what waits can be read at the end of the meter");
    expect(fern_ring_step(RING(&ring), fern_entry(0, FERN_POP), 0) == FERN_ACCEPTED && fern_ring_step(RING(&ring), fern_entry(0, FERN_ACT), 0) == FERN_METER_FULL, "a call can be begun there, and never acts");
    expect(answers(fern_ring_contents(RING(&ring), items, 1), FERN_BUSY, 0), "and what waits can't be read then");
}

/* ---- threads, each on words of its own */

struct run {
    uint64_t seed;
    struct ring ring;
    struct slot slot;
};

static void *random_entries(void *given) {
    struct run *run = given;
    uint64_t state = run->seed;
    fern_ring_make(RING(&run->ring), 1 + run->seed % FERN_CAPACITY, 1 + run->seed % 2);
    fern_slot_make(SLOT(&run->slot), WORKERS);
    for (int i = 0; i < ENTRIES; i++) {
        uint64_t worker = random_below(&state, WORKERS), call = random_below(&state, 40), item = call < FERN_POP ? state : 0;
        fern_ring_step(RING(&run->ring), fern_entry(worker, call < FERN_ACT ? (enum fern_call)call : FERN_ACT), item);
        fern_slot_step(SLOT(&run->slot), fern_entry(worker, call < FERN_ACT ? (enum fern_call)call : FERN_ACT), item);
    }
    return NULL;
}

static void side_by_side(void) {
    enum { THREADS = 4 };
    static struct run alone[THREADS], beside[THREADS];
    pthread_t threads[THREADS];
    for (int i = 0; i < THREADS; i++) {
        alone[i].seed = beside[i].seed = (uint64_t)i + 46;
        random_entries(&alone[i]);
    }
    for (int i = 0; i < THREADS; i++)
        if (pthread_create(&threads[i], NULL, random_entries, &beside[i]) != 0)
            exit(2);
    for (int i = 0; i < THREADS; i++)
        pthread_join(threads[i], NULL);
    expect(memcmp(alone, beside, sizeof alone) == 0, "a thread's words are its own");
    expect(alone[0].ring.head[FERN_HEAD_METER] > ENTRIES / 10 && alone[0].slot.head[FERN_SLOT_HEAD_METER] > ENTRIES / 10, "many entries are acts");
}

/* ---- stack: every call on a stack that was painted first, how deep the paint is gone */

#ifndef __SANITIZE_ADDRESS__
static uint8_t *low;
static size_t deepest;
static const char *deepest_of;

static void look(const char *name, const void *from) {
    size_t clean = 0;
    while (low[clean] == 0xA5)
        clean++;
    size_t deep = (size_t)((const uint8_t *)from - (low + clean));
    if (deep > deepest) {
        deepest = deep;
        deepest_of = name;
    }
    /* painted again, so that the next call is told by what it touches itself */
    const size_t own = (size_t)((uintptr_t)&clean - (uintptr_t)low) - 1024;
    if (own > clean)
        memset(low + clean, 0xA5, own - clean);
}
#define ON_STACK(call) \
    do { \
        uint8_t here; \
        (void)(call); \
        look(#call, &here); \
    } while (0)

static void *every_call(void *given) {
    (void)given;
    static struct ring ring;
    static struct slot slot;
    static uint64_t items[FERN_CAPACITY], schedule[2 * 6 * FERN_CAPACITY], about[FERN_TAPE_ABOUT];
    static uint8_t tape[FERN_TAPE_BYTES(2 * 6 * FERN_CAPACITY)];
    size_t words = 0;
    for (uint64_t i = 0; i < FERN_CAPACITY; i++) {
        schedule[words++] = fern_entry(0, FERN_PUSH);
        schedule[words++] = i;
        for (int act = 0; act < 5; act++) {
            schedule[words++] = fern_entry(0, FERN_ACT);
            schedule[words++] = 0;
        }
    }
    ON_STACK(fern_ring_make(RING(&ring), FERN_CAPACITY, 2));
    ON_STACK(fern_ring_run(RING(&ring), schedule, words));
    ON_STACK(fern_ring_contents(RING(&ring), items, FERN_CAPACITY));
    ON_STACK(fern_ring_capacity(RING(&ring)));
    ON_STACK(fern_ring_broken(RING(&ring)));
    ON_STACK(fern_slot_make(SLOT(&slot), WORKERS));
    ON_STACK(fern_slot_run(SLOT(&slot), schedule, 8));
    ON_STACK(fern_slot_contents(SLOT(&slot), items, FERN_CAPACITY));
    ON_STACK(fern_slot_broken(SLOT(&slot)));
    uint64_t state = 46;
    for (int i = 0; i < 1000; i++) {
        uint64_t worker = random_below(&state, WORKERS), call = random_below(&state, 40);
        uint64_t first = fern_entry(worker, call < FERN_ACT ? (enum fern_call)call : FERN_ACT), item = call < FERN_POP ? state : 0;
        ON_STACK(fern_ring_step(RING(&ring), first, item));
        ON_STACK(fern_slot_step(SLOT(&slot), first, item));
    }
    struct fern_reply written;
    ON_STACK(written = fern_tape_write(FERN_TAPE_LITTLE, FERN_CAPACITY, WORKERS, schedule, words, tape, sizeof tape));
    ON_STACK(fern_tape_read(tape, written.number, about, FERN_TAPE_ABOUT, schedule, words));
    uint64_t recorder[FERN_RECORDER_WORDS];
    ON_STACK(fern_recorder_begin(recorder, FERN_RECORDER_WORDS, FERN_TAPE_LITTLE, FERN_CAPACITY, WORKERS, tape, sizeof tape));
    ON_STACK(fern_recorder_append(recorder, FERN_RECORDER_WORDS, fern_entry(0, FERN_PUSH), 7, tape, sizeof tape));
    ON_STACK(fern_recorder_end(recorder, FERN_RECORDER_WORDS, tape, sizeof tape));
    return NULL;
}

static void *every_call_unbounded(void *given) {
    (void)given;
    static struct unbounded queue;
    static uint64_t items[FERN_UNBOUNDED_ITEMS];
    ON_STACK(fern_unbounded_make(UNBOUNDED(&queue), WORKERS));
    uint64_t state = 46;
    for (int i = 0; i < 1000; i++) {
        uint64_t worker = random_below(&state, WORKERS), call = random_below(&state, 40);
        uint64_t schedule[] = {fern_entry(worker, call < FERN_ACT ? (enum fern_call)call : FERN_ACT), call < FERN_POP ? state : 0};
        if (i % 2)
            ON_STACK(fern_unbounded_step(UNBOUNDED(&queue), schedule[0], schedule[1]));
        else
            ON_STACK(fern_unbounded_run(UNBOUNDED(&queue), schedule, 2));
    }
    ON_STACK(fern_unbounded_broken(UNBOUNDED(&queue)));
    ON_STACK(fern_unbounded_make(UNBOUNDED(&queue), WORKERS));
    ON_STACK(fern_unbounded_contents(UNBOUNDED(&queue), items, FERN_UNBOUNDED_ITEMS));
    return NULL;
}

static void on_a_small_stack(void *(*every)(void *), size_t most) {
    pthread_attr_t how;
    pthread_t thread;
    deepest = 0;
    low = aligned_alloc(4096, STACK);
    if (low == NULL)
        exit(2);
    memset(low, 0xA5, STACK);
    if (pthread_attr_init(&how) != 0 || pthread_attr_setstack(&how, low, STACK) != 0 || pthread_create(&thread, &how, every, NULL) != 0)
        exit(2);
    pthread_join(thread, NULL);
    printf("the deepest call, %.*s: %zu bytes of stack\n", (int)strcspn(deepest_of, "("), deepest_of, deepest);
    expect(deepest > 0 && deepest <= most, "a call takes no more stack than the header says");
    free(low);
}
#endif

int main(void) {
    nothing_lent();
    at_its_end();
    side_by_side();
#ifndef __SANITIZE_ADDRESS__
    on_a_small_stack(every_call, FERN_STACK_BYTES);
    on_a_small_stack(every_call_unbounded, FERN_UNBOUNDED_STACK_BYTES);
#endif
    return wrong;
}
