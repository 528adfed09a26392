/* What a bench controller does with the queue: two readers put the speeds of pumps in, a judge takes them out, one
 * action at a time in the order that the controller chooses. A schedule goes to a tape and comes back from it. Then an
 * entry that is refused, and a ring that somebody has broken. It writes what happened, a line each, and ends with status 1 where something is not as it should be. */
#define EXAMPLE "bench_controller"
#include "example.h"

enum { READER_A, READER_B, JUDGE, WORKERS };

static uint64_t head[FERN_HEAD], slots[FERN_SLOTS], records[WORKERS][FERN_RECORD];

/* The three slices, as every call takes them. */
#define LENT head, FERN_HEAD, slots, FERN_SLOTS, &records[0][0], (size_t)WORKERS * FERN_RECORD

static uint64_t step(uint64_t worker, enum fern_call call, uint64_t item) {
    return fern_ring_step(LENT, fern_entry(worker, call), item);
}

/* A whole call: at most seven acts, as long as no slot is in another hand. */
static void whole(uint64_t worker, enum fern_call call, uint64_t item) {
    expect(alone(step, FERN_MOST_ACTS_ALONE, records[worker], worker, call, item) > 0, "a call ends within seven acts");
}

/* A call that was begun, to its end: nobody it waits for has a slot in hand. */
static void to_its_end(uint64_t worker) {
    while (fern_busy(records[worker]) && step(worker, FERN_ACT, 0) == FERN_ACCEPTED)
        ;
}

int main(void) {
    uint64_t refusal = fern_ring_make(LENT, 2, 1);
    if (refusal != FERN_ACCEPTED) {
        fprintf(stderr, EXAMPLE ": %s\n", fern_refusal_says(refusal));
        return 1;
    }
    printf("capacity %" PRIu64 "\n", fern_ring_capacity(LENT).number);

    /* Two readers at once, turn about: both get in, each at a slot of its own. */
    step(READER_A, FERN_PUSH, 2950);
    step(READER_B, FERN_PUSH, 3010);
    while (fern_busy(records[READER_A]) || fern_busy(records[READER_B])) {
        if (fern_busy(records[READER_A]))
            step(READER_A, FERN_ACT, 0);
        if (fern_busy(records[READER_B]))
            step(READER_B, FERN_ACT, 0);
    }
    say("reader A", records[READER_A]);
    say("reader B", records[READER_B]);

    /* The ring is full: the third speed is handed back. */
    whole(READER_A, FERN_PUSH, 2980);
    say("reader A", records[READER_A]);
    expect(fern_answer(records[READER_A]) == FERN_FULL && fern_value(records[READER_A]) == 2980, "a push into a full ring is handed its item back");

    uint64_t items[FERN_CAPACITY];
    struct fern_reply waiting = fern_ring_contents(LENT, items, FERN_CAPACITY);
    printf("waiting:");
    for (uint64_t i = 0; i < waiting.number; i++)
        printf(" %" PRIu64, items[i]);
    printf("\n");

    /* The judge takes them out in the order of their claims. */
    for (int i = 0; i < 2; i++) {
        whole(JUDGE, FERN_POP, 0);
        say("judge", records[JUDGE]);
        expect(fern_value(records[JUDGE]) == items[i], "items come out in the order in which they waited");
    }
    whole(JUDGE, FERN_POP, 0);
    say("judge", records[JUDGE]);

    /* A reader has claimed a slot and has not let go: the judge cannot have an answer before it does. */
    step(READER_A, FERN_PUSH, 2960);
    for (int i = 0; i < 3; i++)
        step(READER_A, FERN_ACT, 0);
    expect(alone(step, FERN_MOST_ACTS_ALONE, records[JUDGE], JUDGE, FERN_POP, 0) == STILL_UNDER_WAY, "a pop waits for the slot that is in hand");
    printf("judge: still under way after %d acts, beside a slot in hand\n", FERN_MOST_ACTS_ALONE);
    to_its_end(READER_A);
    to_its_end(JUDGE);
    say("judge", records[JUDGE]);

    /* No queue has a worker of such a number, and it is no other worker's. */
    refusal = step(UINT64_C(1) << 60, FERN_PUSH, 2970);
    printf("a push of worker 2^60: refusal %" PRIu64 ", %s\n", refusal, fern_refusal_says(refusal));

    /* A whole call as a schedule. */
    const uint64_t schedule[] = {fern_entry(READER_A, FERN_PUSH), 2990, fern_entry(READER_A, FERN_ACT), 0, fern_entry(READER_A, FERN_ACT), 0, fern_entry(READER_A, FERN_ACT), 0, fern_entry(READER_A, FERN_ACT), 0, fern_entry(READER_A, FERN_ACT), 0};
    struct fern_reply ran = fern_ring_run(LENT, schedule, sizeof schedule / sizeof *schedule);
    printf("a schedule of %" PRIu64 " entries: %s\n", ran.number, fern_refusal_says(ran.refusal));
    say("reader A", records[READER_A]);

    /* The schedule as a tape, for the archive; and back. */
    enum { WORDS = sizeof schedule / sizeof *schedule };
    uint8_t tape[FERN_TAPE_BYTES(WORDS)];
    struct fern_reply archived = fern_tape_write(FERN_TAPE_BIG, 2, WORKERS, schedule, WORDS, tape, sizeof tape);
    printf("a tape of %" PRIu64 " bytes: %s\n", archived.number, fern_refusal_says(archived.refusal));
    uint64_t about[FERN_TAPE_ABOUT], again[FERN_TAPE_WORDS(sizeof tape)];
    struct fern_reply heard = fern_tape_read(tape, archived.number, about, FERN_TAPE_ABOUT, again, sizeof again / sizeof *again);
    printf("its capacity %" PRIu64 ", workers %" PRIu64 ", words %" PRIu64 "\n", about[FERN_TAPE_CAPACITY], about[FERN_TAPE_WORKERS], heard.number);
    expect(heard.refusal == FERN_ACCEPTED && heard.number == WORDS && memcmp(again, schedule, sizeof schedule) == 0, "a tape gives its schedule back");
    heard = fern_tape_read(tape, archived.number - 1, about, FERN_TAPE_ABOUT, again, sizeof again / sizeof *again);
    printf("without its last byte: refusal %" PRIu64 " at byte %" PRIu64 ", %s\n", heard.refusal, heard.number, fern_refusal_says(heard.refusal));

    /* What is refused changes no word. */
    uint64_t before[FERN_HEAD + WORKERS * FERN_RECORD], after[FERN_HEAD + WORKERS * FERN_RECORD];
    memcpy(before, head, sizeof head);
    memcpy(before + FERN_HEAD, records, sizeof records);
    refusal = step(JUDGE, FERN_ACT, 0);
    printf("an act of an idle worker: refusal %" PRIu64 ", %s\n", refusal, fern_refusal_says(refusal));
    memcpy(after, head, sizeof head);
    memcpy(after + FERN_HEAD, records, sizeof records);
    expect(refusal == FERN_IDLE && memcmp(before, after, sizeof before) == 0, "a refused step changes no word");

    /* A ring that somebody wrote over. */
    head[FERN_HEAD_MARK]++;
    refusal = step(JUDGE, FERN_POP, 0);
    printf("a mark that is not by rule: refusal %" PRIu64 ", %s\n", refusal, fern_refusal_says(refusal));
    expect(refusal == FERN_BROKEN && fern_ring_broken(LENT) == FERN_BROKEN, "a broken ring is refused");
    head[FERN_HEAD_MARK]--;
    records[JUDGE][FERN_RECORD_CODE] = 99;
    expect(fern_ring_broken(LENT) == FERN_BROKEN, "a code that no place has is refused");
    printf("a code that no place has: refusal %" PRIu64 "\n", step(JUDGE, FERN_POP, 0));
    return wrong;
}
