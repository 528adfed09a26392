/* What a torque station does with the one-slot queue: a driver hands over the torque of the last screw, a checker takes it, one
 * action at a time in the order that the station chooses; an older torque that nobody took is displaced. Then an entry that is refused,
 * and words that somebody has written over. It writes what happened, a line each, and ends with status 1 where something is not as it should be. */
#define EXAMPLE "torque_station"
#include "example.h"

enum { DRIVER, CHECKER, WORKERS };

static uint64_t head[FERN_SLOT_HEAD], records[FERN_SLOT_WORKERS][FERN_SLOT_RECORD];

/* The two slices, as every call takes them. */
#define LENT head, FERN_SLOT_HEAD, &records[0][0], (size_t)FERN_SLOT_RECORDS

static uint64_t step(uint64_t worker, enum fern_call call, uint64_t item) {
    return fern_slot_step(LENT, fern_entry(worker, call), item);
}

/* A whole call: at most four acts, as long as the slot is in no hand. */
static void whole(uint64_t worker, enum fern_call call, uint64_t item) {
    expect(alone(step, FERN_SLOT_MOST_ACTS_ALONE, records[worker], worker, call, item) > 0, "a call ends within four acts");
}

int main(void) {
    uint64_t refusal = fern_slot_make(LENT, WORKERS);
    if (refusal != FERN_ACCEPTED) {
        fprintf(stderr, EXAMPLE ": %s\n", fern_refusal_says(refusal));
        return 1;
    }
    whole(DRIVER, FERN_PUSH, 240);
    say("driver", records[DRIVER]);
    whole(DRIVER, FERN_FORCE_PUSH, 255);
    say("driver", records[DRIVER]);
    expect(fern_answer(records[DRIVER]) == FERN_DISPLACED && fern_value(records[DRIVER]) == 240, "an older torque is displaced");

    uint64_t item[1];
    struct fern_reply waiting = fern_slot_contents(LENT, item, 1);
    printf("waiting: %" PRIu64 ", the torque %" PRIu64 "\n", waiting.number, item[0]);

    /* The checker has the slot in its hand and has not let go: a push answers full, although nothing waits any more. */
    step(CHECKER, FERN_POP, 0);
    step(CHECKER, FERN_ACT, 0);
    step(CHECKER, FERN_ACT, 0);
    whole(DRIVER, FERN_PUSH, 260);
    say("driver", records[DRIVER]);
    step(CHECKER, FERN_ACT, 0);
    say("checker", records[CHECKER]);
    expect(fern_answer(records[CHECKER]) == FERN_POPPED && fern_value(records[CHECKER]) == 255, "the checker has the newest torque");

    /* A whole call as a schedule. */
    const uint64_t schedule[] = {fern_entry(DRIVER, FERN_PUSH), 260, fern_entry(DRIVER, FERN_ACT), 0, fern_entry(DRIVER, FERN_ACT), 0, fern_entry(DRIVER, FERN_ACT), 0};
    struct fern_reply ran = fern_slot_run(LENT, schedule, sizeof schedule / sizeof *schedule);
    printf("a schedule of %" PRIu64 " entries: %s\n", ran.number, fern_refusal_says(ran.refusal));
    say("driver", records[DRIVER]);

    /* What is refused changes no word. */
    uint64_t head_before[FERN_SLOT_HEAD], records_before[FERN_SLOT_WORKERS][FERN_SLOT_RECORD];
    memcpy(head_before, head, sizeof head);
    memcpy(records_before, records, sizeof records);
    refusal = step(CHECKER, FERN_ACT, 0);
    printf("an act of an idle worker: refusal %" PRIu64 ", %s\n", refusal, fern_refusal_says(refusal));
    expect(refusal == FERN_IDLE && memcmp(head, head_before, sizeof head) == 0 && memcmp(records, records_before, sizeof records) == 0, "a refused step changes no word");

    /* Words that somebody wrote over. */
    head[FERN_SLOT_HEAD_STATE] = 8;
    refusal = step(CHECKER, FERN_POP, 0);
    printf("a state that there is none of: refusal %" PRIu64 "\n", refusal);
    expect(refusal == FERN_BROKEN && fern_slot_broken(LENT) == FERN_BROKEN, "a broken queue is refused");
    head[FERN_SLOT_HEAD_STATE] = 2;
    expect(fern_slot_broken(LENT) == FERN_ACCEPTED, "and not, once it is mended");
    expect(fern_slot_broken(head, FERN_SLOT_HEAD, &records[0][0], FERN_SLOT_RECORDS - 1) == FERN_BROKEN && fern_slot_make(head, FERN_SLOT_HEAD - 1, &records[0][0], FERN_SLOT_RECORDS, WORKERS) == FERN_BROKEN,
           "slices of other lengths are refused");
    records[CHECKER][FERN_RECORD_CODE] = FERN_SLOT_CODES;
    printf("a code that no place has: refusal %" PRIu64 "\n", step(CHECKER, FERN_POP, 0));
    return wrong;
}
