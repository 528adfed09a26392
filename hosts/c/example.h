/* What both examples have: what should be so, one call to its end, what a worker was answered. EXAMPLE is the example's name. */
#ifndef EXAMPLE_H
#define EXAMPLE_H

#include "fernmoldew.h"

#include <inttypes.h>
#include <stdio.h>
#include <string.h>

static int wrong;

static void expect(bool right, const char *what) {
    if (!right) {
        wrong = 1;
        fprintf(stderr, EXAMPLE ": not so: %s\n", what);
    }
}

/* One entry of an example's queue. */
typedef uint64_t stepping(uint64_t worker, enum fern_call call, uint64_t item);

enum { STILL_UNDER_WAY = -1 };

/* One call of the worker with this record, nobody else acting meanwhile, in at most so many acts: how many it took, or none where something is refused. One that has not ended then waits for another worker, who has a slot in
 * hand: it would act in vain to the end of the meter, and is left where it is. */
static int alone(stepping *step, int most, const uint64_t *record, uint64_t worker, enum fern_call call, uint64_t item) {
    int acts = 0;
    uint64_t refusal = step(worker, call, item);
    while (refusal == FERN_ACCEPTED && fern_busy(record) && acts < most) {
        refusal = step(worker, FERN_ACT, 0);
        acts++;
    }
    if (refusal != FERN_ACCEPTED)
        return 0;
    return fern_busy(record) ? STILL_UNDER_WAY : acts;
}

static void say(const char *who, const uint64_t record[FERN_SLOT_RECORD]) {
    static const char *const answers[] = {"nothing", "pushed", "empty", "closed", "yes", "no", "full", "closed", "displaced", "popped", "len"};
    printf("%s: %s", who, answers[fern_answer(record)]);
    if (fern_has_value(record))
        printf(" %" PRIu64, fern_value(record));
    printf("\n");
}

#endif
