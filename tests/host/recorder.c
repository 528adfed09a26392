/* recorder SEED TAPE LOG: a host that archives what it does. Three workers on a ring of two slots, in an order drawn by the seed; each entry that is accepted goes to a recorder, in a buffer that is made longer whenever it
 * has no room. TAPE is the recorder's tape, and LOG what was seen from outside, as ./possible reads it; the schedule goes to standard output. */
#include "fernmoldew.h"

#include <inttypes.h>
#include <stdio.h>
#include <stdlib.h>

enum { WORKERS = 3, CAPACITY = 2, ENTRIES = 60 };

static uint64_t head[FERN_HEAD_WORDS], slots[FERN_SLOTS_WORDS], records[WORKERS * FERN_RECORD_WORDS];
static const struct fern_ring ring = {head, slots, records, WORKERS};
static uint64_t state;

static uint64_t below(uint64_t most) {
    state = state * UINT64_C(6364136223846793005) + UINT64_C(1442695040888963407);
    return (state >> 33) % most;
}

static const char *const calls[] = {"push", "force_push", "pop", "len", "is_empty", "is_full", "close", "is_closed"};
static const char *const answers[] = {"", "pushed", "empty", "closed", "yes", "no", "full", "closed", "displaced", "popped", "len"};

int main(int count, char **words) {
    uint64_t *recorder = calloc(FERN_RECORDER_WORDS, sizeof *recorder);
    size_t room = FERN_TAPE_HEAD_BYTES + FERN_TAPE_END_BYTES;
    uint8_t *tape = malloc(room);
    struct { enum fern_call call; uint64_t item; int begun; } under[WORKERS];
    if (count != 4)
        return 2;
    state = strtoull(words[1], NULL, 10);
    FILE *out = fopen(words[2], "wb"), *log = fopen(words[3], "w");
    if (!out || !log || fern_ring_fresh(&ring, CAPACITY, 1) != FERN_ACCEPTED || fern_recorder_begin(recorder, FERN_RECORDER_WORDS, below(2) ? FERN_TAPE_BIG : FERN_TAPE_LITTLE, CAPACITY, WORKERS, tape, room).refusal != FERN_ACCEPTED)
        return 1;
    fprintf(log, "capacity %d\nworkers %d\n", CAPACITY, WORKERS);
    for (int at = 0; at < ENTRIES; at++) {
        const size_t worker = below(WORKERS);
        const bool begins = !fern_busy(fern_record(&ring, worker));
        if (begins) {
            under[worker].call = (enum fern_call)(below(3) ? below(3) : below(8));
            under[worker].item = under[worker].call <= FERN_FORCE_PUSH ? 100 + (uint64_t)at : 0;
            under[worker].begun = at;
        }
        const uint64_t first = fern_entry(worker, begins ? under[worker].call : fern_weak_next(fern_record(&ring, worker)) && below(4) == 0 ? FERN_ACT_LOSE : FERN_ACT), second = begins ? under[worker].item : 0;
        if (fern_ring_entry(&ring, first, second) != FERN_ACCEPTED)
            return 1;
        printf("%" PRIu64 " %" PRIu64 "\n", first, second);
        struct fern_reply reply = fern_recorder_append(recorder, FERN_RECORDER_WORDS, first, second, tape, room);
        if (reply.refusal == FERN_TAPE_ROOM) {
            room = (size_t)reply.number;
            tape = realloc(tape, room);
            reply = fern_recorder_append(recorder, FERN_RECORDER_WORDS, first, second, tape, room);
        }
        if (reply.refusal != FERN_ACCEPTED)
            return 1;
        if (below(8) == 0 && fern_recorder_end(recorder, FERN_RECORDER_WORDS, tape, room).number != reply.number)
            return 1;
        const uint64_t *record = fern_record(&ring, worker);
        if (!begins && !fern_busy(record)) {
            fprintf(log, "w%zu %s", worker, calls[under[worker].call]);
            if (under[worker].call <= FERN_FORCE_PUSH)
                fprintf(log, " %" PRIu64, under[worker].item);
            fprintf(log, " %d..%d %s", under[worker].begun, at, answers[fern_answer(record)]);
            if (fern_has_value(record) && fern_answer(record) >= FERN_DISPLACED)
                fprintf(log, " %" PRIu64, fern_value(record));
            fprintf(log, "\n");
        }
    }
    for (size_t worker = 0; worker < WORKERS; worker++)
        if (fern_busy(fern_record(&ring, worker))) {
            fprintf(log, "w%zu %s", worker, calls[under[worker].call]);
            if (under[worker].call <= FERN_FORCE_PUSH)
                fprintf(log, " %" PRIu64, under[worker].item);
            fprintf(log, " %d..\n", under[worker].begun);
        }
    const struct fern_reply ended = fern_recorder_end(recorder, FERN_RECORDER_WORDS, tape, room);
    if (ended.refusal != FERN_ACCEPTED || fwrite(tape, 1, (size_t)ended.number, out) != ended.number || fclose(out) || fclose(log))
        return 1;
    free(tape);
    free(recorder);
    return 0;
}
