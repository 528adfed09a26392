/* fernmoldew.h: the proved bounded queue, the one-slot queue, the unbounded queue and tapes of schedules, linked into a
 * program of yours.
 *
 * What no proof speaks of, and you must see to: the slices of a call must not overlap, each must be as long as is
 * said and aligned as its type is (words at 8 bytes, a tape anywhere), two calls on the same words must not run at once,
 * and nobody else may write the words between two calls. Everything else is refused with a number, and a refused call
 * changes no word. NULL is taken where the length is 0.
 *
 * Calls on different words may run at once, in any threads: the library has no data of its own, asks for no memory, and
 * takes less than FERN_STACK_BYTES of stack (the unbounded queue's functions take more, FERN_UNBOUNDED_STACK_BYTES at
 * most). Words are in the machine's byte order: lent as they are, they go to a
 * machine of the same order; a tape goes to any.
 *
 * The meter counts acts. At FERN_METER_LAST every act is refused with FERN_METER_FULL, so a call under way never ends,
 * and while one is, contents is refused. Before that, begin no more calls, let those under way end, take the contents,
 * make the ring afresh and push them again.
 *
 * The ring and its workers' records are words in your memory, three arrays of uint64_t that you keep and lend with
 * each call:
 *
 *     head     FERN_HEAD_WORDS: mark, lap, capacity, edition, head, tail, meter, layout number
 *     slots    FERN_SLOTS_WORDS, two for each of 1,024 slots: stamp and value. The first `capacity` slots are used.
 *     records  FERN_RECORD_WORDS for each worker, 1 to FERN_WORKERS of them side by side: code, first, second,
 *              differed, failed. All zeros is a worker that is idle and has no answer yet.
 *
 * struct fern_ring names the three once, for the functions at the end of this header, which are C over the proved ones:
 *
 *     static uint64_t head[FERN_HEAD_WORDS], slots[FERN_SLOTS_WORDS], records[2 * FERN_RECORD_WORDS];
 *     const struct fern_ring ring = {head, slots, records, 2};
 *     if (fern_ring_fresh(&ring, 4, 1) == FERN_ACCEPTED && fern_ring_call(&ring, 0, FERN_PUSH, 2950).answer == FERN_PUSHED)
 *         ..
 *
 * A step is an entry of two words: `first` is 16 times the worker's number plus a code (FERN_PUSH .. FERN_ACT_LOSE),
 * `second` is the item of a push or a force_push, else 0. A call is begun by one entry and then goes on by one atomic
 * action with each FERN_ACT; the worker's record says where it stands. hosts/README.md shows a whole call, and where
 * it stops: beside a worker who has a slot in hand.
 *
 * Words that stand for no ring and records (a wrong length, a code that there is none of, a word that is not used
 * and not 0, another layout number) are refusal FERN_BROKEN, as are those of a broken ring.
 *
 * The torque station's one-slot queue is the same in two arrays, with entries, answers and refusals of the same numbers:
 *
 *     head     FERN_SINGLE_HEAD_WORDS: state, value, count of workers, meter, layout number
 *     records  FERN_SINGLE_RECORDS_WORDS, three for each of FERN_SINGLE_WORKERS records, whatever the count: code,
 *              first, second. All zeros is a worker that is idle and has no answer yet; past the count no record may
 *              be busy.
 *
 * The unbounded queue, over a pool of 64 blocks of 31 slots, is the same in three arrays, 4,184 words in all:
 *
 *     head     FERN_UNBOUNDED_HEAD_WORDS: head's index and block, tail's index and block, count of workers, meter, a word
 *              that is 0, layout number
 *     pool     FERN_UNBOUNDED_POOL_WORDS, 64 for each of 64 blocks: its next block, whether it is free (1) or not (0), then
 *              state and value of each of its 31 slots
 *     records  FERN_UNBOUNDED_RECORDS_WORDS, five for each of FERN_UNBOUNDED_WORKERS records, whatever the count: code and
 *              four words. All zeros is a worker that is idle and has no answer yet; past the count no record may be busy.
 *
 * A block is told by its number, no block by FERN_UNBOUNDED_NONE. fern_unbounded_make writes all words; zeros alone are no
 * queue.
 *
 * A tape is a schedule as bytes, for an archive: fern_tape_write and fern_tape_read, which need no ring; and entry by
 * entry as you do them, fern_recorder_begin, fern_recorder_append and fern_recorder_end. */
#ifndef FERNMOLDEW_H
#define FERNMOLDEW_H

#include <stdbool.h>
#include <stddef.h>
#include <stdint.h>

/* Of this header; fern_version tells that of the library that is linked. */
#define FERN_VERSION "0.1.0"

#ifdef __cplusplus
extern "C" {
#endif

/* Before a function whose answer is not to be passed over; a program that means to may define it as nothing. */
#ifdef FERN_NODISCARD
#elif (defined __cplusplus && __cplusplus >= 201703L) || (defined __STDC_VERSION__ && __STDC_VERSION__ >= 202311L)
#define FERN_NODISCARD [[nodiscard]]
#elif defined __GNUC__
#define FERN_NODISCARD __attribute__((warn_unused_result))
#else
#define FERN_NODISCARD
#endif

enum {
    FERN_HEAD_WORDS = 8,     /* of a ring's head */
    FERN_SLOTS_WORDS = 2048, /* of a ring's slots */
    FERN_RECORD_WORDS = 5,   /* of the record of a worker of a ring */
    FERN_WORKERS = 64,       /* the most workers */
    FERN_CAPACITY = 1024,    /* the most slots */
    FERN_LAYOUT = 1,         /* the layout number, in the last word of the head */
    FERN_SINGLE_HEAD_WORDS = 5,
    FERN_SINGLE_RECORD_WORDS = 3,
    FERN_SINGLE_WORKERS = 16, /* the most workers of a one-slot queue, and how many records it has */
    FERN_SINGLE_RECORDS_WORDS = FERN_SINGLE_RECORD_WORDS * FERN_SINGLE_WORKERS,
    FERN_SINGLE_LAYOUT = 2,          /* the layout number of a one-slot queue */
    FERN_MOST_ACTS_ALONE = 7,        /* of a call on a ring, nobody else acting and no slot in another hand */
    FERN_SINGLE_MOST_ACTS_ALONE = 4, /* of a call on a one-slot queue */
    FERN_STACK_BYTES = 65536         /* the most stack that a call takes */
};

/* Of the unbounded queue. */
enum {
    FERN_UNBOUNDED_HEAD_WORDS = 8,
    FERN_UNBOUNDED_BLOCK_WORDS = 64,
    FERN_UNBOUNDED_BLOCKS = 64, /* how many its pool has */
    FERN_UNBOUNDED_NONE = 64,   /* in place of a block's number: no block */
    FERN_UNBOUNDED_POOL_WORDS = FERN_UNBOUNDED_BLOCK_WORDS * FERN_UNBOUNDED_BLOCKS,
    FERN_UNBOUNDED_RECORD_WORDS = 5,
    FERN_UNBOUNDED_WORKERS = 16, /* the most workers, and how many records it has */
    FERN_UNBOUNDED_RECORDS_WORDS = FERN_UNBOUNDED_RECORD_WORDS * FERN_UNBOUNDED_WORKERS,
    FERN_UNBOUNDED_ITEMS = 1984,         /* the most items of its contents: 31 slots of 64 blocks */
    FERN_UNBOUNDED_LAYOUT = 3,           /* the layout number */
    FERN_UNBOUNDED_MOST_ACTS_ALONE = 43, /* of a call, nobody else acting and no slot in another hand: a pop's; a push 10 */
    FERN_UNBOUNDED_STACK_BYTES = 524288  /* the most stack that a call of its functions takes */
};

/* The last number of the meter: no act after it. */
#define FERN_METER_LAST UINT64_C(4294967295)

/* A tape's variant: the byte with which it begins. */
enum fern_tape_variant {
    FERN_TAPE_BIG = 1,     /* lengths and numbers are big-endian */
    FERN_TAPE_LITTLE = 129 /* little-endian, and every tag has 128 added */
};

/* What a tape is about: the words that fern_tape_read writes beside the schedule. */
enum fern_tape_about {
    FERN_TAPE_VARIANT,
    FERN_TAPE_CAPACITY,
    FERN_TAPE_WORKERS,
    FERN_TAPE_ABOUT /* how many words they are */
};

/* The words of a recorder, in which fern_recorder_begin and fern_recorder_append keep where it stands. */
enum fern_recorder_word {
    FERN_RECORDER_VARIANT,
    FERN_RECORDER_LENGTH,  /* bytes of the tape so far, but for its last field */
    FERN_RECORDER_ENTRIES, /* entries so far */
    FERN_RECORDER_WORDS    /* how many words they are */
};

enum {
    FERN_TAPE_HEAD_BYTES = 7,   /* of a tape's first field, */
    FERN_TAPE_END_BYTES = 3,    /* its last one, */
    FERN_TAPE_ENTRY_BYTES = 12  /* and at most of an entry's */
};

/* The most bytes that the tape of a schedule has, and the most words that the schedule of a tape has. */
#define FERN_TAPE_BYTES(schedule_words) (10 + 6 * (size_t)(schedule_words))
#define FERN_TAPE_WORDS(tape_bytes) ((size_t)(tape_bytes) / 2)

/* The words of the head. */
enum fern_head {
    FERN_HEAD_MARK,
    FERN_HEAD_LAP,
    FERN_HEAD_CAPACITY,
    FERN_HEAD_EDITION,
    FERN_HEAD_HEAD,
    FERN_HEAD_TAIL,
    FERN_HEAD_METER,
    FERN_HEAD_LAYOUT
};

/* The words of a one-slot queue's head. */
enum fern_single_head {
    FERN_SINGLE_HEAD_STATE, /* 1: in a worker's hand; 2: an item is in, or comes; 4: closed; and their sums */
    FERN_SINGLE_HEAD_VALUE,
    FERN_SINGLE_HEAD_COUNT,
    FERN_SINGLE_HEAD_METER,
    FERN_SINGLE_HEAD_LAYOUT
};

/* The words of an unbounded queue's head. */
enum fern_unbounded_head {
    FERN_UNBOUNDED_HEAD_HEAD,
    FERN_UNBOUNDED_HEAD_FRONT, /* head's block */
    FERN_UNBOUNDED_HEAD_TAIL,
    FERN_UNBOUNDED_HEAD_BACK, /* tail's block */
    FERN_UNBOUNDED_HEAD_COUNT,
    FERN_UNBOUNDED_HEAD_METER,
    FERN_UNBOUNDED_HEAD_NOUGHT, /* 0 */
    FERN_UNBOUNDED_HEAD_LAYOUT
};

/* The words of a record; a one-slot queue's has the first three, an unbounded queue's a code and four others (enum
 * fern_unbounded_place). */
enum fern_record {
    FERN_RECORD_CODE,
    FERN_RECORD_FIRST,
    FERN_RECORD_SECOND,
    FERN_RECORD_DIFFERED, /* exchanges of the present or the last call that were lost because the words differed */
    FERN_RECORD_FAILED    /* and because the schedule made them fail */
};

/* What a worker is asked for: the low four bits of an entry's first word. */
enum fern_call {
    FERN_PUSH,
    FERN_FORCE_PUSH,
    FERN_POP,
    FERN_LEN,
    FERN_IS_EMPTY,
    FERN_IS_FULL,
    FERN_CLOSE,
    FERN_IS_CLOSED,
    FERN_ACT,     /* one atomic action of the call that was begun */
    FERN_ACT_LOSE /* the same, and its weak exchange fails */
};

/* Refusals. A call of this library answers 0, or one of 1 to 18, and of the unbounded queue 23; the others are those of
 * walks, here so that every number has its name. */
enum fern_refusal {
    FERN_ACCEPTED = 0,
    FERN_BAD_CAPACITY = 1,     /* capacity 0, or above FERN_CAPACITY */
    FERN_BAD_COUNT = 2,        /* no workers, or more than FERN_WORKERS */
    FERN_NO_SUCH_WORKER = 3,   /* the worker's number is not below the count */
    FERN_BUSY = 4,             /* a busy worker was to begin a call; contents while any is busy */
    FERN_IDLE = 5,             /* an act of an idle worker */
    FERN_BROKEN = 6,           /* the words stand for no ring and records, or for broken ones; a wrong length */
    FERN_METER_FULL = 7,       /* the meter is at 4,294,967,295 */
    FERN_NO_WEAK_EXCHANGE = 8, /* FERN_ACT_LOSE where no weak exchange comes next */
    FERN_UNREADABLE = 9,       /* an entry that cannot be read: a code above 9, an item where there is none */
    FERN_BUFFER_SHORT = 10,    /* the buffer is shorter than the contents */
    FERN_ODD_SCHEDULE = 11,    /* a schedule of an odd number of words */
    FERN_TAPE_CUT = 12,        /* a tape that is cut short */
    FERN_TAPE_FIELD = 13,      /* a tape's field of an unknown tag, a wrong length or place, or the other variant */
    FERN_TAPE_CODE = 14,       /* a code that is not allowed under its tag */
    FERN_TAPE_MORE = 15,       /* bytes after a tape's end */
    FERN_TAPE_ROOM = 16,       /* an output buffer too short for a tape or a schedule */
    FERN_TAPE_ENTRY = 17,      /* an entry that a tape can't carry */
    FERN_BAD_EDITION = 18,     /* an edition that is neither 1 nor 2 */
    FERN_WALK_LIMITS = 19,     /* a walk of more than 3 workers or 12 acts */
    FERN_WALK_IDLE = 20,       /* a walk with an idle worker */
    FERN_WALK_METER = 21,      /* fewer acts left on the meter than the walk is deep */
    FERN_WALK_ROOM = 22,       /* a buffer shorter than the walk's list */
    FERN_NO_BLOCK = 23         /* the unbounded queue needs a block and none is free */
};

/* What an idle worker's last call answered: a record's code up to FERN_LAST_ANSWER. From FERN_FULL to FERN_LEN_IS the
 * record's first word is the answer's value. */
enum fern_answer {
    FERN_NOTHING,    /* no call yet */
    FERN_PUSHED,     /* push: the item is in; force_push: and none went out for it */
    FERN_EMPTY,      /* pop: there was none */
    FERN_POP_CLOSED, /* pop: there was none, and the queue is closed */
    FERN_YES,        /* is_empty, is_full, is_closed; close: it was open */
    FERN_NO,
    FERN_FULL,       /* push: the item is handed back */
    FERN_CLOSED,     /* push, force_push: the queue is closed, the item is handed back */
    FERN_DISPLACED,  /* force_push: the item is in, and this one went out for it */
    FERN_POPPED,     /* pop: this item */
    FERN_LEN_IS,     /* len */
    FERN_LAST_ANSWER = FERN_LEN_IS,
    FERN_UNDER_WAY = 255 /* of fern_ring_call and the like, and no record's code: the call has not ended */
};

/* Where a busy worker stands: a record's code above FERN_LAST_ANSWER, the places of document 01. Codes 6 to 32 hold a
 * first word (an item at P1, else t or h), 21 to 32 a second (an item, a value, or len's head). What is not held is 0. */
enum fern_place {
    FERN_P1_PUSH = FERN_LAST_ANSWER + 1,
    FERN_P1_FORCE,
    FERN_EMPTY2,
    FERN_FULL2,
    FERN_P5,
    FERN_O2,
    FERN_O3,
    FERN_O4,
    FERN_O6,
    FERN_LEN2,
    FERN_LEN3,
    FERN_P2_PUSH,
    FERN_P2_FORCE,
    FERN_P3_PUSH,
    FERN_P3_FORCE,
    FERN_P4,
    FERN_P6,
    FERN_F6,
    FERN_F7,
    FERN_F8,
    FERN_F9,
    FERN_O5,
    FERN_O1,
    FERN_LEN1,
    FERN_EMPTY1,
    FERN_FULL1,
    FERN_CLOSE1,
    FERN_IS_CLOSED1,
    FERN_CODES
};

/* Where a busy worker of a one-slot queue stands: its own places. Codes 6 to 18 hold a first word (an item or a value; at
 * B1 and C1 the word that the exchange expects), B1 alone a second (its item). */
enum fern_single_place {
    FERN_A1 = FERN_LAST_ANSWER + 1,
    FERN_A2,
    FERN_B2,
    FERN_B4,
    FERN_B5,
    FERN_C1,
    FERN_C3,
    FERN_B1,
    FERN_A3,
    FERN_B3,
    FERN_C2,
    FERN_SINGLE_LEN1,
    FERN_SINGLE_EMPTY1,
    FERN_SINGLE_FULL1,
    FERN_SINGLE_CLOSE1,
    FERN_SINGLE_IS_CLOSED1,
    FERN_SINGLE_CODES
};

/* Where a busy worker of an unbounded queue stands: its own places, those of docs/RULES.md, section 7. The words after the
 * code are, n, new, b and next as the numbers of blocks, FERN_UNBOUNDED_NONE for none:
 *
 *     U1 n, item              U2, U4, U8 n, t, item          U3 t, b, item            U5, U6, U7, U9 to U12 n, t, b, item
 *     U13 n, t, b             U14 n, answer's code, value    U15 n, new, item         V2, V5 h
 *     V3, V10, V11 h, b       V4, V6 h, b, new               V7 h, b, new, next       V8 h, b, next, index
 *     V9 h, b, index          V12 h, b, value                V13, V14 b, i, value     V15 b, value
 *     len2 t                  len3 t, h                      empty2 h                 the others hold none
 *
 * (at U5 and U6 the third is new; new of V4, V6 and V7 is an index word and no block). What is not held is 0. */
enum fern_unbounded_place {
    FERN_U1 = FERN_LAST_ANSWER + 1,
    FERN_U2,
    FERN_U3,
    FERN_U4,
    FERN_U5,
    FERN_U6,
    FERN_U7,
    FERN_U8,
    FERN_U9,
    FERN_U10,
    FERN_U11,
    FERN_U12,
    FERN_U13,
    FERN_U14,
    FERN_U15,
    FERN_V1,
    FERN_V2,
    FERN_V3,
    FERN_V4,
    FERN_V5,
    FERN_V6,
    FERN_V7,
    FERN_V8,
    FERN_V9,
    FERN_V10,
    FERN_V11,
    FERN_V12,
    FERN_V13,
    FERN_V14,
    FERN_V15,
    FERN_UNBOUNDED_LEN1,
    FERN_UNBOUNDED_LEN2,
    FERN_UNBOUNDED_LEN3,
    FERN_UNBOUNDED_EMPTY1,
    FERN_UNBOUNDED_EMPTY2,
    FERN_UNBOUNDED_FULL1,
    FERN_UNBOUNDED_CLOSE1,
    FERN_UNBOUNDED_IS_CLOSED1,
    FERN_UNBOUNDED_CODES
};

/* The names that some of these had, and one enum of answers and places: kept for a while. */
enum {
    FERN_HEAD = FERN_HEAD_WORDS,
    FERN_SLOTS = FERN_SLOTS_WORDS,
    FERN_RECORD = FERN_RECORD_WORDS,
    FERN_SLOT_HEAD = FERN_SINGLE_HEAD_WORDS,
    FERN_SLOT_RECORD = FERN_SINGLE_RECORD_WORDS,
    FERN_SLOT_WORKERS = FERN_SINGLE_WORKERS,
    FERN_SLOT_RECORDS = FERN_SINGLE_RECORDS_WORDS,
    FERN_SLOT_LAYOUT = FERN_SINGLE_LAYOUT,
    FERN_SLOT_MOST_ACTS_ALONE = FERN_SINGLE_MOST_ACTS_ALONE,
    FERN_SLOT_HEAD_STATE = FERN_SINGLE_HEAD_STATE,
    FERN_SLOT_HEAD_VALUE = FERN_SINGLE_HEAD_VALUE,
    FERN_SLOT_HEAD_COUNT = FERN_SINGLE_HEAD_COUNT,
    FERN_SLOT_HEAD_METER = FERN_SINGLE_HEAD_METER,
    FERN_SLOT_HEAD_LAYOUT = FERN_SINGLE_HEAD_LAYOUT,
    FERN_SLOT_LEN1 = FERN_SINGLE_LEN1,
    FERN_SLOT_EMPTY1 = FERN_SINGLE_EMPTY1,
    FERN_SLOT_FULL1 = FERN_SINGLE_FULL1,
    FERN_SLOT_CLOSE1 = FERN_SINGLE_CLOSE1,
    FERN_SLOT_IS_CLOSED1 = FERN_SINGLE_IS_CLOSED1,
    FERN_SLOT_CODES = FERN_SINGLE_CODES
};

/* A refusal, 0 where there is none, and what was asked for: 0 where it was refused, but an entry's place from run,
 * and what is said below from the functions for tapes. */
struct fern_reply {
    uint64_t refusal;
    uint64_t number;
};

/* A fresh ring of so many slots in edition 1 (the source's) or 2 (a close that holds), and all records idle; what the
 * words were does not matter. Refusals 1, 2, 18; 6 for slices of other lengths. */
FERN_NODISCARD uint64_t fern_ring_make(uint64_t *head, size_t head_words, uint64_t *slots, size_t slots_words, uint64_t *records,
                        size_t records_words, uint64_t capacity, uint64_t edition);

/* One entry. It judges all that is lent first, every time: refusals 6, 9, 3, then 4 (begin) or 5, 7, 8 (act). */
FERN_NODISCARD uint64_t fern_ring_step(uint64_t *head, size_t head_words, uint64_t *slots, size_t slots_words, uint64_t *records,
                        size_t records_words, uint64_t first, uint64_t second);

/* A schedule of entries, two words each, to its end or to the first refusal: 0 and how many entries there are, or the
 * refusal and the entry's place from 0. Refusals 6, 11 and 9 are given before anything is run; of any other, the
 * entries before it stand. It judges once, and so is the quicker way for many entries. */
FERN_NODISCARD struct fern_reply fern_ring_run(uint64_t *head, size_t head_words, uint64_t *slots, size_t slots_words,
                                uint64_t *records, size_t records_words, const uint64_t *schedule,
                                size_t schedule_words);

/* The items in the order in which they would be popped, at the buffer's start; how many. Nothing is removed.
 * Refusals 6, 4, 10. */
FERN_NODISCARD struct fern_reply fern_ring_contents(const uint64_t *head, size_t head_words, const uint64_t *slots,
                                     size_t slots_words, const uint64_t *records, size_t records_words,
                                     uint64_t *buffer, size_t buffer_words);

/* The ring's capacity. Refusal 6. */
FERN_NODISCARD struct fern_reply fern_ring_capacity(const uint64_t *head, size_t head_words, const uint64_t *slots,
                                     size_t slots_words, const uint64_t *records, size_t records_words);

/* FERN_BROKEN where every call would be refused for what is lent, else 0. */
FERN_NODISCARD uint64_t fern_ring_broken(const uint64_t *head, size_t head_words, const uint64_t *slots, size_t slots_words,
                          const uint64_t *records, size_t records_words);

/* The one-slot queue, as the ring's functions: a fresh one of so many workers, all idle (refusal 2; 6 for slices of other
 * lengths); one entry; a schedule; the item, if there is one and no worker is busy (refusals 6, 4, 10); broken. No exchange
 * of it is weak: FERN_ACT_LOSE is refusal 8. */
FERN_NODISCARD uint64_t fern_slot_make(uint64_t *head, size_t head_words, uint64_t *records, size_t records_words, uint64_t workers);
FERN_NODISCARD uint64_t fern_slot_step(uint64_t *head, size_t head_words, uint64_t *records, size_t records_words, uint64_t first,
                        uint64_t second);
FERN_NODISCARD struct fern_reply fern_slot_run(uint64_t *head, size_t head_words, uint64_t *records, size_t records_words,
                                const uint64_t *schedule, size_t schedule_words);
FERN_NODISCARD struct fern_reply fern_slot_contents(const uint64_t *head, size_t head_words, const uint64_t *records,
                                     size_t records_words, uint64_t *buffer, size_t buffer_words);
FERN_NODISCARD uint64_t fern_slot_broken(const uint64_t *head, size_t head_words, const uint64_t *records, size_t records_words);

/* The unbounded queue, as the ring's functions: a fresh one of so many workers, all idle (refusal 2; 6 for slices of other
 * lengths); one entry; a schedule; the items, if no worker is busy (refusals 6, 4, 10); broken. There is no force_push:
 * FERN_FORCE_PUSH is refusal 9. A push that needs a block where none is free is refusal 23, and may be tried again once a
 * block is. Each call reads all words, and step and run write all that may have changed: for many entries run is the
 * quicker way by far. */
FERN_NODISCARD uint64_t fern_unbounded_make(uint64_t *head, size_t head_words, uint64_t *pool, size_t pool_words, uint64_t *records,
                             size_t records_words, uint64_t workers);
FERN_NODISCARD uint64_t fern_unbounded_step(uint64_t *head, size_t head_words, uint64_t *pool, size_t pool_words, uint64_t *records,
                             size_t records_words, uint64_t first, uint64_t second);
FERN_NODISCARD struct fern_reply fern_unbounded_run(uint64_t *head, size_t head_words, uint64_t *pool, size_t pool_words,
                                     uint64_t *records, size_t records_words, const uint64_t *schedule,
                                     size_t schedule_words);
FERN_NODISCARD struct fern_reply fern_unbounded_contents(const uint64_t *head, size_t head_words, const uint64_t *pool,
                                          size_t pool_words, const uint64_t *records, size_t records_words,
                                          uint64_t *buffer, size_t buffer_words);
FERN_NODISCARD uint64_t fern_unbounded_broken(const uint64_t *head, size_t head_words, const uint64_t *pool, size_t pool_words,
                               const uint64_t *records, size_t records_words);

/* A schedule as a tape at the buffer's start, with the capacity and the count of workers that it is meant for: how many
 * bytes. Refusals, and their number, in this order: FERN_TAPE_FIELD for a variant that there is none of (0),
 * FERN_ODD_SCHEDULE (0), FERN_TAPE_ENTRY (the entry's place from 0; 0 for a capacity or count above 65,535),
 * FERN_TAPE_ROOM (how many bytes it would take). What is refused writes nothing. */
FERN_NODISCARD struct fern_reply fern_tape_write(uint64_t variant, uint64_t capacity, uint64_t workers, const uint64_t *schedule,
                                  size_t schedule_words, uint8_t *tape, size_t tape_bytes);

/* A tape's schedule at the buffer's start: how many words; and what the tape is about, FERN_TAPE_ABOUT words. Refusals,
 * and their number, in this order: FERN_BROKEN for another count of words about it (0); FERN_TAPE_CUT, _FIELD, _CODE or
 * _MORE, the first fault from left to right (the byte at which the field at fault begins, or the first one too many);
 * FERN_TAPE_ROOM (how many words it would take). What is refused writes nothing. */
FERN_NODISCARD struct fern_reply fern_tape_read(const uint8_t *tape, size_t tape_bytes, uint64_t *about, size_t about_words,
                                 uint64_t *schedule, size_t schedule_words);

/* ---- A recorder: a tape entry by entry into a lent buffer. Its FERN_RECORDER_WORDS words are yours, and go with the buffer
 * from call to call. Proved: each call answers what fern_tape_write answers of the entries that were accepted so far (with
 * the new one, from fern_recorder_append), and after fern_recorder_end the whole buffer is as fern_tape_write leaves it.
 * Words that are not a recorder's of this buffer (another count of them, a variant that there is none of, a length that is
 * not that of so many entries or for which, with the last field, there is no room) are refused with FERN_BROKEN (0). What
 * is refused changes nothing, and recording can go on. */

/* A recorder over this buffer, with no entry yet: its words, and the tape of no entries. How many bytes, 10. Refusals:
 * FERN_BROKEN for another count of words; then FERN_TAPE_FIELD, FERN_TAPE_ENTRY and FERN_TAPE_ROOM, as fern_tape_write. */
FERN_NODISCARD struct fern_reply fern_recorder_begin(uint64_t *recorder, size_t recorder_words, uint64_t variant,
                                      uint64_t capacity, uint64_t workers, uint8_t *tape, size_t tape_bytes);

/* One entry more: how many bytes the tape has with it, last field and all. Refusals, and their number, in this order:
 * FERN_BROKEN (0), FERN_TAPE_ENTRY (the entry's place from 0), FERN_TAPE_ROOM (how many bytes it would take; with a longer
 * buffer that begins with the same bytes the recorder goes on). The buffer is a tape again after fern_recorder_end. */
FERN_NODISCARD struct fern_reply fern_recorder_append(uint64_t *recorder, size_t recorder_words, uint64_t first,
                                       uint64_t second, uint8_t *tape, size_t tape_bytes);

/* The last field: how many bytes the tape has. There is always room for it. The recorder is as it was: more entries may
 * follow, over it, and another end. Refusal: FERN_BROKEN (0). */
FERN_NODISCARD struct fern_reply fern_recorder_end(const uint64_t *recorder, size_t recorder_words, uint8_t *tape,
                                    size_t tape_bytes);

/* The version of the library: FERN_VERSION of the header that it was made with. In libfernmoldew alone. */
const char *fern_version(void);

/* An entry's first word. A worker's number of which a word can't hold it becomes the last one of which it can: no queue
 * has either, and the entry is refused with FERN_NO_SUCH_WORKER. */
static inline uint64_t fern_entry(uint64_t worker, enum fern_call call) {
    return 16 * (worker <= UINT64_MAX / 16 ? worker : UINT64_MAX / 16) + (uint64_t)call;
}

/* Whether a worker has a call under way; a record of any of the queues. */
static inline bool fern_busy(const uint64_t record[FERN_SINGLE_RECORD_WORDS]) {
    return record[FERN_RECORD_CODE] > FERN_LAST_ANSWER;
}

/* What the last call of an idle worker answered, and FERN_UNDER_WAY of a busy one's. */
static inline enum fern_answer fern_answer(const uint64_t record[FERN_SINGLE_RECORD_WORDS]) {
    return fern_busy(record) ? FERN_UNDER_WAY : (enum fern_answer)record[FERN_RECORD_CODE];
}

/* Whether that answer has a value, and the value. */
static inline bool fern_has_value(const uint64_t record[FERN_SINGLE_RECORD_WORDS]) {
    return record[FERN_RECORD_CODE] >= FERN_FULL && record[FERN_RECORD_CODE] <= FERN_LEN_IS;
}

static inline uint64_t fern_value(const uint64_t record[FERN_SINGLE_RECORD_WORDS]) {
    return record[FERN_RECORD_FIRST];
}

/* Where a busy worker of a ring stands, and of a one-slot queue. */
static inline enum fern_place fern_place(const uint64_t record[FERN_RECORD_WORDS]) {
    return (enum fern_place)record[FERN_RECORD_CODE];
}

static inline enum fern_single_place fern_single_place(const uint64_t record[FERN_SINGLE_RECORD_WORDS]) {
    return (enum fern_single_place)record[FERN_RECORD_CODE];
}

/* Whether the next act of a worker of a ring is a weak exchange, so that FERN_ACT_LOSE is not refused with 8. */
static inline bool fern_weak_next(const uint64_t record[FERN_RECORD_WORDS]) {
    const uint64_t code = record[FERN_RECORD_CODE];
    return code == FERN_P3_PUSH || code == FERN_P3_FORCE || code == FERN_F6 || code == FERN_O3;
}

/* How many exchanges the present or the last call lost because the words differed, and because the schedule made them
 * fail. */
static inline uint64_t fern_differed(const uint64_t record[FERN_RECORD_WORDS]) {
    return record[FERN_RECORD_DIFFERED];
}

static inline uint64_t fern_failed(const uint64_t record[FERN_RECORD_WORDS]) {
    return record[FERN_RECORD_FAILED];
}

/* ---- The words of a ring under one name. These functions are C, and no proof speaks of them: each calls proved ones. */

struct fern_ring {
    uint64_t *head;    /* FERN_HEAD_WORDS of them */
    uint64_t *slots;   /* FERN_SLOTS_WORDS */
    uint64_t *records; /* FERN_RECORD_WORDS for each worker */
    size_t workers;
};

/* The three slices, as the functions above take them. */
#define FERN_LENT(ring) \
    (ring)->head, FERN_HEAD_WORDS, (ring)->slots, FERN_SLOTS_WORDS, (ring)->records, \
        FERN_RECORD_WORDS * (size_t)(ring)->workers

/* What a call came to: a refusal, or its answer with the value. FERN_UNDER_WAY: it has not ended within the acts that a
 * call takes alone, since another worker has a slot in hand; it is left where it is, and that worker is to act first. */
struct fern_called {
    uint64_t refusal;
    enum fern_answer answer;
    uint64_t value; /* 0 where the answer has none */
};

/* A worker's record, and NULL where there is no such worker. */
static inline uint64_t *fern_record(const struct fern_ring *ring, size_t worker) {
    return worker < ring->workers ? ring->records + FERN_RECORD_WORDS * worker : NULL;
}

/* fern_ring_make, _step and _run. */
FERN_NODISCARD static inline uint64_t fern_ring_fresh(const struct fern_ring *ring, uint64_t capacity, uint64_t edition) {
    return fern_ring_make(FERN_LENT(ring), capacity, edition);
}

FERN_NODISCARD static inline uint64_t fern_ring_entry(const struct fern_ring *ring, uint64_t first, uint64_t second) {
    return fern_ring_step(FERN_LENT(ring), first, second);
}

FERN_NODISCARD static inline struct fern_reply fern_ring_entries(const struct fern_ring *ring, const uint64_t *schedule, size_t words) {
    return fern_ring_run(FERN_LENT(ring), schedule, words);
}

/* What a call that was begun with this refusal comes to, by the record. */
static inline struct fern_called fern_called_of(uint64_t refusal, const uint64_t *record) {
    struct fern_called called = {refusal, FERN_NOTHING, 0};
    if (refusal == FERN_ACCEPTED) {
        called.answer = fern_answer(record);
        called.value = fern_has_value(record) ? fern_value(record) : 0;
    }
    return called;
}

/* A whole call, nobody else acting meanwhile: at most FERN_MOST_ACTS_ALONE acts. One that is refused before its first act
 * has done nothing; where the meter ends in its midst (refusal 7) it is left under way. */
FERN_NODISCARD static inline struct fern_called fern_ring_call(const struct fern_ring *ring, size_t worker, enum fern_call call, uint64_t item) {
    uint64_t refusal = call >= FERN_ACT ? (uint64_t)FERN_UNREADABLE : fern_ring_entry(ring, fern_entry(worker, call), item);
    for (int acts = 0; refusal == FERN_ACCEPTED && acts < FERN_MOST_ACTS_ALONE && fern_busy(fern_record(ring, worker)); acts++)
        refusal = fern_ring_entry(ring, fern_entry(worker, FERN_ACT), 0);
    return fern_called_of(refusal, fern_record(ring, worker));
}

/* With all workers idle, a fresh ring of the same capacity and edition with the same contents, closed if this one is: its
 * meter begins anew. The buffer is for the contents. Refusals 6, 4, 10, which change nothing. */
FERN_NODISCARD static inline struct fern_reply fern_ring_renew(const struct fern_ring *ring, uint64_t *buffer, size_t buffer_words) {
    struct fern_reply reply = fern_ring_contents(FERN_LENT(ring), buffer, buffer_words);
    if (reply.refusal != FERN_ACCEPTED)
        return reply;
    const bool closed = (ring->head[FERN_HEAD_TAIL] & ring->head[FERN_HEAD_MARK]) != 0;
    reply.refusal = fern_ring_fresh(ring, ring->head[FERN_HEAD_CAPACITY], ring->head[FERN_HEAD_EDITION]);
    for (uint64_t place = 0; reply.refusal == FERN_ACCEPTED && place < reply.number; place++)
        reply.refusal = fern_ring_call(ring, 0, FERN_PUSH, buffer[place]).refusal;
    if (reply.refusal == FERN_ACCEPTED && closed)
        reply.refusal = fern_ring_call(ring, 0, FERN_CLOSE, 0).refusal;
    for (int word = 0; word < FERN_RECORD_WORDS; word++)
        ring->records[word] = 0;
    return reply;
}

/* ---- The one-slot queue by its name of today, and its words under one name: C over fern_slot_make and so on, which keep
 * the names that they were proved under. */

struct fern_single {
    uint64_t *head;    /* FERN_SINGLE_HEAD_WORDS of them */
    uint64_t *records; /* FERN_SINGLE_RECORDS_WORDS */
};

#define FERN_SINGLE_LENT(single) \
    (single)->head, (size_t)FERN_SINGLE_HEAD_WORDS, (single)->records, (size_t)FERN_SINGLE_RECORDS_WORDS

/* A worker's record, and NULL where there is none. */
static inline uint64_t *fern_single_record(const struct fern_single *single, size_t worker) {
    return worker < FERN_SINGLE_WORKERS ? single->records + FERN_SINGLE_RECORD_WORDS * worker : NULL;
}

FERN_NODISCARD static inline uint64_t fern_single_make(const struct fern_single *single, uint64_t workers) {
    return fern_slot_make(FERN_SINGLE_LENT(single), workers);
}

FERN_NODISCARD static inline uint64_t fern_single_step(const struct fern_single *single, uint64_t first, uint64_t second) {
    return fern_slot_step(FERN_SINGLE_LENT(single), first, second);
}

FERN_NODISCARD static inline struct fern_reply fern_single_run(const struct fern_single *single, const uint64_t *schedule, size_t words) {
    return fern_slot_run(FERN_SINGLE_LENT(single), schedule, words);
}

FERN_NODISCARD static inline struct fern_reply fern_single_contents(const struct fern_single *single, uint64_t *buffer, size_t words) {
    return fern_slot_contents(FERN_SINGLE_LENT(single), buffer, words);
}

FERN_NODISCARD static inline uint64_t fern_single_broken(const struct fern_single *single) {
    return fern_slot_broken(FERN_SINGLE_LENT(single));
}

/* A whole call, as fern_ring_call: at most FERN_SINGLE_MOST_ACTS_ALONE acts. */
FERN_NODISCARD static inline struct fern_called fern_single_call(const struct fern_single *single, size_t worker, enum fern_call call, uint64_t item) {
    uint64_t refusal = call >= FERN_ACT ? (uint64_t)FERN_UNREADABLE : fern_single_step(single, fern_entry(worker, call), item);
    for (int acts = 0; refusal == FERN_ACCEPTED && acts < FERN_SINGLE_MOST_ACTS_ALONE && fern_busy(fern_single_record(single, worker)); acts++)
        refusal = fern_single_step(single, fern_entry(worker, FERN_ACT), 0);
    return fern_called_of(refusal, fern_single_record(single, worker));
}

/* ---- The words of an unbounded queue under one name. */

struct fern_unbounded {
    uint64_t *head;    /* FERN_UNBOUNDED_HEAD_WORDS of them */
    uint64_t *pool;    /* FERN_UNBOUNDED_POOL_WORDS */
    uint64_t *records; /* FERN_UNBOUNDED_RECORDS_WORDS */
};

#define FERN_UNBOUNDED_LENT(queue) \
    (queue)->head, (size_t)FERN_UNBOUNDED_HEAD_WORDS, (queue)->pool, (size_t)FERN_UNBOUNDED_POOL_WORDS, (queue)->records, \
        (size_t)FERN_UNBOUNDED_RECORDS_WORDS

/* A worker's record, and NULL where there is none. */
static inline uint64_t *fern_unbounded_record(const struct fern_unbounded *queue, size_t worker) {
    return worker < FERN_UNBOUNDED_WORKERS ? queue->records + FERN_UNBOUNDED_RECORD_WORDS * worker : NULL;
}

/* Where a busy worker stands, and whether its next act is a weak exchange. */
static inline enum fern_unbounded_place fern_unbounded_place(const uint64_t record[FERN_UNBOUNDED_RECORD_WORDS]) {
    return (enum fern_unbounded_place)record[FERN_RECORD_CODE];
}

static inline bool fern_unbounded_weak_next(const uint64_t record[FERN_UNBOUNDED_RECORD_WORDS]) {
    return record[FERN_RECORD_CODE] == FERN_U7 || record[FERN_RECORD_CODE] == FERN_V4;
}

/* fern_unbounded_make, _step and _run. */
FERN_NODISCARD static inline uint64_t fern_unbounded_fresh(const struct fern_unbounded *queue, uint64_t workers) {
    return fern_unbounded_make(FERN_UNBOUNDED_LENT(queue), workers);
}

FERN_NODISCARD static inline uint64_t fern_unbounded_entry(const struct fern_unbounded *queue, uint64_t first, uint64_t second) {
    return fern_unbounded_step(FERN_UNBOUNDED_LENT(queue), first, second);
}

FERN_NODISCARD static inline struct fern_reply fern_unbounded_entries(const struct fern_unbounded *queue, const uint64_t *schedule, size_t words) {
    return fern_unbounded_run(FERN_UNBOUNDED_LENT(queue), schedule, words);
}

/* A whole call, as fern_ring_call: at most FERN_UNBOUNDED_MOST_ACTS_ALONE acts. With refusal 23 a push is left under way,
 * and goes on with the next act after a block was freed. */
FERN_NODISCARD static inline struct fern_called fern_unbounded_call(const struct fern_unbounded *queue, size_t worker, enum fern_call call, uint64_t item) {
    uint64_t refusal = call >= FERN_ACT ? (uint64_t)FERN_UNREADABLE : fern_unbounded_entry(queue, fern_entry(worker, call), item);
    for (int acts = 0; refusal == FERN_ACCEPTED && acts < FERN_UNBOUNDED_MOST_ACTS_ALONE && fern_busy(fern_unbounded_record(queue, worker)); acts++)
        refusal = fern_unbounded_entry(queue, fern_entry(worker, FERN_ACT), 0);
    return fern_called_of(refusal, fern_unbounded_record(queue, worker));
}

/* ---- A recorder with its buffer in one struct: fern_tape_begin, fern_tape_append and fern_tape_end, from before there were
 * the proved functions above, and as they were. A begin is fern_recorder_begin. The two others are C over fern_tape_write,
 * which makes each field, and not proved to be what that makes of the whole: they also take fields that you set yourself
 * (entries counted from elsewhere, a buffer made shorter), which fern_recorder_append and fern_recorder_end refuse with
 * FERN_BROKEN. Where only these functions set length, entries and variant, and the buffer is made no shorter, answers and
 * bytes are those of the proved ones; tests/host/header.c compares them. */

struct fern_recorder {
    uint8_t *tape;
    size_t tape_bytes; /* how long the buffer is */
    size_t length;     /* bytes so far, but for the last field */
    uint64_t entries;  /* entries so far */
    uint64_t variant;
};

/* A recorder over this buffer, with no entry yet. Refusals 13, 17 and 16, as fern_tape_write of no entries. */
FERN_NODISCARD static inline struct fern_reply fern_tape_begin(struct fern_recorder *recorder, uint64_t variant, uint64_t capacity, uint64_t workers, uint8_t *tape, size_t tape_bytes) {
    uint64_t words[FERN_RECORDER_WORDS] = {0};
    const struct fern_reply reply = fern_recorder_begin(words, FERN_RECORDER_WORDS, variant, capacity, workers, tape, tape_bytes);
    const struct fern_recorder fresh = {tape, tape_bytes, (size_t)words[FERN_RECORDER_LENGTH], words[FERN_RECORDER_ENTRIES], words[FERN_RECORDER_VARIANT]};
    if (reply.refusal == FERN_ACCEPTED)
        *recorder = fresh;
    return reply;
}

/* One more entry: how many bytes the tape has with it. Refusal 17 with the entry's place, for one that no tape carries; 16
 * with the bytes that it would take, last field and all. What is refused changes nothing, and recording can go on. */
FERN_NODISCARD static inline struct fern_reply fern_tape_append(struct fern_recorder *recorder, uint64_t first, uint64_t second) {
    uint8_t alone[FERN_TAPE_HEAD_BYTES + FERN_TAPE_ENTRY_BYTES + FERN_TAPE_END_BYTES];
    const uint64_t entry[2] = {first, second};
    struct fern_reply reply = fern_tape_write(recorder->variant, 0, 0, entry, 2, alone, sizeof alone);
    if (reply.refusal != FERN_ACCEPTED) {
        reply.number = recorder->entries;
        return reply;
    }
    const size_t field = (size_t)reply.number - FERN_TAPE_HEAD_BYTES - FERN_TAPE_END_BYTES;
    reply.number = recorder->length + field + FERN_TAPE_END_BYTES;
    if (reply.number > recorder->tape_bytes) {
        reply.refusal = FERN_TAPE_ROOM;
        return reply;
    }
    for (size_t i = 0; i < field; i++)
        recorder->tape[recorder->length + i] = alone[FERN_TAPE_HEAD_BYTES + i];
    recorder->length += field;
    recorder->entries++;
    return reply;
}

/* The last field: how many bytes the tape has. There is always room for it. The recorder is as it was: more entries may
 * follow, over it, and another end. */
static inline size_t fern_tape_end(const struct fern_recorder *recorder) {
    uint8_t alone[FERN_TAPE_HEAD_BYTES + FERN_TAPE_END_BYTES];
    const struct fern_reply reply = fern_tape_write(recorder->variant, 0, 0, NULL, 0, alone, sizeof alone);
    for (size_t i = 0; reply.refusal == FERN_ACCEPTED && i < FERN_TAPE_END_BYTES; i++)
        recorder->tape[recorder->length + i] = alone[FERN_TAPE_HEAD_BYTES + i];
    return recorder->length + FERN_TAPE_END_BYTES;
}

/* A refusal in words. */
static inline const char *fern_refusal_says(uint64_t refusal) {
    static const char *const says[] = {
        "accepted",
        "the capacity is 0 or above 1,024",
        "there are no workers, or more than 64",
        "there is no such worker",
        "a worker is busy",
        "the worker is idle",
        "the words stand for no ring and records, or for broken ones",
        "the meter is at its last number",
        "no weak exchange comes next",
        "an entry cannot be read",
        "the buffer is shorter than the contents",
        "the schedule has an odd number of words",
        "the tape is cut short",
        "a tape's field has an unknown tag, a wrong length or place, or is of the other variant",
        "a code is not allowed under its tag",
        "there are bytes after the tape's end",
        "the output buffer is too short",
        "a tape can't carry an entry",
        "the edition is neither 1 nor 2",
        "a walk of more than 3 workers or 12 acts",
        "a walk with an idle worker",
        "fewer acts are left on the meter than the walk is deep",
        "the buffer is shorter than the walk's list",
        "no block is free",
    };
    return refusal < sizeof says / sizeof *says ? says[refusal] : "no refusal of this number";
}

#ifdef __cplusplus
}
#endif

#endif
