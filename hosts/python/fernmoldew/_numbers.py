"""The numbers of hosts/c/fernmoldew.h. Written by hosts/python/numbers: not to be edited."""

from enum import IntEnum
from typing import Tuple


class Variant(IntEnum):
    """How a tape has its numbers: the byte with which it begins."""

    BIG = 1
    LITTLE = 129


class Call(IntEnum):
    """What a worker is asked for: the low four bits of an entry's first word."""

    PUSH = 0
    FORCE_PUSH = 1
    POP = 2
    LEN = 3
    IS_EMPTY = 4
    IS_FULL = 5
    CLOSE = 6
    IS_CLOSED = 7
    ACT = 8
    ACT_LOSE = 9


class Refusal(IntEnum):
    """Why something was refused; 0 is no refusal."""

    ACCEPTED = 0
    BAD_CAPACITY = 1
    BAD_COUNT = 2
    NO_SUCH_WORKER = 3
    BUSY = 4
    IDLE = 5
    BROKEN = 6
    METER_FULL = 7
    NO_WEAK_EXCHANGE = 8
    UNREADABLE = 9
    BUFFER_SHORT = 10
    ODD_SCHEDULE = 11
    TAPE_CUT = 12
    TAPE_FIELD = 13
    TAPE_CODE = 14
    TAPE_MORE = 15
    TAPE_ROOM = 16
    TAPE_ENTRY = 17
    BAD_EDITION = 18
    WALK_LIMITS = 19
    WALK_IDLE = 20
    WALK_METER = 21
    WALK_ROOM = 22
    NO_BLOCK = 23


class Kind(IntEnum):
    """What an idle worker's last call answered."""

    NOTHING = 0
    PUSHED = 1
    EMPTY = 2
    POP_CLOSED = 3
    YES = 4
    NO = 5
    FULL = 6
    CLOSED = 7
    DISPLACED = 8
    POPPED = 9
    LEN_IS = 10
    UNDER_WAY = 255


class Place(IntEnum):
    """Where a busy worker of a ring stands: the places of document 01."""

    P1_PUSH = 11
    P1_FORCE = 12
    EMPTY2 = 13
    FULL2 = 14
    P5 = 15
    O2 = 16
    O3 = 17
    O4 = 18
    O6 = 19
    LEN2 = 20
    LEN3 = 21
    P2_PUSH = 22
    P2_FORCE = 23
    P3_PUSH = 24
    P3_FORCE = 25
    P4 = 26
    P6 = 27
    F6 = 28
    F7 = 29
    F8 = 30
    F9 = 31
    O5 = 32
    O1 = 33
    LEN1 = 34
    EMPTY1 = 35
    FULL1 = 36
    CLOSE1 = 37
    IS_CLOSED1 = 38


class OneSlotPlace(IntEnum):
    """Where a busy worker of a one-slot queue stands."""

    A1 = 11
    A2 = 12
    B2 = 13
    B4 = 14
    B5 = 15
    C1 = 16
    C3 = 17
    B1 = 18
    A3 = 19
    B3 = 20
    C2 = 21
    LEN1 = 22
    EMPTY1 = 23
    FULL1 = 24
    CLOSE1 = 25
    IS_CLOSED1 = 26


class UnboundedPlace(IntEnum):
    """Where a busy worker of an unbounded queue stands."""

    U1 = 11
    U2 = 12
    U3 = 13
    U4 = 14
    U5 = 15
    U6 = 16
    U7 = 17
    U8 = 18
    U9 = 19
    U10 = 20
    U11 = 21
    U12 = 22
    U13 = 23
    U14 = 24
    U15 = 25
    V1 = 26
    V2 = 27
    V3 = 28
    V4 = 29
    V5 = 30
    V6 = 31
    V7 = 32
    V8 = 33
    V9 = 34
    V10 = 35
    V11 = 36
    V12 = 37
    V13 = 38
    V14 = 39
    V15 = 40
    LEN1 = 41
    LEN2 = 42
    LEN3 = 43
    EMPTY1 = 44
    EMPTY2 = 45
    FULL1 = 46
    CLOSE1 = 47
    IS_CLOSED1 = 48


VERSION = '0.1.0'
HEAD_WORDS = 8
SLOTS_WORDS = 2048
RECORD_WORDS = 5
WORKERS = 64
CAPACITY = 1024
LAYOUT = 1
SINGLE_HEAD_WORDS = 5
SINGLE_RECORD_WORDS = 3
SINGLE_WORKERS = 16
SINGLE_RECORDS_WORDS = 48
SINGLE_LAYOUT = 2
MOST_ACTS_ALONE = 7
SINGLE_MOST_ACTS_ALONE = 4
STACK_BYTES = 65536
UNBOUNDED_HEAD_WORDS = 8
UNBOUNDED_BLOCK_WORDS = 64
UNBOUNDED_BLOCKS = 64
UNBOUNDED_NONE = 64
UNBOUNDED_POOL_WORDS = 4096
UNBOUNDED_RECORD_WORDS = 5
UNBOUNDED_WORKERS = 16
UNBOUNDED_RECORDS_WORDS = 80
UNBOUNDED_ITEMS = 1984
UNBOUNDED_LAYOUT = 3
UNBOUNDED_MOST_ACTS_ALONE = 43
UNBOUNDED_STACK_BYTES = 524288
TAPE_VARIANT = 0
TAPE_CAPACITY = 1
TAPE_WORKERS = 2
TAPE_ABOUT = 3
RECORDER_VARIANT = 0
RECORDER_LENGTH = 1
RECORDER_ENTRIES = 2
RECORDER_WORDS = 3
TAPE_HEAD_BYTES = 7
TAPE_END_BYTES = 3
TAPE_ENTRY_BYTES = 12
HEAD_MARK = 0
HEAD_LAP = 1
HEAD_CAPACITY = 2
HEAD_EDITION = 3
HEAD_HEAD = 4
HEAD_TAIL = 5
HEAD_METER = 6
HEAD_LAYOUT = 7
SINGLE_HEAD_STATE = 0
SINGLE_HEAD_VALUE = 1
SINGLE_HEAD_COUNT = 2
SINGLE_HEAD_METER = 3
SINGLE_HEAD_LAYOUT = 4
UNBOUNDED_HEAD_HEAD = 0
UNBOUNDED_HEAD_FRONT = 1
UNBOUNDED_HEAD_TAIL = 2
UNBOUNDED_HEAD_BACK = 3
UNBOUNDED_HEAD_COUNT = 4
UNBOUNDED_HEAD_METER = 5
UNBOUNDED_HEAD_NOUGHT = 6
UNBOUNDED_HEAD_LAYOUT = 7
RECORD_CODE = 0
RECORD_FIRST = 1
RECORD_SECOND = 2
RECORD_DIFFERED = 3
RECORD_FAILED = 4
LAST_ANSWER = 10
CODES = 39
SINGLE_CODES = 27
UNBOUNDED_CODES = 49
METER_LAST = 4294967295

# A refusal in words, by its number.
SAYS: Tuple[str, ...] = (
    'accepted',
    'the capacity is 0 or above 1,024',
    'there are no workers, or more than 64',
    'there is no such worker',
    'a worker is busy',
    'the worker is idle',
    'the words stand for no ring and records, or for broken ones',
    'the meter is at its last number',
    'no weak exchange comes next',
    'an entry cannot be read',
    'the buffer is shorter than the contents',
    'the schedule has an odd number of words',
    'the tape is cut short',
    "a tape's field has an unknown tag, a wrong length or place, or is of the other variant",
    'a code is not allowed under its tag',
    "there are bytes after the tape's end",
    'the output buffer is too short',
    "a tape can't carry an entry",
    'the edition is neither 1 nor 2',
    'a walk of more than 3 workers or 12 acts',
    'a walk with an idle worker',
    'fewer acts are left on the meter than the walk is deep',
    "the buffer is shorter than the walk's list",
    'no block is free',
)
