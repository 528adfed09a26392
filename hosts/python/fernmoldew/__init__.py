"""The proved bounded queue of Fernmoldew, the torque station's one-slot queue and the unbounded queue, stepped one atomic action at a time.

    >>> from fernmoldew import Call, OneSlot, Ring
    >>> ring = Ring(capacity=4, workers=2)
    >>> ring.call(0, Call.PUSH, 2950)
    Answer(kind=<Kind.PUSHED: 1>, value=None)
    >>> ring.begin(1, Call.POP)
    >>> while ring.busy(1):
    ...     ring.act(1)
    >>> ring.answer(1).value
    2950

What a machine does is the library's, libfernmoldew.so, which is proved; this module lends it words and reads its numbers, and
is not. A refused call changes nothing and raises `Refused`, with the refusal's number and, of a schedule or a tape, the place.

The library is looked for in the folder that FERNMOLDEW_LIB names, or else beside this module, in the tree that it stands in
(target/native, then target/unproved/native: hosts/library makes them), and where the system has its libraries. `LIBRARY` says
which one it is.

Each call holds the interpreter's lock, so that no two calls are on the same words at once.
"""

import ctypes
import ctypes.util
import os
import shutil
import subprocess
from array import array
from pathlib import Path
from typing import Any, Iterable, List, NamedTuple, Optional, Tuple, Type, TypeVar, Union

from . import _numbers
from ._numbers import METER_LAST, MOST_ACTS_ALONE, SINGLE_MOST_ACTS_ALONE, UNBOUNDED_MOST_ACTS_ALONE, Call, Kind, OneSlotPlace, Place, Refusal, UnboundedPlace, Variant

__all__ = ['Answer', 'Call', 'Kind', 'LIBRARY', 'METER_LAST', 'MOST_ACTS_ALONE', 'OneSlot', 'OneSlotPlace', 'Place', 'Refusal', 'Refused', 'Ring',
           'SINGLE_MOST_ACTS_ALONE', 'Tape', 'UNBOUNDED_MOST_ACTS_ALONE', 'Unbounded', 'UnboundedPlace', 'Variant', 'Words', 'entry', 'explain', 'read_tape', 'write_tape']
__version__ = _numbers.VERSION

Words = Union['array[int]', Iterable[int]]
"""A schedule, two words an entry: an array('Q') is lent as it is, anything else is copied into one."""

_HERE = Path(__file__).resolve().parent
_TREE = _HERE.parents[2]
_MOST = 2**64 - 1
_BEFORE_ANY = (Refusal.BROKEN, Refusal.ODD_SCHEDULE, Refusal.UNREADABLE)  # a run's, with nothing run


class Refused(Exception):
    """What the library refused. `number` is the refusal, of which `refusal` is the name. `place` is None; or the entry of a schedule,
    from 0; or of a tape the byte at which the field at fault begins, or how much room it would take."""

    number: int
    place: Optional[int]

    def __init__(self, number: int, place: Optional[int] = None) -> None:
        super().__init__(number, place)
        self.number, self.place = number, place

    @property
    def refusal(self) -> Refusal:
        """The refusal by its name."""
        return Refusal(self.number)

    def __str__(self) -> str:
        at = '' if self.place is None else f' at {self.place}'
        return f'refusal {self.number}{at}: {_numbers.SAYS[self.number]}'


class Answer(NamedTuple):
    """What a call answered, and its value: the item that is handed back, displaced or popped, or the length; None where there is none."""

    kind: Kind
    value: Optional[int] = None


class Tape(NamedTuple):
    """A schedule as a tape has it, with the capacity and the count of workers that it is meant for."""

    schedule: 'array[int]'
    capacity: int
    workers: int
    variant: Variant = Variant.BIG


# ---- the library

class _Reply(ctypes.Structure):
    _fields_ = [('refusal', ctypes.c_uint64), ('number', ctypes.c_uint64)]


_SLICE = [ctypes.c_void_p, ctypes.c_size_t]
_WORD = [ctypes.c_uint64]
_FUNCTIONS = {
    'fern_ring_make': (ctypes.c_uint64, 3 * _SLICE + 2 * _WORD),
    'fern_ring_step': (ctypes.c_uint64, 3 * _SLICE + 2 * _WORD),
    'fern_ring_run': (_Reply, 4 * _SLICE),
    'fern_ring_contents': (_Reply, 4 * _SLICE),
    'fern_ring_broken': (ctypes.c_uint64, 3 * _SLICE),
    'fern_slot_make': (ctypes.c_uint64, 2 * _SLICE + _WORD),
    'fern_slot_step': (ctypes.c_uint64, 2 * _SLICE + 2 * _WORD),
    'fern_slot_run': (_Reply, 3 * _SLICE),
    'fern_slot_contents': (_Reply, 3 * _SLICE),
    'fern_slot_broken': (ctypes.c_uint64, 2 * _SLICE),
    'fern_unbounded_make': (ctypes.c_uint64, 3 * _SLICE + _WORD),
    'fern_unbounded_step': (ctypes.c_uint64, 3 * _SLICE + 2 * _WORD),
    'fern_unbounded_run': (_Reply, 4 * _SLICE),
    'fern_unbounded_contents': (_Reply, 4 * _SLICE),
    'fern_unbounded_broken': (ctypes.c_uint64, 3 * _SLICE),
    'fern_tape_write': (_Reply, 3 * _WORD + 2 * _SLICE),
    'fern_tape_read': (_Reply, 3 * _SLICE),
    'fern_version': (ctypes.c_char_p, []),
}


def _library() -> Tuple[ctypes.PyDLL, str]:
    named = os.environ.get('FERNMOLDEW_LIB')
    name = f'libfernmoldew.so.{__version__.partition(".")[0]}'
    places = [Path(named)] if named else [_HERE, _TREE / 'target/native', _TREE / 'target/unproved/native']
    found = next((str(folder / name) for folder in places if (folder / name).exists()), None if named else ctypes.util.find_library('fernmoldew'))
    if found is None:
        raise ImportError(f'no {name} in {named}' if named else f'no {name}: hosts/library makes it, and FERNMOLDEW_LIB may name its folder')
    library = ctypes.PyDLL(found)
    for function, (answers, takes) in _FUNCTIONS.items():
        getattr(library, function).restype = answers
        getattr(library, function).argtypes = takes
    version = library.fern_version().decode()
    if version != __version__:
        raise ImportError(f'{found} is of version {version}, and this module of {__version__}')
    return library, found


_LIBRARY, LIBRARY = _library()


def _judge(number: int, place: Optional[int] = None) -> None:
    if number:
        raise Refused(number, place)


def _word(number: int, what: str) -> int:
    """ctypes would cut a larger one down to its low bits."""
    if not 0 <= number <= _MOST:
        raise ValueError(f'{what} {number} is no number of 64 bits')
    return number


def _schedule(words: Words) -> 'array[int]':
    return words if isinstance(words, array) and words.typecode == 'Q' else array('Q', words)


def _zeros(count: int) -> 'array[int]':
    return array('Q', bytes(8 * count))


def entry(worker: int, call: Call, item: int = 0) -> Tuple[int, int]:
    """The two words of a schedule's entry.

    >>> entry(2, Call.PUSH, 7)
    (32, 7)
    """
    return _word(16 * worker + call, 'an entry for worker'), _word(item, 'the item')


# ---- the machines

_Self = TypeVar('_Self', bound='_Machine')


class _Machine:
    """A machine's words, and what all machines can do."""

    _queue = ''  # replay's name of it
    _functions = ''  # the beginning of its functions' names
    _record_words = 0
    _most_acts_alone = 0
    _places: Type[Any]

    def __init__(self, parts: List['array[int]'], workers: int, record: bool) -> None:
        for part in parts:
            if not (isinstance(part, array) and part.typecode == 'Q'):
                raise TypeError("the words of a machine are kept in array('Q')")
        if len({id(part) for part in parts}) < len(parts):
            raise ValueError('the words of a machine are arrays of their own')
        self._parts = parts
        # as long as these are there Python lets nobody make an array longer or shorter, so that the addresses stay
        self._held = [memoryview(part) for part in parts]
        # as ctypes hands them over, so that no call converts them again
        self._lent = tuple(take(word) for part in parts for take, word in zip(_SLICE, part.buffer_info()))
        self._own = frozenset(id(part) for part in parts)
        self._records = parts[-1]
        self._workers = workers
        self._recorded: Optional['array[int]'] = array('Q') if record else None
        self._step, self._run, self._contents, self._broken = (getattr(_LIBRARY, self._functions + name) for name in ('step', 'run', 'contents', 'broken'))

    @property
    def workers(self) -> int:
        """How many workers there are."""
        return self._workers

    @property
    def broken(self) -> bool:
        """Whether every call would be refused for the words, with 6."""
        return bool(self._broken(*self._lent))

    @property
    def recorded(self) -> 'array[int]':
        """All that was accepted since the machine was made with record=True: a copy of the schedule."""
        if self._recorded is None:
            raise ValueError('nothing is recorded: make the machine with record=True')
        return self._recorded[:]

    def step(self, first: int, second: int = 0) -> None:
        """One entry of two words, as schedules have them."""
        _judge(self._step(*self._lent, _word(first, 'the first word'), _word(second, 'the second word')))
        if self._recorded is not None:
            self._recorded.extend((first, second))

    def run(self, schedule: Words) -> int:
        """A schedule, two words an entry, to its end: how many entries it has. Refusals 6, 11 and 9 come before anything is run; of any other
        the entries before its place stand. An array('Q') is lent as it is."""
        # every name that is looked up here is a part of what a short run costs (bench/python-run)
        words = schedule if type(schedule) is array and schedule.typecode == 'Q' else _schedule(schedule)
        if id(words) in self._own:
            words = words[:]  # the library's slices must not overlap
        reply = self._run(*self._lent, *words.buffer_info())
        number: int = reply.number
        if reply.refusal:
            self._stopped(reply.refusal, number, words)
        if self._recorded is not None:
            self._recorded.extend(words)
        return number

    def _stopped(self, refusal: int, place: int, words: 'array[int]') -> None:
        if self._recorded is not None and refusal not in _BEFORE_ANY:
            self._recorded.extend(words[:2 * place])
        _judge(refusal, None if refusal in (Refusal.BROKEN, Refusal.ODD_SCHEDULE) else place)

    def begin(self, worker: int, call: Call, item: int = 0) -> None:
        """A worker begins a call: no act yet."""
        if call >= Call.ACT:
            raise ValueError(f'{call!r} begins no call')
        self.step(*entry(worker, call, item))

    def act(self, worker: int, lose: bool = False) -> None:
        """The one atomic action that comes next in a worker's call; `lose`: it is a weak exchange, and fails (refusal 8 where it is none)."""
        self.step(*entry(worker, Call.ACT_LOSE if lose else Call.ACT))

    def call(self, worker: int, call: Call, item: int = 0) -> Optional[Answer]:
        """A whole call, nobody else acting meanwhile. Where another worker has a slot in hand it may not end within the acts that a call takes
        alone: then it is left under way, and None is the answer. Let that worker act, and go on with `act`."""
        self.begin(worker, call, item)
        for _ in range(self._most_acts_alone):
            if not self.busy(worker):
                break
            self.act(worker)
        return self.answer(worker)

    def _record(self, worker: int) -> int:
        if not 0 <= worker < self._workers:
            raise IndexError(f'there is no worker {worker}')
        return self._record_words * worker

    def busy(self, worker: int) -> bool:
        """Whether a worker has a call under way."""
        return self._records[self._record(worker)] > _numbers.LAST_ANSWER

    def answer(self, worker: int) -> Optional[Answer]:
        """What a worker's last call answered; None while it is busy."""
        at = self._record(worker)
        code = self._records[at]
        if code > _numbers.LAST_ANSWER:
            return None
        return Answer(Kind(code), self._records[at + 1] if code >= Kind.FULL else None)

    def _place(self, worker: int) -> Any:
        code = self._records[self._record(worker)]
        return self._places(code) if code > _numbers.LAST_ANSWER else None

    def _waiting(self, most: int) -> List[int]:
        items = _zeros(most)
        reply = self._contents(*self._lent, *items.buffer_info())
        _judge(reply.refusal)
        return items[:reply.number].tolist()

    def _about(self) -> Tuple[int, int, int]:
        """Capacity, workers and edition, for a tape and for replay."""
        raise NotImplementedError

    def tape(self, variant: Variant = Variant.BIG) -> bytes:
        """The tape of all that was recorded: `./replay --tape` and the like take it. The machine is to be made with record=True."""
        capacity, workers, _ = self._about()
        return write_tape(self.recorded, capacity, workers, variant)

    def explain(self) -> str:
        """What was recorded, a line in plain words for each entry, by replay --explain. The machine is to be made with record=True."""
        capacity, workers, edition = self._about()
        return explain(self.recorded, capacity, workers, queue=self._queue, edition=edition)

    def copy(self: _Self) -> _Self:
        """Another machine with the same words; it records nothing."""
        return type(self).of_words(*(part[:] for part in self._parts))

    @classmethod
    def of_words(cls: Type[_Self], *parts: 'array[int]') -> _Self:
        """A machine of these words, kept where they are."""
        raise NotImplementedError

    def __reduce__(self) -> Tuple[Any, ...]:
        return type(self).of_words, tuple(part[:] for part in self._parts)

    def __copy__(self: _Self) -> _Self:
        return self.copy()

    def __eq__(self, other: object) -> bool:
        return type(self) is type(other) and self._parts == other._parts  # type: ignore[attr-defined]

    __hash__ = None  # type: ignore[assignment]

    def __repr__(self) -> str:
        capacity, workers, edition = self._about()
        what = f'capacity={capacity}, workers={workers}, edition={edition}' if self._queue == 'bounded' else f'workers={workers}'
        stands = ', '.join(f'w{worker}={self._place(worker).name if self.busy(worker) else Kind(self._records[self._record(worker)]).name.lower()}' for worker in range(workers)) if not self.broken else 'broken'
        return f'<{type(self).__name__} {what}: {stands}>'


class Ring(_Machine):
    """The bounded queue: a ring of 1 to 1,024 slots and the records of 1 to 64 workers, in 64-bit words.

    In edition 1 it is concurrent-queue 2.5.0's; in edition 2 a force_push does not lose a close. With record=True it keeps what is accepted,
    for `tape` and `explain`. `head`, `slots` and `records` are its words, as fernmoldew.h lays them out.

    >>> ring = Ring(1, workers=2)
    >>> ring.call(0, Call.PUSH, 7), ring.call(1, Call.PUSH, 8)
    (Answer(kind=<Kind.PUSHED: 1>, value=None), Answer(kind=<Kind.FULL: 6>, value=8))
    >>> ring.contents()
    [7]
    >>> ring.act(0)
    Traceback (most recent call last):
    fernmoldew.Refused: refusal 5: the worker is idle
    """

    _queue, _functions = 'bounded', 'fern_ring_'
    _record_words, _most_acts_alone, _places = _numbers.RECORD_WORDS, _numbers.MOST_ACTS_ALONE, Place

    def __init__(self, capacity: int, workers: int = 1, edition: int = 1, *, record: bool = False) -> None:
        """Refusals 1, 2 and 18."""
        if not 0 <= workers <= _numbers.WORKERS:
            raise Refused(Refusal.BAD_COUNT)
        self._hold(_zeros(_numbers.HEAD_WORDS), _zeros(_numbers.SLOTS_WORDS), _zeros(_numbers.RECORD_WORDS * workers), record)
        _judge(_LIBRARY.fern_ring_make(*self._lent, _word(capacity, 'the capacity'), _word(edition, 'the edition')))

    def _hold(self, head: 'array[int]', slots: 'array[int]', records: 'array[int]', record: bool) -> None:
        super().__init__([head, slots, records], len(records) // _numbers.RECORD_WORDS, record)
        self.head, self.slots, self.records = head, slots, records

    @classmethod
    def of_words(cls, *parts: 'array[int]') -> 'Ring':
        """A ring of these words, head, slots and records, kept where they are; each call judges them."""
        head, slots, records = parts
        ring = cls.__new__(cls)
        ring._hold(head, slots, records, False)
        return ring

    def _about(self) -> Tuple[int, int, int]:
        return self.capacity, self.workers, self.head[_numbers.HEAD_EDITION]

    @property
    def capacity(self) -> int:
        """How many slots it has."""
        return self.head[_numbers.HEAD_CAPACITY]

    @property
    def meter(self) -> int:
        """How many acts were accepted since it was made: no act after METER_LAST."""
        return self.head[_numbers.HEAD_METER]

    def contents(self) -> List[int]:
        """The items in the order in which they would be popped; nothing is removed. Refusals 6 and 4."""
        return self._waiting(_numbers.CAPACITY)

    def place(self, worker: int) -> Optional[Place]:
        """Where a busy worker stands: the action that it takes next; None of an idle one."""
        place: Optional[Place] = self._place(worker)
        return place

    def weak_next(self, worker: int) -> bool:
        """Whether a worker's next act is a weak exchange, which may be made to fail."""
        return self.place(worker) in (Place.P3_PUSH, Place.P3_FORCE, Place.F6, Place.O3)

    def lost(self, worker: int) -> Tuple[int, int]:
        """How many exchanges the present or the last call lost because the words differed, and because they were made to fail."""
        at = self._record(worker)
        return self.records[at + _numbers.RECORD_DIFFERED], self.records[at + _numbers.RECORD_FAILED]


class OneSlot(_Machine):
    """The torque station's one-slot queue (single.rs of concurrent-queue) with the records of 1 to 16 workers. No exchange of it is weak.

    >>> slot = OneSlot(workers=2)
    >>> slot.call(0, Call.PUSH, 240).kind, slot.call(0, Call.FORCE_PUSH, 255)
    (<Kind.PUSHED: 1>, Answer(kind=<Kind.DISPLACED: 8>, value=240))
    >>> slot.contents()
    [255]
    """

    _queue, _functions = 'single', 'fern_slot_'
    _record_words, _most_acts_alone, _places = _numbers.SINGLE_RECORD_WORDS, _numbers.SINGLE_MOST_ACTS_ALONE, OneSlotPlace

    def __init__(self, workers: int = 1, *, record: bool = False) -> None:
        """Refusal 2."""
        self._hold(_zeros(_numbers.SINGLE_HEAD_WORDS), _zeros(_numbers.SINGLE_RECORDS_WORDS), record)
        _judge(_LIBRARY.fern_slot_make(*self._lent, _word(workers, 'the count of workers')))
        self._workers = workers

    def _hold(self, head: 'array[int]', records: 'array[int]', record: bool) -> None:
        super().__init__([head, records], 0, record)
        self.head, self.records = head, records
        if len(head) == _numbers.SINGLE_HEAD_WORDS and len(records) == _numbers.SINGLE_RECORDS_WORDS:
            self._workers = min(head[_numbers.SINGLE_HEAD_COUNT], _numbers.SINGLE_WORKERS)

    @classmethod
    def of_words(cls, *parts: 'array[int]') -> 'OneSlot':
        """A queue of these words, head and records, kept where they are; each call judges them."""
        head, records = parts
        slot = cls.__new__(cls)
        slot._hold(head, records, False)
        return slot

    def _about(self) -> Tuple[int, int, int]:
        return 1, self.workers, 1

    @property
    def meter(self) -> int:
        """How many acts were accepted since it was made: no act after METER_LAST."""
        return self.head[_numbers.SINGLE_HEAD_METER]

    def contents(self) -> List[int]:
        """The item, if there is one; nothing is removed. Refusals 6 and 4."""
        return self._waiting(1)

    def place(self, worker: int) -> Optional[OneSlotPlace]:
        """Where a busy worker stands: the action that it takes next; None of an idle one."""
        place: Optional[OneSlotPlace] = self._place(worker)
        return place


class Unbounded(_Machine):
    """The unbounded queue (unbounded.rs of concurrent-queue) over a pool of 64 blocks of 31 slots, with the records of 1 to 16 workers. It has no
    force_push (refusal 9); a push that needs a block where none is free is refusal 23, and may act again once one is. `head`, `pool` and
    `records` are its words, as fernmoldew.h lays them out.

    >>> queue = Unbounded(workers=2)
    >>> for item in range(40):
    ...     _ = queue.call(0, Call.PUSH, item)
    >>> queue.call(1, Call.POP), len(queue.contents())
    (Answer(kind=<Kind.POPPED: 9>, value=0), 39)
    """

    _queue, _functions = 'unbounded', 'fern_unbounded_'
    _record_words, _most_acts_alone, _places = _numbers.UNBOUNDED_RECORD_WORDS, _numbers.UNBOUNDED_MOST_ACTS_ALONE, UnboundedPlace

    def __init__(self, workers: int = 1, *, record: bool = False) -> None:
        """Refusal 2."""
        self._hold(_zeros(_numbers.UNBOUNDED_HEAD_WORDS), _zeros(_numbers.UNBOUNDED_POOL_WORDS), _zeros(_numbers.UNBOUNDED_RECORDS_WORDS), record)
        _judge(_LIBRARY.fern_unbounded_make(*self._lent, _word(workers, 'the count of workers')))
        self._workers = workers

    def _hold(self, head: 'array[int]', pool: 'array[int]', records: 'array[int]', record: bool) -> None:
        super().__init__([head, pool, records], 0, record)
        self.head, self.pool, self.records = head, pool, records
        if len(head) == _numbers.UNBOUNDED_HEAD_WORDS and len(records) == _numbers.UNBOUNDED_RECORDS_WORDS:
            self._workers = min(head[_numbers.UNBOUNDED_HEAD_COUNT], _numbers.UNBOUNDED_WORKERS)

    @classmethod
    def of_words(cls, *parts: 'array[int]') -> 'Unbounded':
        """A queue of these words, head, pool and records, kept where they are; each call judges them."""
        head, pool, records = parts
        queue = cls.__new__(cls)
        queue._hold(head, pool, records, False)
        return queue

    def _about(self) -> Tuple[int, int, int]:
        return 1, self.workers, 1

    @property
    def meter(self) -> int:
        """How many acts were accepted since it was made: no act after METER_LAST."""
        return self.head[_numbers.UNBOUNDED_HEAD_METER]

    def contents(self) -> List[int]:
        """The items in the order in which they would be popped; nothing is removed. Refusals 6 and 4."""
        return self._waiting(_numbers.UNBOUNDED_ITEMS)

    def place(self, worker: int) -> Optional[UnboundedPlace]:
        """Where a busy worker stands: the action that it takes next; None of an idle one."""
        place: Optional[UnboundedPlace] = self._place(worker)
        return place

    def weak_next(self, worker: int) -> bool:
        """Whether a worker's next act is a weak exchange, which may be made to fail."""
        return self.place(worker) in (UnboundedPlace.U7, UnboundedPlace.V4)


# ---- tapes, and schedules in words

def write_tape(schedule: Words, capacity: int, workers: int, variant: Variant = Variant.BIG) -> bytes:
    """A schedule as a tape, for an archive. Refusals 11 and 17; of 17 the place is the entry's.

    >>> write_tape([0, 5, 8, 0], capacity=2, workers=1).hex(' ')
    '01 00 04 00 02 00 01 02 00 09 00 00 00 00 00 00 00 00 05 03 00 01 80 04 00 00'
    """
    words = _schedule(schedule)
    room = ctypes.create_string_buffer(10 + 6 * len(words))  # FERN_TAPE_BYTES
    reply = _LIBRARY.fern_tape_write(_word(variant, 'the variant'), _word(capacity, 'the capacity'), _word(workers, 'the count of workers'),
                                     *words.buffer_info(), ctypes.addressof(room), len(room))
    _judge(reply.refusal, reply.number)
    return room.raw[:reply.number]


def read_tape(tape: bytes) -> Tape:
    """A tape's schedule and what it is about. Refusals 12 to 15, the first fault from left to right: the place is its byte's.

    >>> read_tape(write_tape([0, 5, 8, 0], capacity=2, workers=1))
    Tape(schedule=array('Q', [0, 5, 8, 0]), capacity=2, workers=1, variant=<Variant.BIG: 1>)
    """
    data = array('B', tape)
    schedule, about = _zeros(len(data) // 2), _zeros(_numbers.TAPE_ABOUT)  # FERN_TAPE_WORDS
    reply = _LIBRARY.fern_tape_read(*data.buffer_info(), *about.buffer_info(), *schedule.buffer_info())
    _judge(reply.refusal, reply.number)
    variant, capacity, workers = about
    return Tape(schedule[:reply.number], capacity, workers, Variant(variant))


def _replay() -> str:
    own = _TREE / 'replay'
    found = str(own) if own.is_file() and (_TREE / 'hosts/c/fernmoldew.h').is_file() else shutil.which('replay')
    if found is None:
        raise FileNotFoundError('no replay on the path: ./install puts it there')
    return found


def explain(schedule: Words, capacity: int, workers: int, *, queue: str = 'bounded', edition: int = 1) -> str:
    """A schedule told in plain words, a line for each entry, by `replay --explain` of the tree or of the path. What it refuses stands in the lines
    where replay runs on; ValueError has its line where it can't."""
    numbers = [*([capacity] if queue == 'bounded' else []), workers, *_schedule(schedule)]
    words = ['--explain', *(['--queue', queue] if queue != 'bounded' else ['--edition', str(edition)] + (['--lent'] if workers > 16 else []))]
    done = subprocess.run([_replay(), *words], input=' '.join(map(str, numbers)) + '\n', stdout=subprocess.PIPE, stderr=subprocess.PIPE, text=True)
    if done.returncode not in (0, 1):
        raise ValueError((done.stderr.strip().splitlines() or [f'replay ended with status {done.returncode}'])[-1])
    return done.stdout
