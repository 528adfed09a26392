"""What replay's lines say of each queue: where a worker stands, which slot it has in hand, what an act did to the slots and to the two ends.

A reading is made for one machine. A slot is a number; in the unbounded queue it is a block and an offset there."""

from typing import NamedTuple

LOOKERS = {'len': 'len', 'empty': 'is_empty', 'full': 'is_full', 'close': 'close', 'isclosed': 'is_closed'}  # by the name of their places
CALLS = ('push', 'force_push', 'pop', 'len', 'is_empty', 'is_full', 'close', 'is_closed')  # by code
ACT, FAIL = 8, 9  # codes of acts
WITH_ITEM = ('push', 'force_push')
LOADS_OF_HEAD = (('len2', 'len3'),)
MOVED = {('len3', 'len1'): 'moved', ('len3', 'len2'): 'moved'}


class Stand(NamedTuple):
    """A worker's S: `P2:push(0,101)` is P2, push and the words 0 and 101; `idle:popped(201)` is idle, popped and 201."""
    place: str
    kind: str
    words: list

    @property
    def idle(self):
        return self.place == 'idle'

    def __str__(self):
        return self.place + f':{self.kind}' * bool(self.kind) + f'({",".join(self.words)})' * bool(self.words)


IDLE = Stand('idle', 'none', [])


def stand_of(text):
    name, _, words = text.partition('(')
    place, _, kind = name.partition(':')
    return Stand(place, kind, words[:-1].split(',') if words else [])


def pairs_of(line):
    """The slots of one of replay's last lines: (STAMP,VALUE) .."""
    return [tuple(map(int, pair[1:-1].split(','))) for pair in line.split() if pair.startswith('(')]


def slots_in(last):
    """Those of the ring, of what replay prints behind the lines of the entries."""
    return pairs_of(next((line for line in last if line.startswith('slots')), ''))


class Change(NamedTuple):
    """What an act did to a slot. None: that stays. A bit is added to the state."""
    slot: object
    stamp: object = None
    value: object = None
    bit: int = 0

    def of(self, found):
        """What is there after it, of what was there before."""
        stamp, value = found
        return stamp | self.bit if self.bit else stamp if self.stamp is None else self.stamp, value if self.value is None else self.value


class Reading:
    stamp = 'stamp'  # what stands in a slot beside its value
    worker = 0  # which of a line's words tells of the worker
    hands = frozenset()  # places with a slot in hand
    back = {}  # acts that go back, and why, where replay names no cause
    pushes, forces, pops = (), (), ()  # first places
    fresh_ends = '0', '0'  # the words of tail and head of a fresh machine
    weak = frozenset()  # places whose exchange the schedule may make fail
    moments = {}  # of an answer, or of a call and its answer, the acts before the last of which a plain queue gives it: docs/PROMISES.md

    @classmethod
    def call_of(cls, stand):
        """The name of a call that begins so, and its item."""
        if stand.place in cls.pops:
            return 'pop', ''
        if stand.place in cls.pushes:
            return ('force_push' if stand.place in cls.forces or stand.kind == 'force' else 'push'), stand.words[-1]
        return LOOKERS[stand.place.rstrip('0123456789')], ''

    def taken(self, before, after):
        """The slots that an act made anew."""
        return ()

    def decoded(self, word):
        """An end's word as a reader says it."""
        return word

    def loaded(self, stand):
        """The words of the ends that a worker holds, each with its end."""
        return ()

    def word_of(self, stand):
        """The words that a worker who stands so has loaded, on one line; its item is no such word."""
        return '; '.join(self.decoded(word) for _, word in self.loaded(stand))

    def word_said(self, stand):
        """The words of the ends that a worker holds, decoded."""
        return [f'{end} {self.decoded(word)}' for end, word in self.loaded(stand)]

    def ends_said(self, ends):
        """The shared words decoded, by their names in a line, each as a text."""
        return []

    def awaited(self, ways, others):
        """Of other workers and where they stand: those for whom one waits who goes round and stands so on the way."""
        return [worker for worker, other in others if self.hand_of(other) is not None]

    def decided(self, call, answer):
        """The acts just before the last of which a plain queue gives that answer; else it does so just before the call's last act."""
        return self.moments.get((call, answer)) or self.moments.get(answer, ())


class Ring(Reading):
    """The ring, at either width, its records lent or not."""
    worker = 5
    hands = frozenset(('P4', 'P5', 'F7', 'F8', 'F9', 'O4', 'O5'))
    back = {('P2', 'P1'): 'stamp', ('P3', 'P2'): 'lost', ('P6', 'P1'): 'moved', ('F6', 'P1'): 'lost',
            ('O2', 'O1'): 'stamp', ('O3', 'O2'): 'lost', ('O6', 'O1'): 'moved', **MOVED}
    pushes, pops = ('P1',), ('O1',)
    weak = frozenset(('P3', 'F6', 'O3'))
    tail_claims, head_claims = (('P3', 'P4'), ('F7', 'F8')), (('O3', 'O4'), ('F6', 'F7'))
    gave_tail = ('P1', 'P2'), ('P3', 'P2')
    moments = {'pushed': tail_claims[:1], 'popped': head_claims[:1], 'full': gave_tail, 'displaced': gave_tail, 'len': LOADS_OF_HEAD}

    def __init__(self, capacity, bits):
        self.mark = 1
        while self.mark <= capacity:
            self.mark *= 2
        self.turn = 2**bits
        self.fresh = {i: (i, 0) for i in range(capacity)}

    def ends(self, words):
        """The words of tail and head as they are shown, and whether the queue is closed."""
        tail = words[3][2:]
        return tail, words[2][2:], bool(int(tail) & self.mark)

    def slot_of(self, word):
        return int(word) % self.mark

    def decoded(self, word):
        number = int(word)
        return f'{word}: lap {number // (2 * self.mark)}, slot {self.slot_of(word)}' + ', closed' * bool(number & self.mark)

    def ends_said(self, ends):
        return [f'{end} {self.decoded(ends[end[0]])}' for end in ('head', 'tail')]

    def loaded(self, stand):
        if stand.place in self.pushes:
            return ()
        held = {'P': ('tail',), 'F': ('tail',), 'O': ('head',)}.get(stand.place[0]) or {'len2': ('tail',), 'len3': ('tail', 'head'), 'empty2': ('head',), 'full2': ('tail',)}.get(stand.place, ())
        return zip(held, stand.words)

    def awaited(self, ways, others):
        looked_at = {self.slot_of(stand.words[0]) for stand in ways if stand.place in ('P2', 'O2')}
        return [worker for worker, other in others if self.hand_of(other) in looked_at]

    def hand_of(self, stand):
        return self.slot_of(stand.words[0]) if stand.place in self.hands else None

    def change(self, before, words):
        place = before.place
        if place in ('P4', 'F8'):
            return Change(self.slot_of(before.words[0]), value=int(before.words[1]))
        if place in ('P5', 'F9', 'O5'):
            onward = 2 * self.mark if place == 'O5' else 1
            return Change(self.slot_of(before.words[0]), stamp=(int(before.words[0]) + onward) % self.turn)
        return None

    def claims(self, before, after):
        """The ends that an act moved; at tail with the item that goes in."""
        step = before.place, after.place
        return (('tail', after.words[1]),) if step in self.tail_claims else (('head', ''),) if step in self.head_claims else ()

    def is_end(self, slots, last):
        """Whether these are the slots that replay shows behind the lines of the entries."""
        return [slots[i] for i in self.fresh] == slots_in(last)


class OneSlot(Reading):
    stamp = 'state'
    worker = 4
    hands = frozenset(('A2', 'A3', 'B2', 'B3', 'B4', 'B5', 'C2', 'C3'))
    back = {('B1', 'B1'): 'lost', ('C1', 'C1'): 'lost'}
    pushes, forces, pops = ('A1', 'B1'), ('B1',), ('C1',)
    fresh_ends = None, None
    moments = {answer: (('A1', 'A2'), ('B1', 'B2'), ('B1', 'B4'), ('C1', 'C2')) for answer in ('pushed', 'displaced', 'popped')}
    BITS = (1, 'locked'), (2, 'pushed'), (4, 'closed')

    def __init__(self, capacity, bits):
        self.fresh = {0: ('0', 0)}

    def ends(self, words):
        return None, None, bool(int(words[2][2:]) & 4)

    def bits_of(self, word):
        return [name for bit, name in self.BITS if int(word) & bit]

    def state(self, word):
        return f'{word} {"".join(name[0].upper() for name in self.bits_of(word))}'.strip()

    def ends_said(self, ends):
        bits = self.bits_of(ends['s'])
        return [f'state {ends["s"]}: ' + (' and '.join(filter(None, (', '.join(bits[:-1]), bits[-1]))) if bits else 'free')]

    def word_of(self, stand):
        return self.state(stand.words[0]) if stand.place in self.pops else ''

    def hand_of(self, stand):
        return 0 if stand.place in self.hands else None

    def change(self, before, words):
        return Change(0, self.state(words[2][2:]), int(before.words[-1]) if before.place in ('A2', 'B2', 'B4') else None)

    def claims(self, before, after):
        if before.place not in ('A1', 'B1', 'C1') or after.place not in self.hands:
            return ()
        out = (('head', ''),) if after.place in ('B4', 'C2') else ()
        return out if after.place == 'C2' else (*out, ('tail', before.words[-1]))

    def is_end(self, slots, last):
        return slots[0][1] == next((int(line.split()[1]) for line in last if line.startswith('value ')), 0)


class Unbounded(Reading):
    stamp = 'state'
    worker = 7
    pushing = frozenset(('U9', 'U10', 'U11', 'U12', 'U13'))
    popping = frozenset(('V6', 'V7', 'V8', 'V9', 'V10', 'V11', 'V12'))
    hands = pushing | popping
    back = {('U2', 'U1'): 'end', ('U8', 'U1'): 'end', ('U7', 'U8'): 'lost', ('U5', 'U1'): 'lost', ('U5', 'U15'): 'lost',
            ('V2', 'V1'): 'end', ('V5', 'V1'): 'end', ('V3', 'V1'): 'end', ('V4', 'V5'): 'lost',
            ('V6', 'V6'): 'waits', ('V10', 'V10'): 'waits', **MOVED}
    pushes, pops = ('U1',), ('V1',)
    weak = frozenset(('U7', 'V4'))
    moments = {'pushed': (('U7', 'U9'), ('U7', 'U12')), 'popped': (('V4', 'V6'), ('V4', 'V10')), ('push', 'closed'): (('U1', 'U2'), ('U7', 'U8')), 'len': LOADS_OF_HEAD}
    SLOTS = 31

    def __init__(self, capacity, bits):
        self.fresh = {}

    def ends(self, words):
        tail = words[4][2:]
        return tail, words[2][2:], bool(int(tail) & 1)

    def ends_said(self, ends):
        return [f'{end} {self.decoded(ends[word])}, ' + ('no block' if ends[block] == '-' else f'block {ends[block]}') for end, word, block in (('head', 'h', 'hb'), ('tail', 't', 'tb'))]

    def awaited(self, ways, others):
        """The push of the slot that it is to read, or who has the last slot of a block in hand and has not moved on the end."""
        own = self.hand_of(ways[-1])
        written = [worker for worker, other in others if own is not None and self.hand_of(other) == own]
        return written or [worker for worker, other in others if (self.hand_of(other) or (0, 0))[1] == self.SLOTS - 1]

    def hand_of(self, stand):
        if stand.place in self.pushing:
            return self.slot_of(stand.words[2], stand.words[1])
        return self.slot_of(stand.words[1], stand.words[0]) if stand.place in self.popping else None

    def offset_of(self, word):
        return int(word) // 2 % (self.SLOTS + 1)

    def slot_of(self, block, word):
        return int(block), self.offset_of(word)

    def decoded(self, word):
        return word + ', marked' * (int(word) % 2) + f': position {int(word) // 2}, offset {self.offset_of(word)}'

    def word_of(self, stand):
        return ','.join(stand.words[:-1] if stand.place[0] == 'U' else stand.words)

    def change(self, before, words):
        held = before.words
        if before.place == 'U12':
            return Change(self.slot_of(held[2], held[1]), value=int(held[3]))
        if before.place == 'U13':
            return Change(self.slot_of(held[2], held[1]), bit=1)
        if before.place == 'V12':
            return Change(self.slot_of(held[1], held[0]), bit=2)
        return Change((int(held[0]), int(held[1])), bit=4) if before.place == 'V14' else None

    def taken(self, before, after):
        if before.place == 'U3' and after.place in ('U4', 'U7'):
            block = int(after.words[0])
        elif (before.place, after.place) == ('U4', 'U5'):
            block = int(after.words[2])
        else:
            return ()
        return [(block, i) for i in range(self.SLOTS)]

    def claims(self, before, after):
        if before.place == 'U7' and after.place in self.pushing:
            return (('tail', before.words[-1]),)
        return (('head', ''),) if before.place == 'V4' and after.place in self.popping else ()

    def is_end(self, slots, last):
        at_end = {int(line.split()[1]): pairs_of(line) for line in last if line.startswith('block ')}
        return all(slots.get((block, i), (0, 0)) == pair for block, pairs in at_end.items() for i, pair in enumerate(pairs))


READINGS = {'bounded': Ring, 'single': OneSlot, 'unbounded': Unbounded}
