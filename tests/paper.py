"""A second reading of document 01, the scope paper, with items 4, 6, 8, 9 and 14 of document 02: its machine, row by row. tests/tables holds the programs' tables against it.

It is written from the document and from none of the crates, so that a row misread there is not misread alike here. Places, calls,
answers and refusals have the document's names and numbers; where it names no places, a call's loads are numbered. What the ring shares
with the other queues is read in paper_entries.py.
"""

from dataclasses import dataclass, replace
from typing import NamedTuple, Optional

from paper_entries import ACT_CODES, MOST_LENT, MOST_METER, MOST_WORKERS, Entries, busy, busy_past_the_count, out_of_limits

WIDTHS = {64: 2**64, 16: 65_536}
MOST_SLOTS = 1024
MOST_EDITIONS = 2


# The words

def mark_of(capacity):
    mark = 1
    while mark < capacity + 1:
        mark *= 2
    return mark


def lap_of(capacity):
    return 2 * mark_of(capacity)


def index(ring, word):
    return word % ring.mark


def marked(ring, word):
    return word // ring.mark % 2 == 1


def unmarked(ring, word):
    return word - ring.mark if marked(ring, word) else word


def plus_lap(ring, word):
    return (word + ring.lap) % ring.wide


def minus_lap(ring, word):
    return (word - ring.lap) % ring.wide


def next_of(ring, word):
    if index(ring, word) + 1 < ring.capacity:
        return word + 1
    return plus_lap(ring, word - index(ring, word))


class Slot(NamedTuple):
    stamp: int = 0
    value: int = 0


@dataclass
class Ring:
    """wide: sums of stamps are modulo this number. It is no part of the machine, but of who runs it."""
    capacity: int
    mark: int
    lap: int
    edition: int
    head: int
    tail: int
    slots: list
    wide: int


@dataclass(frozen=True)
class Worker:
    """A record: idle with its last answer, or in a call. A word that it does not hold is None; len's tail and head are t and h. The
    exchanges that the present call, or the last one, lost: because the words differed, and by the schedule."""
    call: Optional[str] = None
    place: str = 'idle'
    item: int = 0
    t: Optional[int] = None
    h: Optional[int] = None
    value: Optional[int] = None
    answer: tuple = ('None',)
    differed: int = 0
    failed: int = 0


@dataclass
class Machine:
    ring: Ring
    workers: list
    count: int
    meter: int
    most: int = MOST_WORKERS  # records that there can be; where they are lent, MOST_LENT


def blank(bits=64, most=MOST_WORKERS):
    ring = Ring(capacity=0, mark=0, lap=0, edition=0, head=0, tail=0, slots=[Slot()] * MOST_SLOTS, wide=WIDTHS[bits])
    return Machine(ring, workers=[Worker()] * most, count=0, meter=0, most=most)


def fresh(capacity, count, edition, bits, most):
    slots = [Slot(stamp=i) if i < capacity else Slot() for i in range(MOST_SLOTS)]
    ring = Ring(capacity, mark_of(capacity), lap_of(capacity), edition, head=0, tail=0, slots=slots, wide=WIDTHS[bits])
    return replace(blank(bits, most), ring=ring, count=count)


def copy_of(machine):
    return replace(machine, ring=replace(machine.ring, slots=list(machine.ring.slots)), workers=list(machine.workers))


# Acts. Each may change the ring and returns the worker's record after it; `fails` is code 9. In an unbroken machine t and h have an
# index below capacity, which is below mark, so t + 1 and h + 1 never wrap.

def answers(worker, *answer):
    return Worker(answer=answer, differed=worker.differed, failed=worker.failed)


def exchange(worker, found, expected, fails):
    """Whether a weak exchange is won, and the record with its loss: by the words where they differ, whatever the schedule says."""
    if found != expected:
        return False, replace(worker, differed=worker.differed + 1)
    if fails:
        return False, replace(worker, failed=worker.failed + 1)
    return True, worker


def back_to(place, worker):
    return replace(worker, place=place, t=None, h=None)


def slot_at(ring, word):
    return ring.slots[index(ring, word)]


def write(ring, word, value):
    ring.slots[index(ring, word)] = slot_at(ring, word)._replace(value=value)


def stamp(ring, word, becomes):
    ring.slots[index(ring, word)] = slot_at(ring, word)._replace(stamp=becomes)


def closed_or_p2(ring, worker, t):
    if marked(ring, t):
        return answers(worker, 'Closed', worker.item)
    return replace(worker, place='P2', t=t)


def p1(ring, worker, fails):
    return closed_or_p2(ring, worker, ring.tail)


def p2(ring, worker, fails):
    t = worker.t
    s = slot_at(ring, t).stamp
    if s == t:
        return replace(worker, place='P3')
    if plus_lap(ring, s) == t + 1:
        return replace(worker, place='F6' if worker.call == 'force_push' else 'P6')
    return back_to('P1', worker)


def p3(ring, worker, fails):
    won, worker = exchange(worker, ring.tail, worker.t, fails)
    if not won:
        return closed_or_p2(ring, worker, ring.tail)
    ring.tail = next_of(ring, worker.t)
    return replace(worker, place='P4')


def p4(ring, worker, fails):
    write(ring, worker.t, worker.item)
    return replace(worker, place='P5')


def p5(ring, worker, fails):
    stamp(ring, worker.t, worker.t + 1)
    return answers(worker, 'Pushed')


def p6(ring, worker, fails):
    if plus_lap(ring, ring.head) == worker.t:
        return answers(worker, 'Full', worker.item)
    return back_to('P1', worker)


def f6(ring, worker, fails):
    won, worker = exchange(worker, ring.head, minus_lap(ring, worker.t), fails)
    if not won:
        return back_to('P1', worker)
    ring.head = minus_lap(ring, next_of(ring, worker.t))
    return replace(worker, place='F7')


def f7(ring, worker, fails):
    kept = ring.mark if ring.edition == 2 and marked(ring, ring.tail) else 0
    ring.tail = next_of(ring, worker.t) + kept
    return replace(worker, place='F8')


def f8(ring, worker, fails):
    old = slot_at(ring, worker.t).value
    write(ring, worker.t, worker.item)
    return replace(worker, place='F9', value=old)


def f9(ring, worker, fails):
    stamp(ring, worker.t, worker.t + 1)
    return answers(worker, 'Displaced', worker.value)


def o1(ring, worker, fails):
    return replace(worker, place='O2', h=ring.head)


def o2(ring, worker, fails):
    h = worker.h
    s = slot_at(ring, h).stamp
    if s == h + 1:
        return replace(worker, place='O3')
    if s == h:
        return replace(worker, place='O6')
    return back_to('O1', worker)


def o3(ring, worker, fails):
    won, worker = exchange(worker, ring.head, worker.h, fails)
    if not won:
        return replace(worker, place='O2', h=ring.head)
    ring.head = next_of(ring, worker.h)
    return replace(worker, place='O4')


def o4(ring, worker, fails):
    return replace(worker, place='O5', value=slot_at(ring, worker.h).value)


def o5(ring, worker, fails):
    stamp(ring, worker.h, plus_lap(ring, worker.h))
    return answers(worker, 'Popped', worker.value)


def o6(ring, worker, fails):
    if unmarked(ring, ring.tail) != worker.h:
        return back_to('O1', worker)
    return answers(worker, 'Closed') if marked(ring, ring.tail) else answers(worker, 'Empty')


def count_of(ring, head, tail):
    hix, tix = index(ring, head), index(ring, tail)
    if hix < tix:
        return tix - hix
    if hix > tix:
        return ring.capacity - hix + tix
    return 0 if unmarked(ring, tail) == head else ring.capacity


def len1(ring, worker, fails):
    return replace(worker, place='len2', t=ring.tail)


def len2(ring, worker, fails):
    return replace(worker, place='len3', h=ring.head)


def len3(ring, worker, fails):
    if ring.tail != worker.t:
        return back_to('len1', worker)
    return answers(worker, 'Len', count_of(ring, worker.h, worker.t))


def yes_if(worker, true):
    return answers(worker, 'Yes' if true else 'No')


def is_empty1(ring, worker, fails):
    return replace(worker, place='is_empty2', h=ring.head)


def is_empty2(ring, worker, fails):
    return yes_if(worker, unmarked(ring, ring.tail) == worker.h)


def is_full1(ring, worker, fails):
    return replace(worker, place='is_full2', t=ring.tail)


def is_full2(ring, worker, fails):
    return yes_if(worker, plus_lap(ring, ring.head) == unmarked(ring, worker.t))


def close1(ring, worker, fails):
    found = ring.tail
    ring.tail = found | ring.mark
    return yes_if(worker, not marked(ring, found))


def is_closed1(ring, worker, fails):
    return yes_if(worker, marked(ring, ring.tail))


ACTS = {
    'P1': p1, 'P2': p2, 'P3': p3, 'P4': p4, 'P5': p5, 'P6': p6, 'F6': f6, 'F7': f7, 'F8': f8, 'F9': f9,
    'O1': o1, 'O2': o2, 'O3': o3, 'O4': o4, 'O5': o5, 'O6': o6,
    'len1': len1, 'len2': len2, 'len3': len3, 'is_empty1': is_empty1, 'is_empty2': is_empty2,
    'is_full1': is_full1, 'is_full2': is_full2, 'close1': close1, 'is_closed1': is_closed1,
}
WEAK_EXCHANGES = ('P3', 'F6', 'O3')


FIRST_PLACES = {
    'push': 'P1', 'force_push': 'P1', 'pop': 'O1', 'len': 'len1', 'is_empty': 'is_empty1', 'is_full': 'is_full1', 'close': 'close1',
    'is_closed': 'is_closed1',
}


# Stock (document 02, item 4), of a machine that a schedule reached: not counted act by act, but from what the acts leave. The claims between the words
# of head and tail, and the workers that have claimed at head and not yet read.

def claims(ring, word):
    return word // ring.lap * ring.capacity + index(ring, word)


def turn(ring):
    return ring.capacity * ring.wide // ring.lap


def stock(machine):
    ring = machine.ring
    unread = sum(worker.place in ('O4', 'F7', 'F8') for worker in machine.workers)
    return (claims(ring, unmarked(ring, ring.tail)) - claims(ring, ring.head)) % turn(ring) + unread


# Why a call goes back (document 02, item 9): looked up in the history, the acts so far.

class Act(NamedTuple):
    """Whose act it is, all workers' records as it found them, and its own worker's as it left it."""
    number: int
    found: list
    left: Worker

    def of(self):
        return self.found[self.number]

    def way(self):
        return self.of().place, self.left.place


BACK = (('P2', 'P1'), ('P3', 'P2'), ('P6', 'P1'), ('F6', 'P1'), ('O2', 'O1'), ('O3', 'O2'), ('O6', 'O1'), ('len3', 'len1'))
CLAIMS = {'tail': (('P3', 'P4'), ('F7', 'F8')), 'head': (('O3', 'O4'), ('F6', 'F7'))}
OWN_AND_OTHER_END = {'push': ('tail', 'head'), 'force_push': ('tail', 'head'), 'pop': ('head', 'tail'), 'len': ('tail', 'head')}
LOADS_OR_FINDS = (('P1', 'P2'), ('P3', 'P2'), ('O1', 'O2'), ('O3', 'O2'), ('len1', 'len2'))
STAMP_LOADS = ('P2', 'O2')
IN_HAND = ('P4', 'P5', 'F7', 'F8', 'F9', 'O4', 'O5')
CAUSES = ('schedule', 'own-end', 'other-end', 'hand')


def moved(end, act):
    return act.way() in CLAIMS[end]


def marked_by(end, act):
    # "Mark set in tail: closed. In head it is never set."
    return end == 'tail' and act.of().call == 'close' and act.left.answer == ('Yes',)


def another_in_hand(act):
    return any(worker.place in IN_HAND for number, worker in enumerate(act.found) if number != act.number)


def place_of_last(history, number, fits):
    return next(i for i in reversed(range(len(history))) if history[i].number == number and fits(history[i]))


def causes(history):
    """Those that hold of the history's last act, which goes back; None if it does not."""
    act = history[-1]
    if act.way() not in BACK:
        return None
    call = act.of().call
    own, other = OWN_AND_OTHER_END[call]
    before = history[:-1]
    given = place_of_last(before, act.number, lambda a: a.way() in LOADS_OR_FINDS)
    hold = {'own-end': any(moved(own, a) or marked_by(own, a) for a in before[given + 1:])}
    if call != 'len':
        loaded = place_of_last(history, act.number, lambda a: a.of().place in STAMP_LOADS)
        hold['schedule'] = act.left.failed > act.of().failed
        hold['other-end'] = any(moved(other, a) for a in history[loaded + 1:])
        hold['hand'] = another_in_hand(history[loaded])
    return [cause for cause in CAUSES if hold.get(cause)]


# What an answer means: which acts change the plain queue, and which moment is an answer's. The table stands in docs/DIFFERENTIAL.md.

class Plainly:
    puts, takes = CLAIMS['tail'], CLAIMS['head']
    holds = lets_go = ()
    gave_t = ('P1', 'P2'), ('P3', 'P2')

    def __init__(self, capacity, edition):
        self.capacity = capacity
        self.opens = [('F7', 'F8')] if edition == 1 else []

    def forbids(self, story, call, way):
        queue = story.queues[-1]
        if way == ('P3', 'P4'):
            return queue.closed or story.full(queue)
        if way == ('O3', 'O4'):
            return queue.waiting() == 0
        if way == ('F6', 'F7'):
            given = story.queue_at(story.own(call, *self.gave_t))
            return not story.full(queue) or (queue.put, queue.out) != (given.put, given.out)
        if way == ('F7', 'F8'):
            return story.full(queue) or queue.put != story.queue_at(story.own(call, ('F6', 'F7'))).put
        return False

    def moment(self, story, call, answer):
        if answer[0] == 'Pushed':
            return story.own(call, ('P3', 'P4'))
        if answer[0] in ('Full', 'Displaced'):
            return story.own(call, *self.gave_t)
        if answer[0] == 'Popped':
            return story.own(call, ('O3', 'O4'))
        if call.name == 'len':
            return story.own(call, ('len2', 'len3'))
        if call.name == 'is_empty' and answer == ('No',):
            loaded = story.own(call, ('is_empty1', 'is_empty2'))
            return loaded if story.queue_at(loaded).waiting() > 0 else story.first_after(loaded, self.puts)
        if call.name == 'is_full' and answer == ('No',):
            loaded = story.own(call, ('is_full1', 'is_full2'))
            return story.first_after(loaded, self.takes) if story.full(story.queue_at(loaded)) else loaded
        return story.last(call)

    def answers_no_of_empty(self, story, call, answer):
        return False


# The window of sixteen-bit words: docs/RULES.md, section 12

GIVES_A_WORD = (*LOADS_OR_FINDS, ('is_empty1', 'is_empty2'), ('is_full1', 'is_full2'))


class Window:
    """A run keeps it while, of every busy worker that holds a word of an end, fewer claims than a turn less two capacities were made at either end since
    the load or exchange that gave it the word."""

    def __init__(self, ring):
        self.length = ring.capacity * (WIDTHS[16] // ring.lap) - 2 * ring.capacity
        self.claims = {end: 0 for end in CLAIMS}
        self.given = {}  # by worker, the claims at the act that gave it its word
        self.left = False

    def leaves(self, number, found, left):
        """An act of worker NUMBER, from record to record. Whether it is the first after which the window is not kept."""
        way = found.place, left.place
        for end, ways in CLAIMS.items():
            self.claims[end] += way in ways
        if left.place in ('idle', *FIRST_PLACES.values()):
            self.given.pop(number, None)
        elif way in GIVES_A_WORD:
            self.given[number] = dict(self.claims)
        was_left = self.left
        self.left = was_left or any(self.claims[end] - given[end] >= self.length for given in self.given.values() for end in CLAIMS)
        return self.left and not was_left


# "Broken", under Eleven ways to be turned away

def index_amiss(ring, word):
    return index(ring, word) >= ring.capacity


def record_amiss(ring, worker):
    # P1, O1 and len's first load hold no word, so that "past" them needs no test of its own.
    held = [word for word in (worker.t, worker.h) if word is not None]
    if worker.call in ('push', 'force_push', 'pop'):
        return any(marked(ring, word) or index_amiss(ring, word) for word in held)
    return worker.call == 'len' and any(index_amiss(ring, word) for word in held)


def losses_amiss(machine):
    return any(count > machine.meter for worker in machine.workers for count in (worker.differed, worker.failed))


def broken(machine):
    ring = machine.ring
    if out_of_limits(ring.capacity, MOST_SLOTS) or out_of_limits(machine.count, machine.most):
        return True
    if out_of_limits(ring.edition, MOST_EDITIONS):
        return True
    if ring.mark != mark_of(ring.capacity) or ring.lap != lap_of(ring.capacity):
        return True
    if marked(ring, ring.head) or index_amiss(ring, ring.head) or index_amiss(ring, ring.tail):
        return True
    if any(record_amiss(ring, worker) for worker in machine.workers[:machine.count]):
        return True
    return losses_amiss(machine) or busy_past_the_count(machine)


def make(capacity, count, edition, bits=64, most=MOST_WORKERS):
    if out_of_limits(capacity, MOST_SLOTS):
        return 1, blank(bits, most)
    if out_of_limits(count, most):
        return 2, blank(bits, most)
    if out_of_limits(edition, MOST_EDITIONS):
        return 18, blank(bits, most)
    return 0, fresh(capacity, count, edition, bits, most)


def begun(call, item):
    return Worker(call, FIRST_PLACES[call], item)


def act_of(machine, worker, fails):
    return ACTS[worker.place](machine.ring, worker, fails)


def items_of(machine):
    ring = machine.ring
    count = count_of(ring, ring.head, ring.tail)
    return [ring.slots[(index(ring, ring.head) + i) % ring.capacity].value for i in range(count)]


ENTRIES = Entries(broken, copy_of, begun, act_of, items_of, WEAK_EXCHANGES)
begin, act, step, run, contents = ENTRIES.begin, ENTRIES.act, ENTRIES.step, ENTRIES.run, ENTRIES.contents


def capacity(machine):
    """The refusal or 0, and the capacity."""
    return (6, 0) if broken(machine) else (0, machine.ring.capacity)
