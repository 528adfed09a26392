"""A second reading of the one-slot queue: request 1 of document 02 and the source, src/single.rs, line by line.

It is written from those and from none of the crates, as paper.py is; a place is named where the source does an action. Push has A1 to A3,
force_push B1 to B5, pop C1 to C3; the other calls load or change the state word once.
"""

from dataclasses import dataclass, replace
from typing import Optional

from paper_entries import MOST_WORKERS, Entries, busy_past_the_count, out_of_limits

LOCKED = 1
PUSHED = 2
CLOSED = 4
MOST_STATE = LOCKED | PUSHED | CLOSED


@dataclass
class Slot:
    state: int
    value: int


# The words held at each place
WORDS = {
    'A1': ('item',), 'A2': ('item',), 'A3': (),
    'B1': ('e', 'item'), 'B2': ('item',), 'B3': (), 'B4': ('item',), 'B5': ('value',),
    'C1': ('e',), 'C2': (), 'C3': ('value',),
    'len1': (), 'is_empty1': (), 'is_full1': (), 'close1': (), 'is_closed1': (),
}


@dataclass(frozen=True)
class Worker:
    """A record: idle with its last answer, or in a call. e is the word that the next exchange expects; None where it holds none."""
    call: Optional[str] = None
    place: str = 'idle'
    item: int = 0
    e: Optional[int] = None
    value: Optional[int] = None
    answer: tuple = ('None',)


@dataclass
class Machine:
    slot: Slot
    workers: list
    count: int
    meter: int


def blank():
    return Machine(Slot(state=0, value=0), workers=[Worker()] * MOST_WORKERS, count=0, meter=0)


def fresh(count):
    return replace(blank(), count=count)


def copy_of(machine):
    slot = Slot(machine.slot.state, machine.slot.value)
    return Machine(slot, list(machine.workers), machine.count, machine.meter)


# Acts. Each may change the slot and returns the worker's record after it.

def answers(*answer):
    return Worker(answer=answer)


def yes_if(true):
    return answers('Yes' if true else 'No')


def exchange(slot, expected, new):
    """Strong: it wins exactly when the word is the one expected. Gives the word found."""
    found = slot.state
    if found == expected:
        slot.state = new
    return found


def unlock(slot):
    slot.state &= ~LOCKED


def a1(slot, worker):
    found = exchange(slot, 0, LOCKED | PUSHED)
    if found == 0:
        return replace(worker, place='A2')
    return answers('Closed' if found & CLOSED else 'Full', worker.item)


def a2(slot, worker):
    slot.value = worker.item
    return replace(worker, place='A3')


def a3(slot, worker):
    unlock(slot)
    return answers('Pushed')


def b1(slot, worker):
    found = exchange(slot, worker.e, LOCKED | PUSHED)
    # The source looks for the mark before it looks who won: with a marked e, which no reached machine holds, both are so.
    if found & CLOSED:
        return answers('Closed', worker.item)
    if found == worker.e:
        return replace(worker, place='B4' if found & PUSHED else 'B2', e=None)
    return replace(worker, e=found & ~LOCKED)


def b2(slot, worker):
    slot.value = worker.item
    return replace(worker, place='B3')


def b3(slot, worker):
    unlock(slot)
    return answers('Pushed')


def b4(slot, worker):
    old = slot.value
    slot.value = worker.item
    return replace(worker, place='B5', value=old)


def b5(slot, worker):
    unlock(slot)
    return answers('Displaced', worker.value)


def c1(slot, worker):
    found = exchange(slot, worker.e, (worker.e | LOCKED) & ~PUSHED)
    if found == worker.e:
        return replace(worker, place='C2', e=None)
    if not found & PUSHED:
        return answers('Closed') if found & CLOSED else answers('Empty')
    return replace(worker, e=found & ~LOCKED)


def c2(slot, worker):
    return replace(worker, place='C3', value=slot.value)


def c3(slot, worker):
    unlock(slot)
    return answers('Popped', worker.value)


def count_of(slot):
    return 1 if slot.state & PUSHED else 0


def len1(slot, worker):
    return answers('Len', count_of(slot))


def is_empty1(slot, worker):
    return yes_if(count_of(slot) == 0)


def is_full1(slot, worker):
    return yes_if(count_of(slot) == 1)


def close1(slot, worker):
    found = slot.state
    slot.state = found | CLOSED
    return yes_if(not found & CLOSED)


def is_closed1(slot, worker):
    return yes_if(slot.state & CLOSED)


ACTS = {
    'A1': a1, 'A2': a2, 'A3': a3, 'B1': b1, 'B2': b2, 'B3': b3, 'B4': b4, 'B5': b5, 'C1': c1, 'C2': c2, 'C3': c3,
    'len1': len1, 'is_empty1': is_empty1, 'is_full1': is_full1, 'close1': close1, 'is_closed1': is_closed1,
}
FIRST = {
    'push': Worker('push', 'A1'), 'force_push': Worker('force_push', 'B1', e=0), 'pop': Worker('pop', 'C1', e=PUSHED),
    'len': Worker('len', 'len1'), 'is_empty': Worker('is_empty', 'is_empty1'), 'is_full': Worker('is_full', 'is_full1'),
    'close': Worker('close', 'close1'), 'is_closed': Worker('is_closed', 'is_closed1'),
}


# What an answer means: which acts change the plain queue of one item, and which moment is an answer's. The table stands in docs/DIFFERENTIAL.md.

class Plainly:
    capacity = 1
    puts = ('A1', 'A2'), ('B1', 'B2'), ('B1', 'B4')
    takes = ('C1', 'C2'), ('B1', 'B4')
    opens = ()
    holds, lets_go = [('C1', 'C2')], [('C3', 'idle')]

    def forbids(self, story, call, way):
        queue = story.queues[-1]
        if way in self.puts and (queue.closed or queue.held):
            return True
        if way in self.takes:
            return queue.waiting() == 0
        return way in self.puts and queue.waiting() > 0

    def moment(self, story, call, answer):
        if answer[0] in ('Pushed', 'Displaced', 'Popped'):
            return story.own(call, *self.puts, *self.takes)
        return story.last(call)

    def answers_no_of_empty(self, story, call, answer):
        return False


# Refusals

def broken(machine):
    return machine.slot.state > MOST_STATE or out_of_limits(machine.count, MOST_WORKERS) or busy_past_the_count(machine)


def make(count):
    if out_of_limits(count, MOST_WORKERS):
        return 2, blank()
    return 0, fresh(count)


def begun(call, item):
    return replace(FIRST[call], item=item)


def act_of(machine, worker, fails):
    return ACTS[worker.place](machine.slot, worker)


def items_of(machine):
    return [machine.slot.value] * count_of(machine.slot)


# Exchanges are strong, so that code 9 is refused at every place.
ENTRIES = Entries(broken, copy_of, begun, act_of, items_of)
begin, act, step, run, contents = ENTRIES.begin, ENTRIES.act, ENTRIES.step, ENTRIES.run, ENTRIES.contents


def capacity(machine):
    """The refusal or 0, and the capacity, which the crate's dispatch says is 1."""
    return (6, 0) if broken(machine) else (0, 1)
