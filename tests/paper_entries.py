"""What the readings of all queues share: workers, calls, codes, refusals and their order, schedules, contents.

A queue's own reading says what its machine and its acts are (paper.py the ring, paper_single.py the one-slot queue, paper_unbounded.py
the unbounded one); Entries has the functions that are handed entries. Written from document 01 and from none of the crates.
"""

from dataclasses import dataclass
from typing import Callable

MOST_WORKERS = 16
MOST_LENT = 64  # records that a host lends: document 02, item 11
MOST_METER = 4_294_967_295


# Schedules

CALLS = ('push', 'force_push', 'pop', 'len', 'is_empty', 'is_full', 'close', 'is_closed')
BEGIN_CODES = range(0, 8)
ACT_CODES = range(8, 10)
FAILING = 9
CODES_WITH_ITEM = range(0, 2)


def busy(worker):
    return worker.place != 'idle'


def busy_past_the_count(machine):
    return any(busy(worker) for worker in machine.workers[machine.count:])


def out_of_limits(number, most):
    return not 1 <= number <= most


# "Order", under Eleven ways to be turned away

@dataclass(frozen=True)
class Entries:
    """begin, act, step, run and contents of a queue whose machine has workers, a count of them and a meter."""
    broken: Callable  # machine -> whether
    copy_of: Callable  # machine -> machine
    begun: Callable  # call, item -> the record of a worker that has just begun it
    act_of: Callable  # machine, record, whether a weak exchange fails -> the record after the act; the machine is changed
    items_of: Callable  # machine that is not broken, with all workers idle -> what Drop meets
    weak_exchanges: tuple = ()  # places
    calls_missing: tuple = ()  # calls that the queue has not
    lacks_a_block: Callable = lambda machine, worker: False  # whether the act takes a block where none is free

    def unreadable(self, codes, code, item):
        if code not in codes or (item != 0 and code not in CODES_WITH_ITEM):
            return True
        return code in BEGIN_CODES and CALLS[code] in self.calls_missing

    def first_unreadable(self, words):
        """The place of the first entry that is refusal 9 whatever the machine, or None: document 02, item 7."""
        codes = (*BEGIN_CODES, *ACT_CODES)
        entries = zip(words[::2], words[1::2])
        return next((place for place, (first, item) in enumerate(entries) if self.unreadable(codes, first % 16, item)), None)

    def begin_refusal(self, machine, number, code, item):
        if self.broken(machine):
            return 6
        if self.unreadable(BEGIN_CODES, code, item):
            return 9
        if number >= machine.count:
            return 3
        if busy(machine.workers[number]):
            return 4
        return 0

    def act_refusal(self, machine, number, code, item):
        if self.broken(machine):
            return 6
        if self.unreadable(ACT_CODES, code, item):
            return 9
        if number >= machine.count:
            return 3
        if not busy(machine.workers[number]):
            return 5
        if machine.meter >= MOST_METER:
            return 7
        if code == FAILING and machine.workers[number].place not in self.weak_exchanges:
            return 8
        if self.lacks_a_block(machine, machine.workers[number]):
            return 23
        return 0

    # The document does not say what begin and act are handed. docs/DECISIONS.md does: an entry's two words, as step is, and a code of
    # the other kind cannot be read.

    def begin(self, machine, first, item):
        number, code = divmod(first, 16)
        refusal = self.begin_refusal(machine, number, code, item)
        if refusal != 0:
            return refusal, machine
        after = self.copy_of(machine)
        after.workers[number] = self.begun(CALLS[code], item)
        return 0, after

    def act(self, machine, first, item):
        number, code = divmod(first, 16)
        refusal = self.act_refusal(machine, number, code, item)
        if refusal != 0:
            return refusal, machine
        after = self.copy_of(machine)
        after.workers[number] = self.act_of(after, after.workers[number], code == FAILING)
        after.meter += 1
        return 0, after

    def step(self, machine, first, item):
        return (self.begin if first % 16 in BEGIN_CODES else self.act)(machine, first, item)

    def refused_whole(self, machine, words):
        """The refusal with which nothing of a schedule is run, or 0, and its place."""
        if self.broken(machine):
            return 6, 0
        if len(words) % 2 == 1:
            return 11, 0
        unreadable = self.first_unreadable(words)
        return (0, 0) if unreadable is None else (9, unreadable)

    def run(self, machine, words):
        """The refusal or 0, the place or the count of the entries, and the machine."""
        refusal, place = self.refused_whole(machine, words)
        if refusal != 0:
            return refusal, place, machine
        for place in range(len(words) // 2):
            refusal, machine = self.step(machine, words[2 * place], words[2 * place + 1])
            if refusal != 0:
                return refusal, place, machine
        return 0, len(words) // 2, machine

    def contents(self, machine, buffer):
        """The refusal or 0, the count, and the buffer."""
        if self.broken(machine):
            return 6, 0, buffer
        if any(busy(worker) for worker in machine.workers):
            return 4, 0, buffer
        items = self.items_of(machine)
        if len(buffer) < len(items):
            return 10, 0, buffer
        return 0, len(items), items + buffer[len(items):]
