"""A second search of a scenario, from the words of the request: what can happen, by the second readings of the machines (paper.py, paper_single.py).

A state is the shared words, each worker's place with the words that it holds, what was answered so far and how many calls each worker has begun; the meter and
the counts of losses are no part of it. An ending is what every call answered: one under way at `then`, and those after it. Of each: the fewest acts; with so few the
fewest changes of worker, of two entries in a row from `then` on, begins too; with so few of these the fewest exchanges that are made to fail where they would
not fail anyway; and everything that can wait. It is plain: one heap, whole machines, no memo.
"""

import heapq
from dataclasses import replace
from typing import NamedTuple

import paper
import paper_single
from paper_entries import CALLS, FAILING, busy

ACT = 8
WORDS = {'Pushed': 'pushed', 'Full': 'full', 'Closed': 'closed', 'Empty': 'empty', 'Yes': 'yes', 'No': 'no'}
NUMBERED = {'Displaced': 'displaced', 'Popped': 'popped', 'Len': 'len', 'Length': 'len'}


def said(answer):
    """An answer in words."""
    name = answer[0]
    if name in NUMBERED:
        return f'{NUMBERED[name]} {answer[1]}'
    return WORDS[name]


class Queue(NamedTuple):
    name: str
    edition: int
    capacity: int

    def make(self, workers):
        refusal, machine = paper_single.make(workers) if self.name == 'single' else paper.make(self.capacity, workers, self.edition)
        assert refusal == 0
        return machine

    @property
    def entries(self):
        return (paper_single if self.name == 'single' else paper).ENTRIES


class State(NamedTuple):
    machine: object
    begun: tuple
    answered: tuple


def key_of(state):
    machine = state.machine
    if hasattr(machine, 'slot'):
        shared = machine.slot.state, machine.slot.value
        workers = tuple(machine.workers[:machine.count])
    else:
        ring = machine.ring
        shared = ring.head, ring.tail, tuple(ring.slots[:ring.capacity])
        workers = tuple(replace(worker, differed=0, failed=0) for worker in machine.workers[:machine.count])
    return shared, workers, state.begun, state.answered


class Ending(NamedTuple):
    acts: int
    changes: int
    fails: int
    waits: frozenset


def tried(state, calls, alone):
    """The workers whose entries are tried next. alone: None, and all are; or the places at which an act is taken before anybody else's entry, as a begin is then, the lowest worker's first."""
    workers = state.machine.workers[:state.machine.count]
    if alone is not None:
        for number, worker in enumerate(workers):
            if worker.place in alone if busy(worker) else state.begun[number] < len(calls[number]):
                return [number]
    return range(len(workers))


def entries_from(queue, state, calls, alone):
    """Every entry that can come next, with the state after it."""
    machine = state.machine
    for number in tried(state, calls, alone):
        if busy(machine.workers[number]):
            for code in (ACT, FAILING):
                refusal, after = queue.entries.step(machine, 16 * number + code, 0)
                if refusal == 8:
                    continue
                assert refusal == 0
                answered = state.answered
                if not busy(after.workers[number]):
                    answered = tuple(told + (said(after.workers[number].answer),) if k == number else told for k, told in enumerate(answered))
                yield (16 * number + code, 0), State(after, state.begun, answered)
        elif state.begun[number] < len(calls[number]):
            entry = calls[number][state.begun[number]]
            refusal, after = queue.entries.step(machine, 16 * number + entry[0], entry[1])
            assert refusal == 0
            yield (16 * number + entry[0], entry[1]), State(after, tuple(begun + (k == number) for k, begun in enumerate(state.begun)), state.answered)


class TooMany(Exception):
    pass


def search(queue, machine, calls, most, alone=None):
    """How many states there are, and the endings by what was answered. calls: of each worker (code, item). alone: of a reduced search, places as `tried` takes them."""
    nobody = tuple(0 for _ in calls), tuple(() for _ in calls)
    first = State(machine, *nobody)
    # states first, then the cheapest way to each with each last worker
    after, todo = {}, [first]
    states = {key_of(first): first}
    while todo:
        state = todo.pop()
        key = key_of(state)
        after[key] = []
        leads = {}
        for entry, next_state in entries_from(queue, state, calls, alone):
            next_key = key_of(next_state)
            number, code = divmod(entry[0], 16)
            # an exchange that fails anyway is no failed one
            fails = code == FAILING and leads.get(number) != next_key
            leads.setdefault(number, next_key)
            after[key].append((number, code >= ACT, fails, next_key))
            if next_key not in states:
                if len(states) == most:
                    raise TooMany
                states[next_key] = next_state
                todo.append(next_state)
    best = {}
    heap = [((0, 0, 0), 0, key_of(first), None)]
    tick = 0
    while heap:
        cost, _, key, last = heapq.heappop(heap)
        if (key, last) in best:
            continue
        best[key, last] = cost
        for number, is_act, fails, next_key in after[key]:
            if (next_key, number) not in best:
                tick += 1
                heapq.heappush(heap, ((cost[0] + is_act, cost[1] + (last not in (None, number)), cost[2] + fails), tick, next_key, number))
    endings = {}
    for (key, _), cost in best.items():
        if after[key]:
            continue
        state = states[key]
        items = tuple(queue.entries.items_of(state.machine))
        known = endings.get(state.answered)
        endings[state.answered] = Ending(*(min(cost, known[:3]) if known else cost), (known.waits if known else frozenset()) | {items})
    return len(states), endings


def run_before(queue, workers, entries):
    """The machine after a schedule's entries, or None where one is refused."""
    machine = queue.make(workers)
    for first, item in entries:
        refusal, machine = queue.entries.step(machine, first, item)
        if refusal != 0:
            return None
    return machine


def followed(queue, machine, entries):
    """What a schedule from there answers, in how many acts and changes, and how many of its exchanges failed that would not have failed anyway."""
    answered = [[] for _ in range(machine.count)]
    acts = changes = fails = 0
    last = None
    for first, item in entries:
        number, code = divmod(first, 16)
        before = machine
        refusal, machine = queue.entries.step(machine, first, item)
        assert refusal == 0, (refusal, first, item)
        acts += code >= ACT
        changes += last not in (None, number)
        last = number
        if code == FAILING:
            _, plain = queue.entries.step(before, 16 * number + ACT, 0)
            same = [key_of(State(one, (), ())) for one in (machine, plain)]
            fails += same[0] != same[1]
        if code >= ACT and not busy(machine.workers[number]):
            answered[number].append(said(machine.workers[number].answer))
    return tuple(map(tuple, answered)), acts, changes, fails, tuple(queue.entries.items_of(machine))


def entry_of(call, item=0):
    return CALLS.index(call), item
