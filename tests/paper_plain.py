"""What an answer means: a plain queue counted along a schedule, and of each answer the moment at which that queue gives it. What the readings of all queues share.

A plain queue is items in order, open or closed, a capacity. Which acts change it, and which moment is an answer's, is each queue's own business (`Plainly` of paper.py,
paper_single.py and paper_unbounded.py). Written from the table in docs/DIFFERENTIAL.md and from neither the crates nor the judge: the judge carries each call's
moment along; here the whole story is kept, every accepted entry in order, and the moment of an answer is looked up in it when it is given.
"""

from typing import NamedTuple, Optional

from paper_entries import ACT_CODES, CALLS


class Unplain(Exception):
    """An answer that is not the plain queue's, or a change that the plain queue does not allow."""


class Queue(NamedTuple):
    """At one moment: of all items that the story puts in, in order, those from the `out`-th up to the `put`-th wait."""
    put: int = 0
    out: int = 0
    closed: bool = False
    held: int = 0  # of the one-slot queue: pops between their won exchange and their unlock, which still take the room

    def waiting(self):
        return self.put - self.out


class Entry(NamedTuple):
    """Whose entry it is, what it begins, if it begins a call, and the worker's record as it found it and as it left it."""
    number: int
    call: Optional[str]
    item: int
    found: object
    left: object

    def way(self):
        return self.found.place, self.left.place


class Moment(NamedTuple):
    """Just before the entry at a place, or directly after it."""
    place: int
    after: bool = False

    def __str__(self):
        return f'{self.place}+' if self.after else f'{self.place}'


class Call(NamedTuple):
    """The one that the story's last entry is of: its name and item as it was begun, and the places of its acts."""
    name: str
    item: int
    acts: list


class Story:
    """plainly: a queue's `Plainly`, made for this schedule's machine."""

    def __init__(self, plainly):
        self.plainly = plainly
        self.entries = []
        self.items = []  # put in, in order
        self.queues = [Queue()]  # just before each entry, and now
        self.no_of_empty = 0

    def cut(self, length):
        """Back to the first so many entries."""
        del self.entries[length:], self.queues[length + 1:], self.items[self.queues[-1].put:]

    # The plain queue

    def queue_at(self, moment):
        return self.queues[moment.place + moment.after]

    def full(self, queue):
        return self.plainly.capacity is not None and queue.waiting() >= self.plainly.capacity

    def answer(self, queue, call, item):
        waits, full = queue.waiting() > 0, self.full(queue)
        yes_if = {True: ('Yes',), False: ('No',)}
        if call in ('push', 'force_push') and queue.closed:
            return 'Closed', item
        if call == 'push':
            return ('Full', item) if full or queue.held else ('Pushed',)
        if call == 'force_push':
            return ('Displaced', self.items[queue.out]) if full else ('Pushed',)
        if call == 'pop' and waits:
            return 'Popped', self.items[queue.out]
        if call == 'pop':
            return ('Closed',) if queue.closed else ('Empty',)
        if call == 'len':
            return 'Len', queue.waiting()
        return yes_if[{'is_empty': not waits, 'is_full': full, 'close': not queue.closed, 'is_closed': queue.closed}[call]]

    # Looking back, from the story's last entry, which is an act

    def call(self):
        number, acts = self.entries[-1].number, []
        for place in reversed(range(len(self.entries))):
            entry = self.entries[place]
            if entry.number == number:
                if entry.call is not None:
                    return Call(entry.call, entry.item, acts[::-1])
                acts.append(place)

    def last(self, call):
        return Moment(call.acts[-1])

    def own(self, call, *ways):
        """Its own last act that went one of these ways, or None."""
        return next((Moment(place) for place in reversed(call.acts) if self.entries[place].way() in ways), None)

    def first_after(self, moment, ways):
        """Directly after the first act since that went one of these ways, or None."""
        places = range(moment.place + 1, len(self.entries))
        return next((Moment(place, after=True) for place in places if self.entries[place].way() in ways), None)

    # One entry more

    def add(self, first, item, found, left):
        """An accepted entry. Gives the moment of the answer if it ends a call, 'none' if that has none, else None."""
        number, code = divmod(first, 16)
        acts = code in ACT_CODES
        entry = Entry(number, None if acts else CALLS[code], item, found, left)
        self.entries.append(entry)
        call = self.call() if acts else None
        if acts and self.plainly.forbids(self, call, entry.way()):
            raise Unplain(f'entry {self.place()}: worker {number}: {" to ".join(entry.way())}, which the plain queue does not allow now: {self.queues[-1]}')
        self.queues.append(self.changed(entry, call) if acts else self.queues[-1])
        return self.answered(call, left.answer) if acts and left.place == 'idle' else None

    def place(self):
        return len(self.entries) - 1

    def changed(self, entry, call):
        queue, plainly, way = self.queues[-1], self.plainly, entry.way()
        if way in plainly.takes:
            queue = queue._replace(out=queue.out + 1)
        if way in plainly.puts:
            self.items.append(call.item)
            queue = queue._replace(put=queue.put + 1)
        if way in plainly.opens:
            queue = queue._replace(closed=False)
        held = (way in plainly.holds) - (way in plainly.lets_go)
        return queue._replace(closed=queue.closed or call.name == 'close', held=queue.held + held)

    def answered(self, call, answer):
        moment = self.plainly.moment(self, call, answer)
        plainly = None if moment is None else self.answer(self.queue_at(moment), call.name, call.item)
        if moment is None and self.plainly.answers_no_of_empty(self, call, answer):
            self.no_of_empty += 1
        elif plainly != answer:
            here = f'at={moment} {plainly}' if moment else 'at no moment'
            raise Unplain(f'entry {self.place()}: {call.name} answers {answer}; the plain queue {here}')
        if not self.meant(call, answer):
            raise Unplain(f'entry {self.place()}: {call.name} answers {answer}, which is not what it put in and took out')
        return moment or 'none'

    def meant(self, call, answer):
        """Pushed: its item came in once; Displaced: that, and the old one went out; Popped: that one went out; else neither."""
        ways = [(place, self.entries[place].way()) for place in call.acts]
        puts = sum(way in self.plainly.puts for _, way in ways)
        taken = [self.items[self.queues[place].out] for place, way in ways if way in self.plainly.takes]
        return (puts, taken) == {'Pushed': (1, []), 'Displaced': (1, [*answer[1:]]), 'Popped': (0, [*answer[1:]])}.get(answer[0], (0, []))

    def left(self, contents):
        """The contents, with all workers idle, are what waits."""
        waits = self.items[self.queues[-1].out:]
        if contents != waits:
            raise Unplain(f'the contents are {contents}; in the plain queue wait {waits}')
