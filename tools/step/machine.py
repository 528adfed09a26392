"""A schedule as it grows, and what replay says of it: every entry that is there was run by replay, from the first on."""

import re
from typing import NamedTuple

from calls import calls_told, line_of
from manners import Told
from queues import ACT, IDLE, READINGS
from replay import Program

ROUNDS = 64  # acts of one worker in a row, at most: alone a call of the unbounded queue ends in 43
MOST = 100_000  # entries


class Entry(NamedTuple):
    """Two numbers, and the line of the script that it is of."""
    first: int
    item: int
    origin: object = None

    @property
    def worker(self):
        return self.first // 16


def act(worker, origin=None):
    return Entry(16 * worker + ACT, 0, origin)


class Row(NamedTuple):
    """An entry that was run: replay's line, where its worker stood before, and what it did to slots: each with what was there and what is."""
    line: object
    before: object
    changes: list


class Refusal(NamedTuple):
    """Of the entry at a place of those that were asked for."""
    place: int
    number: int
    asked: list

    @property
    def entry(self):
        return self.asked[self.place]


class Machine:
    def __init__(self, command, options):
        self.program = Program(command, options)
        self.queue, self.narrow = self.program.queue, self.program.narrow
        self.head = []  # capacity, of the ring, and workers
        self.entries, self.rows, self.at = [], [], 0
        self.made = ''

    # Making

    @property
    def wants(self):
        """What has to be named next, or None of a machine that is made."""
        names = ['capacity', 'workers'] if self.queue == 'bounded' else ['workers']
        return None if self.made else names[len(self.head)]

    def name(self, number):
        """The capacity or the number of workers; gives why no machine can be made of them, if so."""
        self.head.append(number)
        if self.wants_more():
            return None
        said = self.program.run(self.text([]), '--explain')[0]
        if not said.startswith('made: '):
            self.head = []
            return said
        self.made = said
        self.start()
        return None

    def wants_more(self):
        return len(self.head) < (2 if self.queue == 'bounded' else 1)

    def start(self):
        self.reading = READINGS[self.queue](self.head[0], 16 if self.narrow else 64)
        self.slots, self.stands = dict(self.reading.fresh), {}
        self.fresh = line_of(self.program.run(self.text([]), '--quiet')[1]).ends

    def text(self, entries):
        return (' '.join(map(str, self.head)) + '\n' + ''.join(f'{entry.first} {entry.item}\n' for entry in entries)).encode()

    # How things stand

    @property
    def ends(self):
        return self.rows[self.at - 1].line.ends if self.at else self.fresh

    def stand(self, worker):
        return self.stands.get(worker, IDLE)

    def busy(self):
        return sorted(worker for worker, stand in self.stands.items() if not stand.idle)

    def move(self, at):
        """Back or forth to where so many entries are run."""
        while self.at > at:
            self.at -= 1
            row = self.rows[self.at]
            self.stands[row.line.worker] = row.before
            for slot, old, _ in reversed(row.changes):
                self.put(slot, old)
        while self.at < at:
            row = self.rows[self.at]
            self.at += 1
            self.stands[row.line.worker] = row.line.stand
            for slot, _, new in row.changes:
                self.put(slot, new)

    def put(self, slot, value):
        if value is None:
            self.slots.pop(slot, None)
        else:
            self.slots[slot] = value

    # More entries

    def run(self, more):
        """Those from here on, up to the first that is refused: how many were run, and the refusal or None. Where one was, what was ahead is dropped."""
        asked = [*self.entries[:self.at], *more]
        if len(asked) > MOST:
            raise Told(f'{MOST:,} entries are the most', 1)
        numbers = self.program.run(self.text(asked))
        start, refusal = self.at, None
        for at in range(start, len(asked)):
            line = line_of(numbers[at + 1]) if at + 1 < len(numbers) else None
            if line is None or line.worker is None or line.refused:
                line = line or line_of(numbers[1])  # of 9 nothing is run, and the line is the only one
                refusal = Refusal(line.entry, line.refused, asked)
                break
            self.cut(self.at)
            self.add(asked[at], line)
        if (refusal is None or refusal.number != 9) and not self.reading.is_end(self.slots, numbers[-2 - len(self.slots):]):
            raise Told('the slots that replay ends with are not those of its lines')
        return self.at - start, refusal

    def words_of(self, refusal):
        """As replay has it, but that nothing is run."""
        said = next(text for text in self.program.run(self.text(refusal.asked), '--explain') if ' refused ' in text)
        return said[said.index('refused '):].partition(';')[0]

    def add(self, entry, line):
        before = self.stand(line.worker)
        changes = []
        def note(slot, new):
            changes.append((slot, self.slots.get(slot), new))
            self.put(slot, new)
        if not before.idle:
            for slot in self.reading.taken(before, line.stand):
                if slot in self.slots:
                    note(slot, None)
            change = self.reading.change(before, line.words)
            if change:
                note(change.slot, change.of(self.slots.get(change.slot, (0, 0))))
        self.stands[line.worker] = line.stand
        self.entries.append(entry)
        self.rows.append(Row(line, before, changes))
        self.at += 1

    def cut(self, at):
        """Only so many entries are left."""
        if at < len(self.entries):
            self.move(at)
            del self.entries[at:], self.rows[at:]

    def finish(self, worker, origin):
        """Acts until its call answers; where it does not alone, none. Gives whom it waits for, in replay's words, or None; and the refusal or None."""
        start, ahead = self.at, (self.entries[self.at:], self.rows[self.at:])
        _, refusal = self.run([act(worker, origin)] * ROUNDS)
        ways = [row.line.stand for row in self.rows[start:self.at]]
        answered = next((at for at, stand in enumerate(ways) if stand.idle), None)
        if answered is not None:
            self.cut(start + answered + 1)
            return None, None
        self.cut(start)
        self.entries[start:], self.rows[start:] = ahead
        if refusal:
            return None, refusal
        said = {int(found[1]): found[2] for found in (re.match(r'busy: (?=w(\d+))(.*)', text) for text in self.program.run(self.text(self.entries[:start]), '--explain')) if found}
        others = [(other, stand) for other, stand in sorted(self.stands.items()) if other != worker]
        return [said[other] for other in self.reading.awaited(ways[-ROUNDS // 2:], others)], None

    def until(self, is_so, workers, origin):
        """Acts of these workers in turn, who is idle left out, until it is so of a row; gives whether it is, and not that nobody can act or nobody gets on."""
        workers, stuck, start = list(workers), set(), self.at
        while self.at - start < ROUNDS * ROUNDS:
            turn = [worker for worker in workers if not self.stand(worker).idle and worker not in stuck]
            if not turn:
                return False
            before = self.at
            _, refusal = self.run([act(worker, origin) for _ in range(ROUNDS) for worker in turn])
            found = next((at for at in range(before, self.at) if is_so(at, self.rows[at])), None)
            if found is not None:
                self.cut(found + 1)
                return True
            if refusal:
                # the next one's turn
                next_one = workers.index(refusal.entry.worker) + 1
                workers = workers[next_one:] + workers[:next_one]
                if refusal.number != 5:
                    stuck.add(refusal.entry.worker)
        return False

    # What is told of it

    def said(self, start):
        """From there up to here, in plain words."""
        return self.program.run(self.text(self.entries[:self.at]), '--explain')[start + 1:self.at + 1] if start < self.at else []

    def calls(self):
        """The lines of replay --calls up to here."""
        return calls_told(self.program, self.text(self.entries[:self.at]), self.head[0])

    def in_words(self):
        """The schedule up to here."""
        return self.program.for_words().run(self.text(self.entries[:self.at]), '--words-of')
