"""A run by its calls, and the plain queue along it: replay's lines of numbers, folded, beside its lines in plain words.

Which act is whose, where a worker stands, what was lost and why are replay's. So is the moment of an answer where replay names it; where it names none (the one-slot
and the unbounded queue, records that are lent) it is looked up by the table of docs/PROMISES.md (`Moments`), which the readings have (queues.py)."""

import re
from collections import deque
from dataclasses import dataclass, field
from typing import NamedTuple, Optional

from queues import IDLE, READINGS, stand_of

LEFT = 'left the window at entry '
CAUSES = {'own end moved': ['own-end'], 'other end moved': ['other-end'], 'both ends moved': ['own-end', 'other-end'], 'slot in hand': ['hand'], "block's end": ['blocks-end'],
          'first block': ['first-block'], 'state differs': ['state'], 'schedule': ['schedule']}


# Lines of numbers

class Line(NamedTuple):
    """PLACE R, the words of the machine, and of an entry's line its worker, where that stands (None: there is no such worker) and what options added."""
    entry: int
    refused: int
    ends: dict
    worker: Optional[int]
    stand: object
    more: dict
    words: list

    def at(self):
        """The moment that --moments names: '5', '5+', or '-'; None where it names none."""
        return self.more.get('at')


def line_of(text):
    """None of a line that is no entry's, nor that of a whole run."""
    words = text.split()
    if not words or not words[0].isdigit():
        return None
    ends, more, worker, stand = {}, {}, None, None
    for word in words[2:]:
        name, _, value = word.partition('=')
        if name[0] == 'w' and name[1:].isdigit():
            worker, stand = int(name[1:]), None if value == '-' else stand_of(value)
        elif worker is None:
            ends[name] = value
        else:
            more[name] = value
    return Line(int(words[0]), int(words[1]), ends, worker, stand, more, words)


# Lines in plain words

class Said(NamedTuple):
    """An entry's line of --explain: the place at which the act was taken, '-' of a begin, and what happened."""
    text: str
    worker: str
    place: str
    what: str


def said_of(text):
    """None of a line that is no entry's."""
    found = re.match(r' *\d+  (w\d+|-) +(\S+) *(.*)', text)
    return Said(text, *found.groups()) if found else None


def beside_numbers(lines):
    """Lines of --explain, one for each of the numbers: that the window is left is said in both, and read there."""
    return (line for line in lines if not line.startswith(LEFT))


def lost_by(said):
    """How an exchange was lost, or None."""
    return 'differed' if re.search(r'\d(?:, [a-z ,]+)?(?:, not \w+)?: lost\b|, marked: lost\b', said.what) else 'schedule' if ' failed by the schedule' in said.what else None


def causes_of(said):
    """Why an act goes back, by the words at its right. Those of the one-slot queue may stand behind what a line holds: there the states that it names say it."""
    states = re.match(r'state is (\d+), .*, not (\d+): lost; goes on', said.what)
    if states:
        found, expected = map(int, states.groups())
        return ['state'] * (found & ~1 != expected) + ['hand'] * (found & 1)
    right = re.search(r'  \(([a-z ,\']+)\)$', said.what)
    return CAUSES.get(right[1], []) if right else []


# Calls

@dataclass
class Call:
    worker: int
    name: str
    item: Optional[int]
    begun: int
    ended: Optional[int] = None
    answer: str = ''  # '' while it is under way
    value: Optional[int] = None  # of an answer that has one
    moment: Optional[str] = None
    differed: int = 0
    failed: int = 0
    retries: list = field(default_factory=list)  # each an entry and its causes


class Moments:
    """Where a plain queue gives each answer, along a run, by the table of docs/PROMISES.md. Asked where replay names no moment."""
    LOOKS = {'is_empty': (('empty1', 'empty2'), 'tail'), 'is_full': (('full1', 'full2'), 'head')}  # a no that is not so yet at the look is so from the next claim of that end on

    def __init__(self, reading):
        self.reading, self.waiting = reading, 0
        self.acts = {}  # by worker: of its call the last act of each way, with how much waited just before
        self.since = {}  # by worker: the first claim since its look
        self.looking = {'tail': set(), 'head': set()}  # workers whose look no claim of that end has followed

    def begin(self, worker):
        self.acts[worker] = {}

    def add(self, entry, worker, call, before, after, claims):
        """An act of a call of that name. Where it answers, the answer's moment as --moments writes it, '-' where the plain queue gives that answer at none; else None."""
        way = before.place, after.place
        self.acts[worker][way] = entry, self.waiting
        for end, _ in claims:
            self.waiting += 1 if end == 'tail' else -1
            self.since.update(dict.fromkeys(self.looking[end], entry))
            self.looking[end].clear()
        look, end = self.LOOKS.get(call, (None, None))
        if way == look:
            self.looking[end].add(worker)
            self.since.pop(worker, None)
        return self.moment(entry, worker, call, after.kind) if after.idle else None

    def moment(self, entry, worker, call, answer):
        acts = self.acts[worker]
        look, _ = self.LOOKS.get(call, (None, None))
        if answer == 'no' and look in acts:
            looked, waited = acts[look]
            is_so = waited > 0 if call == 'is_empty' else waited < len(self.reading.fresh)
            return f'{looked}' if is_so else f'{self.since[worker]}+' if worker in self.since else '-'
        return str(max((acts[way][0] for way in self.reading.decided(call, answer) if way in acts), default=entry))


class Change(NamedTuple):
    """Of the plain queue: an item in or out, or closed, or open again."""
    entry: int
    what: str
    item: Optional[int]
    worker: int


class Plain:
    """The plain queue along a run: what waits, and each change."""

    def __init__(self, reading):
        self.reading = reading
        self.waits, self.changes, self.closed = deque(), [], False
        self.lost = False  # from the entry on that leaves the window of sixteen-bit words no item is followed

    def add(self, line, claims):
        for end, item in claims:
            if end == 'tail':
                self.waits.append(int(item))
                self.changes.append(Change(line.entry, 'in', int(item), line.worker))
            else:
                out = self.waits.popleft() if self.waits else None
                self.changes.append(Change(line.entry, 'out', None if self.lost else out, line.worker))
        closed = self.reading.ends(line.words)[2]
        if closed != self.closed:
            self.changes.append(Change(line.entry, 'closed' if closed else 'open again', None, line.worker))
        self.closed = closed


class Fold:
    """The calls of one schedule, entry by entry."""

    def __init__(self, reading):
        self.reading = reading
        self.calls, self.open, self.stands = [], {}, {}
        self.plain, self.moments = Plain(reading), Moments(reading)
        self.refusal = None

    def add(self, text, said=None):
        """One line of numbers, and the same entry's in plain words where numbers do not have it all."""
        if text.startswith(LEFT):
            self.plain.lost = True
        line = line_of(text)
        if line is None or line.worker is None:
            return None
        if line.refused:
            self.refusal = line.entry, line.refused
            return line
        before = self.stands.get(line.worker, IDLE)
        self.stands[line.worker] = line.stand
        if before.idle:
            name, item = self.reading.call_of(line.stand)
            call = Call(line.worker, name, int(item) if item else None, line.entry)
            self.calls.append(call)
            self.open[line.worker] = call
            self.moments.begin(line.worker)
            return line
        call, claims = self.open[line.worker], self.reading.claims(before, line.stand)
        self.plain.add(line, claims)
        self.count(call, line, said)
        moment = self.moments.add(line.entry, line.worker, call.name, before, line.stand, claims)
        if line.stand.idle:
            call.ended, call.answer = line.entry, line.stand.kind
            call.value = int(line.stand.words[0]) if line.stand.words else None
            call.moment = line.at() or moment
            del self.open[line.worker]
        return line

    def count(self, call, line, said):
        if 'lost' in line.more and line.more['lost'] != '-':
            call.differed, call.failed = map(int, line.more['lost'].split(','))
        elif said:
            how = lost_by(said)
            call.differed += how == 'differed'
            call.failed += how == 'schedule'
        causes = line.more['because'].split(',') if 'because' in line.more else causes_of(said) if said else []
        if causes:
            call.retries.append((line.entry, causes))


def options_for(queue, lent):
    """What replay is asked to add to a line, so that a fold has all that it names."""
    return () if queue != 'bounded' else ('--causes', '--losses') if lent else ('--causes', '--losses', '--moments')


def calls_told(program, text, capacity):
    """The table of a schedule's calls and the plain queue along it, of one that is run to its end or up to a refusal."""
    fold = Fold(READINGS[program.queue](capacity, 16 if program.narrow else 64))
    words = beside_numbers(program.run(text, '--explain')[1:])
    for line in program.run(text, *options_for(program.queue, program.lent)):
        numbers = line_of(line)
        fold.add(line, said_of(next(words)) if numbers and numbers.worker is not None else None)
    return [*table(fold.calls), *plain_lines(fold.plain.changes)]


# As text

def counts_of(retries):
    """How often, and by which causes; one with two counts in both."""
    counts = {}
    for _, causes in retries:
        for cause in causes:
            counts[cause] = counts.get(cause, 0) + 1
    return f'{len(retries)}: ' + ', '.join(f'{cause} {count}' for cause, count in counts.items()) if retries else '0'


def with_number(name, number):
    return name if number is None else f'{name} {number}'


def table(calls):
    """A row for each call, in the order in which they begin; nothing where there is none."""
    rows = [('worker', 'call', 'first', 'last', 'moment', 'answer', 'lost', 'tries again')] if calls else []
    for call in calls:
        rows.append((
            f'w{call.worker}', with_number(call.name, call.item), str(call.begun), '-' if call.ended is None else str(call.ended), call.moment or '-',
            with_number(call.answer, call.value) if call.answer else 'busy', f'{call.differed},{call.failed}', counts_of(call.retries)))
    wide = [max(map(len, column)) for column in zip(*rows)]
    for row in rows:
        yield '  '.join(word.rjust(width) if column in (2, 3) else word.ljust(width) for column, (word, width) in enumerate(zip(row, wide))).rstrip()


def plain_lines(changes):
    yield 'the plain queue:' if changes else 'the plain queue: unchanged'
    for change in changes:
        what = change.what if change.what in ('closed', 'open again') else f'{"?" if change.item is None else change.item} {change.what}'
        yield f'{change.entry:>6}  {"w" + str(change.worker):<4} {what}'
