"""A run as it is drawn: replay's lines, folded into calls, hands, slots, claims and lives of items."""

import re
from collections import deque
from dataclasses import dataclass, field
from typing import NamedTuple, Optional

from calls import LEFT, Moments
from manners import Told
from plain import cells_of
from queues import IDLE, READINGS, slots_in, stand_of

MOST = {'svg': 20_000, 'html': 200_000}  # entries of one picture
REFUSALS = {
    1: 'a capacity of 0 or above 1,024', 2: 'too many workers, or none', 3: 'no such worker', 4: 'a call begun by a busy worker',
    5: 'an act of an idle worker', 6: 'no sound machine', 7: 'no act left on the meter', 8: 'code 9 where no weak exchange comes next',
    9: 'an entry that cannot be read', 11: 'an odd number of words', 18: 'an edition that is not 1 or 2', 23: 'no block is free',
}


@dataclass
class Call:
    worker: int
    name: str
    item: str
    begun: int
    ended: Optional[int] = None
    answer: str = ''
    moment: Optional[int] = None  # in half columns from entry 0: 2J just before entry J, 2J + 2 directly after it


class Act(NamedTuple):
    """An entry of the drawn part: the place that it was done at, or '' of a begin; why it goes back, if it does; whether it claims; how its worker stands after it:
    what it has in hand, where it goes on, the words that it has loaded. The item is its call's, of a pop the one that it has claimed."""
    entry: int
    worker: int
    call: Optional[Call]
    place: str = ''
    causes: tuple = ()
    claims: bool = False
    hand: object = None
    answer: str = ''
    item: str = ''
    onward: str = ''
    word: str = ''


@dataclass
class Hand:
    worker: int
    slot: object
    begun: int
    ended: Optional[int] = None


@dataclass
class Life:
    """Of an item: its claim number, who claimed it at tail and when, and at head."""
    claim: int
    item: str
    giver: int
    begun: int
    taker: Optional[int] = None
    ended: Optional[int] = None


class Level(NamedTuple):
    """The two ends after an entry: their words, claims so far, and whether the queue is closed."""
    tail: Optional[str]
    head: Optional[str]
    tails: int
    heads: int
    closed: bool


@dataclass
class Run:
    name: str
    what: str
    stamp: str
    count: int
    first: int
    last: int
    decoded: object  # an end's word, as a reader says it
    acts: list = field(default_factory=list)
    calls: list = field(default_factory=list)
    hands: list = field(default_factory=list)
    lives: list = field(default_factory=list)
    before: Level = Level(None, None, 0, 0, False)
    levels: list = field(default_factory=list)
    slots: dict = field(default_factory=dict)  # before the drawn part
    changes: list = field(default_factory=list)  # entry, slot, stamp, value
    refusal: Optional[tuple] = None  # entry or None, number
    stranger: Optional[int] = None  # the worker of a refused entry that there is none of
    before_acts: dict = field(default_factory=dict)  # each worker's last act before the drawn part
    plain: list = field(default_factory=list)  # the plain queue's cells (plain.py)
    left: Optional[int] = None  # the entry that left the window of sixteen-bit words: from there on no item is followed
    lines: dict = field(default_factory=dict)
    ending: str = ''
    workers: int = 0


def explained(run, lines):
    """What `replay --explain` says of each drawn entry, without its number, and how many workers it says that there are."""
    entry = 0
    for line in lines:
        if entry > run.last:
            break
        if line.startswith('made: '):
            run.workers = int(re.search(r'(\d+) workers?\b', line)[1])
        elif line.lstrip(' ').startswith(f'{entry} '):
            if entry >= run.first:
                run.lines[entry] = line.split(maxsplit=1)[1].rstrip()
            entry += 1


def name_of(file):
    return ''.join(letter if letter.isprintable() else '?' for letter in file)


def run_of(replay, queue, options, first, last, most=MOST['svg']):
    """The run from entry FIRST to LAST, or to its end."""
    name = name_of(replay.name)
    quiet, _ = replay.all('--quiet')
    words = quiet[1].split()
    ended, refused = int(words[0]), int(words[1])
    made = int(quiet[0].split()[1])
    entries = 0 if made or refused in (9, 11) else ended + (refused != 0)
    first = first or 0
    if first and first >= entries:
        raise Told(f'{name}: nothing from entry {first}: ' + (f'its entries are 0 to {entries - 1}' if entries else 'no entry is run'))
    end = entries - 1 if last is None else min(last, entries - 1)
    if end - first >= most:
        raise Told(f'{name}: {end - first + 1:,} entries, at most {most:,} are drawn: choose a part, as --from {first} --to {first + most - 1}')
    reading = READINGS[queue](len(slots_in(quiet)), 16 if ('--bits', '16') in options else 64)
    what = {'bounded': f'ring of {len(reading.fresh)} slot{"s" * (len(reading.fresh) != 1)}', 'single': 'one-slot queue', 'unbounded': 'unbounded queue'}[queue]
    said = ''.join(f', {option[2:]} {value}'.rstrip() for option, value in options if option in ('--edition', '--bits', '--lent'))
    run = Run(name, what + said, reading.stamp, entries, first, end, reading.decoded)
    if made:
        run.what, run.refusal = f'no {what.partition(" of ")[0]} was made', (None, made)
        return run
    if refused:
        run.refusal = (ended, refused)
    if end == entries - 1:
        contents = next(line for line in quiet if line.startswith('contents'))
        run.ending = {'contents': 'nothing waits', 'contents refused 4': 'a worker is busy at the end'}.get(contents, contents.replace('contents', 'waits:', 1))
    more = ('--causes', '--moments') if queue == 'bounded' and ('--lent', '') not in options else ()
    if entries:
        explained(run, replay.lines('--explain'))
        fold(run, reading, replay.lines(*more), {} if more else reading.back, quiet)
    return run


def fold(run, reading, lines, back, quiet):
    """back: why an act goes back, where the lines name no cause. quiet: what replay shows at its end."""
    stands, calls, hands, items, lives, moments = {}, {}, {}, {}, deque(), Moments(reading)
    slots = dict(reading.fresh)
    tails = heads = 0
    level = Level(*reading.fresh_ends, 0, 0, False)
    first, last, column = run.first, run.last, reading.worker
    run.before, run.slots = level, dict(slots)
    entry = -1
    for line in lines:
        words = line.split()
        if line.startswith(LEFT):
            run.left = int(words[-1])
        if not words or not words[0].isdigit():
            continue
        entry = int(words[0])
        if entry > last:
            break
        if entry == first:
            run.before, run.slots = level, dict(slots)
        drawn = entry >= first
        number, _, text = words[column].partition('=')
        worker = int(number[1:])
        if words[1] != '0':
            if text == '-':
                run.stranger = worker
            run.acts.append(Act(entry, worker, calls.get(worker)))
            run.levels.append(level)
            break
        before, after = stands.get(worker, IDLE), stand_of(text)
        stands[worker] = after
        place, causes, ends = '', (), ()
        if before.idle:
            calls[worker] = call = Call(worker, *reading.call_of(after), entry)
            items[worker] = call.item
            moments.begin(worker)
        else:
            place, call = before.place, calls[worker]
            for slot in reading.taken(before, after):
                if slots.pop(slot, None) and drawn:
                    run.changes.append((entry, slot, 0, 0))
            change = reading.change(before, words)
            if change:
                found = slots.get(change.slot, (0, 0))
                now = change.of(found)
                if now != found:
                    slots[change.slot] = now
                    if drawn:
                        run.changes.append((entry, change.slot, *now))
            ends = reading.claims(before, after)
            for end, item in ends:
                if end == 'tail':
                    if run.left is None:
                        lives.append(Life(tails, item, worker, entry))
                    tails += 1
                else:
                    heads += 1
                    if run.left is not None or not lives:
                        continue
                    life = lives.popleft()
                    life.taker, life.ended = worker, entry
                    items[worker] = call.item or life.item
                    if drawn:
                        run.lives.append(life)
            moment = moments.add(entry, worker, call.name, before, after, ends)
            for word in words[column + 1:]:
                name, _, said = word.partition('=')
                if name == 'because':
                    causes = tuple(said.split(','))
                elif name == 'at':
                    moment = said
            if moment not in (None, '-'):
                call.moment = 2 * int(moment.rstrip('+')) + 2 * moment.endswith('+')
            if (before.place, after.place) in back:
                causes = (back[before.place, after.place],)
        hand = reading.hand_of(after)
        held = hands.get(worker)
        if held and held.slot != hand:
            held.ended = entry
            if drawn:
                run.hands.append(held)
            del hands[worker]
        if hand is not None and worker not in hands:
            hands[worker] = Hand(worker, hand, entry)
        answer = ''
        if after.idle:
            answer = ' '.join([after.kind, *after.words])
            call.ended, call.answer = entry, answer
            del calls[worker]
            if drawn:
                run.calls.append(call)
        tail, head, closed = reading.ends(words)
        level = Level(tail, head, tails, heads, closed)
        act = Act(entry, worker, call, place, causes, bool(ends), hand, answer, items[worker], after.place, reading.word_of(after))
        if drawn:
            run.acts.append(act)
            run.levels.append(level)
        else:
            run.before_acts[worker] = act
    run.calls += calls.values()
    run.hands += hands.values()
    run.lives += lives
    run.plain = cells_of(run)
    if entry == run.count - 1 and not reading.is_end(slots, quiet):
        raise Told(f'{run.name}: the slots that replay ends with are not those of its lines')
