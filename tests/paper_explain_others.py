"""A second reading of `replay --explain` of the one-slot and the unbounded queue: the sentences of docs/REFERENCE.md ("Other queues in plain words"), told over the machines of
tests/paper_single.py and tests/paper_unbounded.py, and from none of the crates. Claims of the one-slot queue are counted along the run, those of the unbounded queue are
positions without the blocks' ends; an item is followed by the claim that took it in."""

from typing import NamedTuple

import paper_single
import paper_unbounded
from paper_entries import CALLS, busy
from paper_explain import REFUSED, SHORT, WIDE, line, refused, unmet
from paper_single import CLOSED, LOCKED, PUSHED
from paper_unbounded import LAST_SLOT, SLOTS, marked, offset, onward, position

REFUSED[23] = 'no block is free'


class Told(NamedTuple):
    """An act: what happened, why it goes back (nothing where it does not), the claim of a push and of a pop that it made."""
    text: str
    cause: str = ''
    put: int | None = None
    took: int | None = None
    lost: str | None = None


def yes(worker):
    return worker.answer[0].lower()


# The one-slot queue

def state_in_words(state):
    parts = [name for bit, name in ((LOCKED, 'locked'), (PUSHED, 'pushed'), (CLOSED, 'closed')) if state & bit]
    return ' and '.join(filter(None, (', '.join(parts[:-1]), *parts[-1:]))) or 'free'


class Single:
    paper = paper_single
    name = 'a one-slot queue'
    in_hand = ('A2', 'A3', 'B2', 'B3', 'B4', 'B5', 'C2', 'C3')

    def __init__(self):
        self.puts = self.takes = 0

    def lap(self, told):
        return ''

    def hand(self, worker):
        return 'the slot'

    def ahead(self, machine):
        return f'claims of pushes ahead of pops: {self.puts - self.takes}'

    def lost(self, differed, failed):
        return f'exchanges lost: {differed} because the words differed'

    def won(self, w, before, after, was, state):
        """The claims of an exchange that was won."""
        put, took = self.puts, self.takes
        change = f'state {was} -> {state} won: '
        if before.place == 'C1':
            self.takes += 1
            return Told(f"{change}claim {took} is w{w}'s; the slot in its hand", took=took)
        self.puts += 1
        if after.place == 'B4':
            self.takes += 1
            return Told(f"{change}claim {put} is w{w}'s, to displace claim {took}; the slot in its hand", put=put, took=took)
        return Told(f"{change}claim {put} is w{w}'s; the slot in its hand", put=put)

    def exchanged(self, w, before, after, was, state):
        if after.place in self.in_hand:
            return self.won(w, before, after, was, state)
        found, expected = f'state is {was}, {state_in_words(was)}', 0 if before.place == 'A1' else before.e
        if before.place == 'B1' and not busy(after):
            return Told(f'{found}: closed, {before.item} not pushed', lost='differed')
        found += f', not {expected}: lost; '
        if busy(after):
            causes = ['state differs'] * (was & ~LOCKED != expected) + ['slot in hand'] * bool(was & LOCKED)
            return Told(f'{found}goes on with {after.e}', '(' + ', '.join(causes) + ')', lost='differed')
        return Told(found + yes(after) + (f', {before.item} not pushed' if before.place == 'A1' else ''), lost='differed')

    def act(self, w, before, after, machine, later):
        was, state, place = machine.slot.state, later.slot.state, before.place
        if place in ('A1', 'B1', 'C1'):
            return self.exchanged(w, before, after, was, state)
        found = f'state is {state}, {state_in_words(state)}: '
        ready, closed = f'state {was} -> {state}, the slot ready to be popped: ', bool(state & CLOSED)
        return Told({
            'A2': lambda: f'writes {before.item} into the slot', 'B2': lambda: f'writes {before.item} into the slot',
            'A3': lambda: ready + 'pushed', 'B3': lambda: ready + 'pushed', 'B5': lambda: f'{ready}displaced {before.value}',
            'B4': lambda: f'takes {machine.slot.value} out of the slot, writes {before.item}',
            'C2': lambda: f'reads {machine.slot.value} out of the slot', 'C3': lambda: f'state {was} -> {state}, the slot free: popped {before.value}',
            'len1': lambda: f'{found}len {after.answer[1]}', 'is_empty1': lambda: found + yes(after), 'is_full1': lambda: found + yes(after),
            'close1': lambda: f'state {was} -> {state}, closed: yes' if yes(after) == 'yes' else f'state is {state}, closed already: no',
            'is_closed1': lambda: f'state is {state}, closed: yes' if closed else f'state is {state}, not closed: no',
        }[place]())


# The unbounded queue

def claim_of(word):
    """The number of the claim of a slot: its position less the blocks' ends before it."""
    return position(word) - position(word) // (SLOTS + 1)


def reads(end, word):
    return Told(f'reads {end}, {word}' + (', marked' if marked(word) else '') + f': position {position(word)}')


class Unbounded:
    paper = paper_unbounded
    name = 'an unbounded queue'
    pushing = ('U9', 'U10', 'U11', 'U12', 'U13')
    popping = ('V6', 'V7', 'V8', 'V9', 'V10', 'V11', 'V12')
    in_hand = pushing + popping

    def lap(self, told):
        claim = told.took if told.put is None else told.put
        return f'(lap {claim // SLOTS})'

    def hand(self, worker):
        return f'slot {offset(worker.t if worker.place in self.pushing else worker.h)} of block {worker.b}'

    def ahead(self, machine):
        # of a tail at a block's end the last claim is that of the slot before
        tails, heads = (claim_of(word) for word in (machine.queue.tail, machine.queue.head))
        return f'claims of tail ahead of head: {tails - heads}'

    def lost(self, differed, failed):
        return f'exchanges lost: {differed} because the words differed, {failed} by the schedule'

    def claimed(self, end, w, before, after, held, to, found):
        """The exchange of U7 or V4."""
        claim, slot = claim_of(held), f'slot {offset(held)} of block {before.b}'
        if after.place in self.in_hand:
            text = f"{end} {held} -> {to} won: claim {claim} is w{w}'s; {slot} in its hand"
            return Told(text, put=claim) if end == 'tail' else Told(text, took=claim)
        if found == held:
            return Told(f'{end} {held} -> {to} failed by the schedule; goes on with {held}', '(schedule)', lost='failed')
        return Told(f'{end} is {found}, not {held}: lost; goes on with {found}', '(own end moved)', lost='differed')

    def push(self, w, before, after, machine, later):
        was, queue, place, to, t, b, n = machine.queue, later.queue, before.place, after.place, before.t, before.b, before.n
        if place == 'U1':
            return reads('tail', was.tail)
        if place in ('U2', 'U8'):
            if marked(t):
                return Told(f'tail {t} was marked: closed' + (f'; has block {n} to free' if busy(after) else f', {before.item} not pushed'))
            return {'U7': lambda: Told(f"tail's block is {was.tail_block}: slot {offset(t)} comes next"),
                    'U3': lambda: Told(f"slot {LAST_SLOT} comes next, its block's last: wants a block to set aside"),
                    'U4': lambda: Told('tail has no block: wants the first'),
                    'U1': lambda: Told(f"tail {t} is at a block's end: tries again", "(block's end)")}[to]()
        if place == 'U3':
            return Told(f'takes block {after.n} and sets it aside')
        if place == 'U4':
            return Told(f'takes block {after.new}')
        if place == 'U5':
            if to == 'U6':
                return Told(f"tail's block none -> {before.new} won")
            lost = f"tail's block is {was.tail_block}, not none: lost; "
            return Told(f'{lost}keeps block {after.n} aside', '(first block)', lost='differed') if to == 'U1' else Told(f'{lost}has block {n} to free', lost='differed')
        if place == 'U6':
            return Told(f"stores block {before.new} as head's block")
        if place == 'U7':
            return self.claimed('tail', w, before, after, t, onward(t), was.tail)
        slot = f'slot {offset(t)} of block {b}' if t is not None else ''
        return {
            'U9': lambda: Told(f"stores block {n} as tail's block"),
            'U10': lambda: Told(f"tail {was.tail} -> {queue.tail}, over the block's end"),
            'U11': lambda: Told(f'stores block {n} as the next of block {b}'),
            'U12': lambda: Told(f'writes {before.item} into {slot}'),
            'U13': lambda: Told(f'{slot} ready to be popped' + (f'; has block {n} to free' if busy(after) else ': pushed')),
            'U14': lambda: Told(f'frees block {n}: ' + ('pushed' if after.answer == ('Pushed',) else f'closed, {after.answer[1]} not pushed')),
            'U15': lambda: Told(f'frees block {n}; keeps block {after.n} aside', '(first block)'),
        }[place]()

    def pop(self, w, before, after, machine, later):
        was, queue, place, to, h, b = machine.queue, later.queue, before.place, after.place, before.h, before.b
        if place == 'V1':
            return reads('head', was.head)
        if place in ('V2', 'V5'):
            block = was.head_block
            if to == 'V3':
                return Told('head has no block: empty?' if block is None else f"head's block is {block}, perhaps the last: empty?")
            if to == 'V4':
                return Told(f"head's block is {block}: slot {offset(h)} comes next")
            return Told(f"head {h} is at a block's end: tries again", "(block's end)") if offset(h) == SLOTS else Told('head has no block: tries again', '(first block)')
        if place == 'V3':
            if not busy(after):
                return Told(f'tail is {was.tail}, ' + ('as head: empty' if after.answer == ('Empty',) else 'marked, else as head: closed'))
            if to == 'V4':
                return Told(f'tail is {was.tail}, head was {h}: slot {offset(h)} of block {b} comes next')
            return Told(f'tail is {was.tail}, head was {h} without a block: tries again', '(first block)')
        if place == 'V4':
            return self.claimed('head', w, before, after, h, before.new, was.head)
        slot = f'slot {before.i if h is None else offset(h)} of block {b}'
        popped = f'popped {before.value}'
        return {
            'V6': lambda: Told(f'block {b} has no next yet: waits', '(slot in hand)') if to == 'V6' else Told(f'the next of block {b} is block {after.next}'),
            'V7': lambda: Told(f'block {before.next} has ' + ('no next' if was.blocks[before.next].next is None else 'a next: head is to be marked')),
            'V8': lambda: Told(f"stores block {before.next} as head's block"),
            'V9': lambda: Told(f"head {was.head} -> {queue.head}, over the block's end"),
            'V10': lambda: Told(f'{slot} is not written yet: waits', '(slot in hand)') if to == 'V10' else Told(f'{slot} is written'),
            'V11': lambda: Told(f'reads {after.value} out of {slot}'),
            'V12': lambda: Told(f'{slot} done with' + (f"; block {b} is w{w}'s to free" if busy(after) else f': {popped}')),
            'V13': lambda: Told(f'{slot} is ' + ('still being read' if to == 'V14' else 'done with')),
            'V14': lambda: Told(f'{slot} is done with by now' if busy(after) else f'leaves block {b} to the pop of slot {before.i}: {popped}'),
            'V15': lambda: Told(f'frees block {b}: {popped}'),
        }[place]()

    def looks(self, before, after, machine, later):
        place, t, h, tail, head, now = before.place, before.t, before.h, machine.queue.tail, machine.queue.head, later.queue.tail
        if place == 'len1':
            return Told(f'reads tail, {tail}')
        if place in ('len2', 'is_empty1'):
            return Told(f'reads head, {head}')
        if place == 'len3':
            return Told(f'tail is {tail}, not {t}: tries again', '(own end moved)') if busy(after) else Told(f'tail is still {tail}: len {after.answer[1]}')
        return Told({'is_empty2': f'tail is {tail}, head was {h}: {yes(after)}', 'is_full1': 'never full: no',
                     'close1': f'tail {tail} -> {now}, marked: yes' if yes(after) == 'yes' else f'tail is {tail}, marked already: no',
                     'is_closed1': f'tail is {tail}, marked: yes' if marked(tail) else f'tail is {tail}, not marked: no'}[place])

    def act(self, w, before, after, machine, later):
        if before.place[0] == 'U':
            return self.push(w, before, after, machine, later)
        return self.pop(w, before, after, machine, later) if before.place[0] == 'V' else self.looks(before, after, machine, later)


QUEUES = {'single': Single, 'unbounded': Unbounded}


# A run

class Life:
    """Which entries belong to an item's life: those of the call that pushes it, and from its claim to take it on those of the call that hands it out."""

    def __init__(self, item):
        self.item, self.workers, self.claims, self.is_pushed = item, set(), {}, False

    def begins(self, w, code, given):
        if code < 2 and given == self.item:
            self.workers.add(w)
            self.is_pushed = True

    def has(self, w, before, after, told):
        """An act's."""
        if told.took is not None and self.claims.pop(told.took) == self.item:
            self.workers.add(w)
        if told.put is not None:
            self.claims[told.put] = before.item
        it = w in self.workers
        if not busy(after):
            self.workers.discard(w)
        return it


def waiting(queue, machine):
    if any(map(busy, machine.workers)):
        return [f'waits: not told while a worker is busy; {queue.ahead(machine)}']
    lines = ['waits:']
    for item in map(str, queue.paper.items_of(machine)):
        if len(lines[-1]) + 1 + len(item) > WIDE:
            lines.append('      ')
        lines[-1] += ' ' + item
    return lines if lines != ['waits:'] else ['waits: nothing']


def ends(queue, machine, losses):
    standing = [f'busy: w{w} at {SHORT.get(worker.place, worker.place)}' + (f', {queue.hand(worker)} in its hand' if worker.place in queue.in_hand else '')
                for w, worker in enumerate(machine.workers) if busy(worker)]
    return (standing or ['busy: nobody']) + waiting(queue, machine) + [queue.lost(losses.count('differed'), losses.count('failed'))]


def explained(numbers, queue, follow=None):
    """The lines of a schedule of a queue, and whether it was refused."""
    queue = QUEUES[queue]()
    count, *words = numbers
    refusal, machine = queue.paper.make(count)
    if refusal:
        return [f'refused 2: the number of workers, {count}, is not 1 to 16'], True
    lines = [f'made: {queue.name}, {count} workers']
    refusal, place = queue.paper.ENTRIES.refused_whole(machine, words)
    if refusal:
        return lines + [refused(place, refusal)], True
    life, losses = Life(follow), []
    for place, (first, item) in enumerate(zip(words[::2], words[1::2])):
        w, code = divmod(first, 16)
        refusal, later = queue.paper.step(machine, first, item)
        if refusal:
            lines.append(refused(place, refusal, w))
            break
        before, after = machine.workers[w], later.workers[w]
        if code < 8:
            life.begins(w, code, item)
            it, said = w in life.workers, line(place, w, '-', f'begins {CALLS[code]}' + (f' {item}' if code < 2 else ''))
        else:
            told = queue.act(w, before, after, machine, later)
            losses.append(told.lost)
            it = life.has(w, before, after, told)
            claims = follow is not None and (told.put, told.took) != (None, None)
            said = line(place, w, SHORT.get(before.place, before.place), told.text, told.cause or (queue.lap(told) if claims else ''))
        if follow is None or it:
            lines.append(said)
        machine = later
    return lines + unmet(life) + ends(queue, machine, losses), refusal != 0
