"""A second reading of `replay --explain` of the ring: the sentences of docs/REFERENCE.md ("A run in plain words"), told over the machine of tests/paper.py, and from none
of the crates. A claim's number is counted, and with 64 bits held to the word that was claimed; causes are looked up in the history; an item is followed by the claim that
took it in."""

import paper
from paper_entries import CALLS, busy

WIDE = 100
CAUSE_END = 80
IN_HAND = paper.IN_HAND
SHORT = {'is_empty1': 'empty1', 'is_empty2': 'empty2', 'is_full1': 'full1', 'is_full2': 'full2', 'is_closed1': 'isclosed1'}
REFUSED = {3: 'there is no worker {w}', 4: 'worker {w} is busy', 5: 'worker {w} is idle', 7: 'the meter is at its end',
           8: 'no weak exchange comes next of worker {w}', 9: 'an entry that cannot be read; nothing is run', 11: 'an odd number of numbers; nothing is run'}
MAKING = {1: 'refused 1: the capacity {0} is not 1 to 1024', 2: 'refused 2: the number of workers, {1}, is not 1 to 16 (lent: to 64)', 18: 'refused 18: there is no edition {2}'}


def yes(worker):
    return worker.answer[0].lower()


def name_of(place):
    return SHORT.get(place, place)


def lap_and_slot(ring, word):
    """A lap has twice as many words as the mark says: those with the mark and those without it."""
    return f'lap {word // (2 * ring.mark)}, slot {paper.index(ring, word)}'


def decoded(ring, word):
    """A word of tail or head where it is read, and what it says."""
    return f'{word}: {lap_and_slot(ring, word)}' + (', closed' if paper.marked(ring, word) else '')


def exchanged(end, found, held, to, worker, before, goes, found_as):
    """Of an exchange that was not won."""
    if worker.failed > before.failed:
        return f'{end} {held} -> {to} failed by the schedule; ' + goes.format(held)
    return f'{end} is {found}, not {held}: lost; ' + goes.format(found_as)


def sentence(w, before, after, was, ring, claim):
    """What an act did: the worker's record before and after it, the ring, the number of its claim."""
    i = paper.index(ring, before.t if before.t is not None else before.h) if (before.t, before.h) != (None, None) else None
    t, h, place, to = before.t, before.h, before.place, after.place
    if place == 'P1':
        return f'reads tail {decoded(ring, ring.tail)}' + (f'; {before.item} not pushed' if to == 'idle' else '')
    if place == 'P2':
        return {'P3': f'slot {i} is free for tail {t}', 'P6': f"slot {i} has the last lap's item: full?", 'F6': f"slot {i} has the last lap's item: displaces it?",
                'P1': f'slot {i} is not at tail {t}: tries again'}[to]
    if place == 'P3':
        if to == 'P4':
            return f"tail {t} -> {ring.tail} won: claim {claim} is w{w}'s; slot {i} in its hand"
        if to == 'idle':
            return f'tail is {ring.tail}, marked: lost; closed, {before.item} not pushed'
        return exchanged('tail', ring.tail, t, paper.next_of(ring, t), after, before, 'goes on with {}', lap_and_slot(ring, ring.tail))
    if place == 'P4':
        return f'writes {before.item} into slot {i}'
    if place == 'P5':
        return f'slot {i} ready to be popped: pushed'
    if place == 'P6':
        return f'head is {ring.head}, ' + (f'a lap behind tail {t}: full, {before.item} not pushed' if to == 'idle' else f'not a lap behind tail {t}: tries again')
    if place == 'F6':
        front = paper.minus_lap(ring, t)
        if to == 'F7':
            return f"head {front} -> {ring.head} won: claim {claim} is w{w}'s to displace; slot {i} in its hand"
        return exchanged('head', ring.head, front, paper.next_of(ring, front), after, before, 'tries again', None)
    if place == 'F7':
        lost = '; the close is lost' if paper.marked(ring, was.tail) and not paper.marked(ring, ring.tail) else ''
        return f"tail {was.tail} -> {ring.tail}: claim {claim} is w{w}'s" + lost
    if place == 'F8':
        return f'takes {after.value} out of slot {i}, writes {before.item}'
    if place == 'F9':
        return f'slot {i} ready to be popped: displaced {before.value}'
    if place == 'O1':
        return f'reads head {decoded(ring, ring.head)}'
    if place == 'O2':
        return {'O3': f'slot {i} has an item for head {h}', 'O6': f'slot {i} has none for head {h}: empty?', 'O1': f'slot {i} is not at head {h}: tries again'}[to]
    if place == 'O3':
        if to == 'O4':
            return f"head {h} -> {ring.head} won: claim {claim} is w{w}'s; slot {i} in its hand"
        return exchanged('head', ring.head, h, paper.next_of(ring, h), after, before, 'goes on with {}', lap_and_slot(ring, ring.head))
    if place == 'O4':
        return f'reads {after.value} out of slot {i}'
    if place == 'O5':
        return f'slot {i} free for the next lap: popped {before.value}'
    if place == 'O6':
        if to == 'O1':
            return f'tail is {ring.tail}, not {h}: tries again'
        return f'tail is {ring.tail}, as head: empty' if after.answer == ('Empty',) else f'tail is {ring.tail}, marked, else as head: closed'
    if place in ('len1', 'is_full1'):
        return f'reads tail {decoded(ring, ring.tail)}'
    if place in ('len2', 'is_empty1'):
        return f'reads head {decoded(ring, ring.head)}'
    if place == 'len3':
        return f'tail is {ring.tail}, not {t}: tries again' if to == 'len1' else f'tail is still {ring.tail}: len {after.answer[1]}'
    if place == 'is_empty2':
        return f'tail is {ring.tail}, head was {h}: {yes(after)}'
    if place == 'is_full2':
        return f'head is {ring.head}, tail was {t}: {yes(after)}'
    if place == 'close1':
        return f'tail {was.tail} -> {ring.tail}, marked: yes' if yes(after) == 'yes' else f'tail is {ring.tail}, marked already: no'
    return f'tail is {ring.tail}, ' + ('marked: yes' if yes(after) == 'yes' else 'not marked: no')


def because(causes):
    if causes is None:
        return ''
    ends = {('own-end', 'other-end'): 'both ends moved', ('own-end',): 'own end moved', ('other-end',): 'other end moved', (): ''}
    told = ['schedule'] if 'schedule' in causes else []
    told += [ends[tuple(cause for cause in ('own-end', 'other-end') if cause in causes)]]
    told += ['slot in hand'] if 'hand' in causes else []
    return '(' + (', '.join(part for part in told if part) or 'no cause') + ')'


def line(place, w, stood, text, cause=''):
    start = f'{place:6}  ' + f'w{w}'.ljust(4) + stood.ljust(9) + ' ' + text
    if cause:
        start = (start + '  ').ljust(CAUSE_END - len(cause)) + cause
    return start[:WIDE]


def refused(place, refusal, w=0):
    return f'{place:6}  -   refused {refusal}: ' + REFUSED[refusal].format(w=w)


class Claims:
    """How many there were at each end."""

    def __init__(self):
        self.made = {'tail': 0, 'head': 0}

    def number(self, before, after, was):
        """The end and the number of an act's claim; None."""
        way = before.place, after.place
        for end, ways in paper.CLAIMS.items():
            if way in ways:
                word = paper.minus_lap(was, before.t) if way == ('F6', 'F7') else before.t if end == 'tail' else before.h
                number, self.made[end] = self.made[end], self.made[end] + 1
                assert was.wide != paper.WIDTHS[64] or number == paper.claims(was, word)
                return end, number
        return None


class Life:
    """Which entries belong to an item's life: those of the call that pushes it, and from its claim of head on those of the call that hands it out."""

    def __init__(self, item):
        self.item, self.workers, self.claims, self.is_pushed = item, set(), {}, False

    def has(self, w, code, given, before, after, claim):
        if code < 2 and given == self.item:
            self.workers.add(w)
            self.is_pushed = True
        end, number = claim or (None, None)
        if end == 'tail':
            self.claims[number] = before.item
        if end == 'head' and self.claims.pop(number, None) == self.item:
            self.workers.add(w)
        it = w in self.workers
        if not busy(after):
            self.workers.discard(w)
        return it


def unmet(life):
    """What is said of an item that is followed and that no call pushes."""
    return [] if life.item is None or life.is_pushed else [f'followed: no push of {life.item}']


def waits(machine, made):
    if any(map(busy, machine.workers)):
        return [f"waits: not told while a worker is busy; claims of tail ahead of head: {made['tail'] - made['head']}"]
    lines = ['waits:']
    for item in map(str, paper.items_of(machine)):
        if len(lines[-1]) + 1 + len(item) > WIDE:
            lines.append('      ')
        lines[-1] += ' ' + item
    return lines if lines != ['waits:'] else ['waits: nothing']


def ends(machine, made, differed, failed):
    standing = [f'busy: w{w} at {name_of(worker.place)}' + (f', slot {paper.index(machine.ring, worker.h if worker.place[0] == "O" else worker.t)} in its hand' if worker.place in IN_HAND else '')
                for w, worker in enumerate(machine.workers) if busy(worker)]
    return (standing or ['busy: nobody']) + waits(machine, made) + [f'exchanges lost: {differed} because the words differed, {failed} by the schedule']


def part_of(lines, first=0, last=10**9, worker=None):
    """Of a schedule's lines those of entries FIRST to LAST, of this worker, and all that are no entry's; so is a refusal's."""
    found = []
    for told in lines:
        place, whose, *_ = *told.split(), '', ''
        is_entry = place.isdigit() and whose.startswith('w')
        if not is_entry or first <= int(place) <= last and worker in (None, int(whose[1:])):
            found.append(told)
    return found


def explained(numbers, edition=1, bits=64, lent=False, follow=None):
    """The lines of a schedule, and whether it was refused."""
    capacity, count, *words = numbers
    refusal, machine = paper.make(capacity, count, edition, bits, most=64 if lent else 16)
    if refusal:
        return [MAKING[refusal].format(capacity, count, edition)], True
    lines = [f'made: a ring of capacity {capacity}, {count} workers, edition {edition}']
    refusal, place = paper.ENTRIES.refused_whole(machine, words)
    if refusal:
        return lines + [refused(place, refusal)], True
    life, claims, history, differed, failed = Life(follow), Claims(), [], 0, 0
    window = paper.Window(machine.ring) if bits == 16 else None
    for place, (first, item) in enumerate(zip(words[::2], words[1::2])):
        w, code = divmod(first, 16)
        refusal, after = paper.step(machine, first, item)
        if refusal:
            lines.append(refused(place, refusal, w))
            break
        stood, stands = machine.workers[w], after.workers[w]
        claim = claims.number(stood, stands, machine.ring)
        it = life.has(w, code, item, stood, stands, claim)
        if code < 8:
            told = line(place, w, '-', f'begins {CALLS[code]}' + (f' {item}' if code < 2 else ''))
        else:
            history.append(paper.Act(w, machine.workers, stands))
            differed, failed = differed + stands.differed - stood.differed, failed + stands.failed - stood.failed
            lap = f'(lap {claim[1] // capacity})' if follow is not None and claim else ''
            told = line(place, w, name_of(stood.place), sentence(w, stood, stands, machine.ring, after.ring, claim and claim[1]), because(paper.causes(history)) or lap)
        if follow is None or it:
            lines.append(told)
        if window and code >= 8 and window.leaves(w, stood, stands):
            lines.append(f'left the window at entry {place}')
        machine = after
    return lines + unmet(life) + ends(machine, claims.made, differed, failed), refusal != 0
