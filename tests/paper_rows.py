"""What a log never shows: the rows as docs/PROMISES.md words them, counted on lines. A second reading, which shares nothing with ./possible."""

from collections import Counter
from typing import NamedTuple, Optional

# it has returned, with what is not known
UNKNOWN = '?',


class Line(NamedTuple):
    """A call: where it began, and what it answered and where, if it has."""
    call: str
    item: int
    begun: float
    answer: Optional[tuple] = None
    answered: float = 0


def before(x, y):
    return x.answer is not None and x.answered < y.begun


def says(line, *words):
    return line.answer is not None and line.answer[0] in words


def takes(line):
    """It may have taken an item out, whichever."""
    return line.call in ('pop', 'force_push') and line.answer in (None, UNKNOWN)


def handed_in(line):
    return [line.item] if line.call in ('push', 'force_push') and not says(line, 'Full', 'Closed') else []


def handed_out(line):
    return [line.answer[1]] if says(line, 'Popped', 'Displaced') else []


def certainly_in(lines, y, such):
    sure = sum(such(v) for x in lines if before(x, y) for v in handed_in(x) if x.answer != UNKNOWN)
    may = sum(1 if takes(x) else sum(map(such, handed_out(x))) for x in lines if not before(y, x))
    return sure - may


def is_in_beside(lines, y, item):
    """One item that one call alone hands in, and whose way out is known: in from that call's answer, whatever it is, until somebody came for it."""
    into = [x for x in lines if item in handed_in(x)]
    out = [x for x in lines if item in handed_out(x)]
    return len(into) == len(out) == 1 and before(into[0], y) and before(y, out[0])


def can_be_in(lines, y):
    return sum(len(handed_in(x)) for x in lines if x is not y and not before(y, x)) - sum(len(handed_out(x)) for x in lines if before(x, y))


def anything(item):
    return True


def overtaken(lines, came):
    """Row 3. What nobody is seen to take out leaves after all that is seen, or is taken by who may have taken it."""
    once = {v: x for x in lines for v in handed_in(x) if came[v] == 1}
    outs = {v: x for x in lines for v in handed_out(x) if v in once}
    for b, out_b in outs.items():
        for a, in_a in once.items():
            if not before(in_a, once[b]):
                continue
            if a in outs:
                if before(out_b, outs[a]):
                    return True
            elif in_a.answer != UNKNOWN and all(before(out_b, x) for x in lines if takes(x)):
                return True
    return False


def rows(lines, capacity, stays, sees, repeated=True):
    """The rows that the log shows; capacity None is none. Row 4 is looked for of everything and of each number; where not `repeated`, of numbers that one call hands in alone."""
    shown = set()
    came = Counter(v for x in lines for v in handed_in(x))
    went = Counter(v for x in lines for v in handed_out(x))
    if any(went[v] > came[v] for v in went):
        shown.add('2')
    if overtaken(lines, came):
        shown.add('3')
    for y in lines:
        if y.answer in (None, UNKNOWN):
            continue
        if any(not any(x is not y and v in handed_in(x) and not before(y, x) for x in lines) for v in handed_out(y)):
            shown.add('1')
        if any(sum(v in handed_out(x) for x in lines if x.answer is not None and x.answered <= y.answered) > sum(v in handed_in(x) for x in lines if x.begun < y.answered) for v in handed_out(y)):
            shown.add('2')
        shut = says(y, 'Closed') or y.call == 'is_closed' and says(y, 'Yes') or y.call == 'close' and says(y, 'No')
        if shut and not any(x is not y and x.call == 'close' and not before(y, x) for x in lines):
            shown.add('6')
        unshut = says(y, 'Pushed', 'Displaced', 'Empty') or y.call == 'is_closed' and says(y, 'No') or y.call == 'close' and says(y, 'Yes')
        if stays and unshut and any(x.call == 'close' and before(x, y) for x in lines):
            shown.add('6 after')
        if y.call == 'pop' and says(y, 'Empty', 'Closed') or y.call == 'is_empty' and says(y, 'Yes'):
            sets = [anything] + [lambda item, v=v: item == v for v in came if repeated or came[v] == 1]
            if any(certainly_in(lines, y, such) > 0 for such in sets) or any(is_in_beside(lines, y, v) for v in came):
                shown.add('4')
        if says(y, 'Full', 'Displaced') or y.call == 'is_full' and says(y, 'Yes'):
            if capacity is None or can_be_in(lines, y) < capacity:
                shown.add('5')
        if says(y, 'Len'):
            count = y.answer[1]
            if count > can_be_in(lines, y) or capacity is not None and count > capacity or count < certainly_in(lines, y, anything):
                shown.add('7')
        if says(y, 'Pushed') or y.call == 'is_full' and says(y, 'No'):
            if capacity is not None and certainly_in(lines, y, anything) >= capacity:
                shown.add('8 room')
        if sees and y.call == 'is_empty' and says(y, 'No') and can_be_in(lines, y) <= 0:
            shown.add('8 some')
    return shown
