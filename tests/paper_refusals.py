"""A second reading of what replay, walk and tape say on standard error of a refused schedule: docs/REFERENCE.md, "A refused entry", told from the schedule's text, and from none
of the crates. What a worker answered before is what the paper's machines answer."""

import re

import paper
import paper_single
import paper_unbounded
from paper_entries import CALLS
from paper_explain import REFUSED

NAMES = (*CALLS, 'act', 'fail')
ORDINALS = ('first', 'second', 'third', 'fourth', 'fifth', 'sixth', 'seventh', 'eighth', 'ninth', 'tenth')
NO_MACHINE = 'there is no machine; nothing is run'


def in_lines(out):
    """The refusal and the entry of each schedule, of what replay prints of one or of many; (0, 0): none."""
    found, refused = [], (0, 0)
    for line in out.splitlines():
        entry = re.match(r'(\d+) ([1-9]\d*) ', line) or None
        told = re.match(r' *(\d+)  -   refused (\d+): ', line)
        if entry:
            refused = int(entry[2]), int(entry[1])
        elif told:
            refused = int(told[2]), int(told[1])
        elif re.match(r'refused \d+: ', line):
            refused = 6, 0
        elif line == '%':
            found.append(refused)
            refused = 0, 0
    return found if out.endswith('%\n') else [refused]


def in_walk(text):
    """The same of what walk's judge prints of one schedule or of many; of a refusal of no entry (0, 0)."""
    entries = [re.search(r'^refused (\d+): entry (\d+): ', part, re.M) for part in re.split(r'^%\n', text, flags=re.M)]
    return [(int(entry[1]), int(entry[2])) if entry else (0, 0) for entry in entries]


def shown(first, item):
    w, code = divmod(first, 16)
    return f'w{w} {NAMES[code]}' + (f' {item}' if code < 2 else '')


def of_words(lines, before):
    """Each entry's line, what is said of it, and its two numbers."""
    for number, words in lines[2 - before:]:
        w, name, *more = words
        code = NAMES.index(name)
        first = 16 * int(w[1:]) + code
        if code < 8:
            item = int(more[0]) if more else 0
            yield number, f"'{shown(first, item)}'", first, item
            continue
        times = int(more[0]) if more else 1
        row = f"'{shown(first, 0)}" + (f" {times}'" if times > 1 else "'")
        for n in range(times):
            ordinal = f'the {ORDINALS[n]} act of ' if n < len(ORDINALS) else f'act {n + 1} of '
            yield number, (ordinal if times > 1 else '') + row, first, 0


def of_numbers(lines, before):
    numbers = [(line, int(word)) for line, words in lines for word in words][2 - before:]
    for place, ((line, first), (_, item)) in enumerate(zip(numbers[::2], numbers[1::2])):
        yield line, f"entry {place}, '{first} {item}'", first, item


def of_tape(numbers):
    for place, (first, item) in enumerate(zip(numbers[2::2], numbers[3::2])):
        yield None, f"entry {place}, '{shown(first, item)}'", first, item


NUMBERED = ('Displaced', 'Popped', 'Len')


def answered(queue, head, edition, entries, place, w):
    """What the worker's last call answered when the entry at this place came."""
    if queue == 'bounded':
        run, (_, machine) = paper, paper.make(*head, edition, most=paper.MOST_LENT)
    else:
        run = {'single': paper_single, 'unbounded': paper_unbounded}[queue]
        _, machine = run.make(*head)
    for _, _, first, item in entries[:place]:
        refusal, machine = run.step(machine, first, item)
        assert refusal == 0
    name, *number = machine.workers[w].answer
    return ' '.join([name.lower(), *map(str, number if name in NUMBERED else ())])


def besides(refusal, w, entries, place, workers, answer):
    if refusal == 3:
        return f': there are {workers}'
    own = [n for n, entry in enumerate(entries[:place]) if entry[2] // 16 == w]
    if refusal == 4:
        return f': with the call of entry {[n for n in own if entries[n][2] % 16 < 8][-1]}'
    if refusal == 5:
        return f': it answered {answer()} at entry {own[-1]}' if own else ': it has begun no call'
    return ''


def where_of(name, line, what):
    return f'{name if line is None else f"{name}:{line}"}: {what}: '


def line_of(name, refusal, place, entries, head, edition, queue):
    """head is the capacity, of the ring alone, and the number of workers."""
    if refusal == 6:
        machine = ', '.join(f'{what} {number}' for what, number in zip(('capacity', 'workers', 'edition') if len(head) > 1 else ('workers',), (*head, edition)))
        return f'{name}: refused 6, {NO_MACHINE}: {machine}\n'
    if refusal == 11:
        return f'{name}: refused 11, {REFUSED[11]}\n'
    line, what, first, _ = entries[place]
    w = first // 16
    answer = lambda: answered(queue, head, edition, entries, place, w)
    return f'{where_of(name, line, what)}refused {refusal}, {REFUSED[refusal].format(w=w)}{besides(refusal, w, entries, place, head[-1], answer)}\n'


def schedules(text, many):
    """Of each schedule its lines, by their numbers, with the words on each that are no comment."""
    some = []
    for number, line in enumerate(text.decode('latin-1').split('\n'), 1):
        if many and re.fullmatch(r'%[ \t\r\v\f]*', line):
            yield some
            some = []
        elif words := line.partition('#')[0].split():
            some.append((number, words))
    yield some


def written(lines, before):
    """What a schedule's first line or first numbers say, and its entries."""
    is_in_words = lines[0][1][0][0].isalpha()
    head = [int(words[-1]) for _, words in lines[:2 - before]] if is_in_words else [int(word) for _, words in lines for word in words][:2 - before]
    return head, list((of_words if is_in_words else of_numbers)(lines, before))


def said(name, text, refusals, many=False, queue='bounded', edition=1):
    """What is said of a text whose schedules were refused so."""
    told, before = '', int(queue != 'bounded')
    for lines, (refusal, place) in zip(schedules(text, many), refusals):
        if refusal:
            head, entries = written(lines, before)
            told += line_of(name, refusal, place, entries, head, edition, queue)
    return told


def said_of_tape(name, numbers, refusal, place, queue='bounded', edition=1):
    before = int(queue != 'bounded')
    return line_of(name, refusal, place, list(of_tape(numbers)), numbers[before:2], edition, queue) if refusal else ''


def said_by_tape(name, text, place, meaning):
    """What tape write says of an entry that a tape can't carry; of an odd number of numbers there is none."""
    _, entries = written(next(schedules(text, False)), 0)
    line, what, *_ = entries[place]
    return f'{where_of(name, line, what)}refused 17 at entry {place}: {meaning}\n'
