"""A second reading of schedules in words, from the request's own text: `capacity 2`, `workers 3` (of the one-slot and the unbounded queue workers alone), then an
entry or `act N` a line: `w0 push 101`, `w1 act 4`, `w0 fail`, `w2 pop`. Blank lines and comments may stand anywhere. The first thing that is no comment
decides: a digit is the form in numbers (tests/paper_text.py), a letter this one.

What that leaves open is taken from docs/REFERENCE.md ("Schedules in words"): a fault is told where the word at fault begins, or, where a word is missing, where the line
or what stands before its comment ends; a word that is a number but for its size is told as such; capacity comes first, then workers.
"""

import re

import paper_text
from paper_text import TOO_LARGE, WHITE, Fault

CODES = ('push', 'force_push', 'pop', 'len', 'is_empty', 'is_full', 'close', 'is_closed', 'act', 'fail')
WITH_ITEM = ('push', 'force_push')
TIMES = ('act', 'fail')
ACTS = (8, 9)
MOST_WORKER = 2**60 - 1  # 16 * worker + code has 64 bits

CAPACITY = 'expected: capacity and a number'
WORKERS = 'expected: workers and a number'
NUMBER = 'expected: a number'
WORKER = 'expected: a worker (w0, w1, ..)'
WORD = 'expected: push, force_push, pop, len, is_empty, is_full, close, is_closed, act or fail'
ITEM = 'expected: an item, which is a number'
COUNT = 'expected: a number of acts, from 1'
END = 'expected: the end of the line'
TOO_HIGH = f'expected: a worker up to w{MOST_WORKER}'


def number_of(word, line, column, expected):
    if not re.fullmatch(rb'[0-9]+', word):
        raise Fault(line, column, expected)
    if int(word) >= 2**64:
        raise Fault(line, column, TOO_LARGE)
    return int(word)


class Line:
    """The words of one line, each with its column, taken from the left."""

    def __init__(self, text, number):
        text = text.partition(b'#')[0]
        self.words = [(word[0], word.start() + 1) for word in re.finditer(rb'[^%b]+' % WHITE, text)]
        self.number, self.end = number, len(text) + 1

    def take(self, expected):
        if not self.words:
            raise Fault(self.number, self.end, expected)
        return self.words.pop(0)

    def take_number(self, expected):
        word, column = self.take(expected)
        return number_of(word, self.number, column, expected)

    def take_word(self, name, expected):
        word, column = self.take(expected)
        if word != name:
            raise Fault(self.number, column, expected)

    def ends(self):
        if self.words:
            raise Fault(self.number, self.words[0][1], END)

    def worker(self):
        word, column = self.take(WORKER)
        if not re.fullmatch(rb'w[0-9]+', word):
            raise Fault(self.number, column, WORKER)
        if int(word[1:]) > MOST_WORKER:
            raise Fault(self.number, column, TOO_HIGH)
        return int(word[1:])

    def entries(self):
        """How often, and which."""
        worker = self.worker()
        word, column = self.take(WORD)
        name = word.decode('latin-1')
        if name not in CODES:
            raise Fault(self.number, column, WORD)
        times, item = 1, 0
        if name in WITH_ITEM:
            item = self.take_number(ITEM)
        elif name in TIMES and self.words:
            column = self.words[0][1]
            times = self.take_number(COUNT)
            if times == 0:
                raise Fault(self.number, column, COUNT)
        return times, (16 * worker + CODES.index(name), item)


def is_in_words(text):
    """By the first thing that is no comment, in one schedule's text."""
    for line in text.split(b'\n'):
        line = line.partition(b'#')[0].strip(WHITE)
        if line:
            return re.match(rb'[A-Za-z]', line) is not None
    return False


def runs(text, before=0, first_line=1):
    """The numbers before the entries, then each entry with how often it comes in a row."""
    lines = text.split(b'\n')
    head, entries = [], []
    for number, words in enumerate(lines, first_line):
        line = Line(words, number)
        if not line.words:
            continue
        if before + len(head) < 2:
            line.take_word(*((b'capacity', CAPACITY), (b'workers', WORKERS))[before + len(head)])
            head.append(line.take_number(NUMBER))
        else:
            entries.append(line.entries())
        line.ends()
    return head, entries


def numbers(text, before=0, first_line=1, end=None):
    """Of a schedule in words. Where its text ends is told where a number is missing."""
    head, entries = runs(text, before, first_line)
    last = text.split(b'\n')
    line, column = end or (first_line + len(last) - 1, len(last[-1]) + 1)
    paper_text.whole(head, before, line, column)
    return head + [number for times, entry in entries for number in entry * times]


def parts(text, many):
    """The lines of the schedules, with the number of the first line of each and, where a mark ended it, where what follows begins."""
    lines, first, found = text.split(b'\n'), 1, []
    for number, line in enumerate(lines, 1):
        if many and line.startswith(b'%'):
            if line[1:].strip(WHITE):
                found.append(line)  # no mark: a fault of the schedule's own form
                continue
            yield found, first, (number + 1, 1)
            found, first = [], number + 1
            if lines[number:] in ([], [b'']):
                return
        else:
            found.append(line)
    yield found, first, None


def schedules(text, many=False, before=0):
    """The numbers of each schedule, whichever form it has. Where one has a fault, it is told once those before it are read."""
    for lines, first, end in parts(text, many):
        if is_in_words(b'\n'.join(lines)):
            yield numbers(b'\n'.join(lines), before, first, end)
        else:
            alone = b'\n'.join([b''] * (first - 1) + lines + ([b'%'] if end else []))
            yield next(iter(paper_text.schedules(alone, many, before)))


# Numbers as words

def line_of(times, first, item):
    worker, code = divmod(first, 16)
    if CODES[code] in WITH_ITEM:
        return f'w{worker} {CODES[code]} {item}\n'
    return f'w{worker} {CODES[code]}' + (f' {times}' if times > 1 else '') + '\n'


def gathered(entries):
    """Acts in a row of one worker, which are one line."""
    found = []
    for entry in entries:
        if found and found[-1][1] == entry and entry[0] % 16 in ACTS:
            found[-1][0] += 1
        else:
            found.append([1, entry])
    return found


def words(numbers, before=0):
    """A schedule that can be read, as words."""
    head = ''.join(f'{name} {number}\n' for name, number in zip(('capacity', 'workers')[before:], numbers))
    rest = numbers[2 - before:]
    return head + ''.join(line_of(times, *entry) for times, entry in gathered(zip(rest[::2], rest[1::2])))


def unwritable(numbers, before=0):
    """The refusal of a schedule that no words are for, and the entry: an odd number of words, or an entry that can't be read; 0 where there is none."""
    rest = numbers[2 - before:]
    if len(rest) % 2:
        return 11, 0
    for place, (first, item) in enumerate(zip(rest[::2], rest[1::2])):
        if first % 16 >= len(CODES) or (item and CODES[first % 16] not in WITH_ITEM):
            return 9, place
    return 0, 0
