"""A second reading of the text of a schedule, as `replay --help` says it: unsigned decimal numbers separated by white space; # starts a comment to the end of
its line; with --many several schedules, separated by a line with a single %.

What that leaves open is taken from docs/DECISIONS.md ("The text of a schedule"): white space is that of C; what stands between white space, a comment and
the ends of lines is one number or a fault, which is told at the place where it begins; the first thing wrong in it says what; a number that is
missing is told where its schedule ends, behind its mark if it has one.
"""

import re

WHITE = b' \t\r\v\f'
NO_NUMBER = 'not an unsigned decimal number'
TOO_LARGE = 'a number that does not fit 64 bits'
MISSING = ('the capacity is missing', 'the number of workers is missing')


# docs/REFERENCE.md, "Status and errors": what a program says besides, of a mark without --many, of a tape's first byte, of workers where the capacity should be.
HINTS = {
    'replay': ('; several schedules are read with --many', '; a tape is read with --tape', '; a schedule without one is of another --queue'),
    'walk': ('; several schedules are read with --many', '; tape read prints a tape as a schedule', '; walk has the ring alone, which has one'),
    'tape': ('; a tape has one schedule', '; this is a tape, and tape read prints it', '; a tape has one, which other queues do not use: capacity 1'),
}


class Fault(Exception):
    """A line and a column, from 1, and what is wrong there."""

    def __init__(self, line, column, what):
        self.place, self.what = (line, column), what

    def told(self, program, name, text, many):
        """The line that a program says of it."""
        line, column = self.place
        lines = text.split(b'\n')
        begins = lines[line - 1][column - 1:column]
        mark, tape, no_capacity = HINTS[program]
        hint = ''
        if column == 1 and (self.what == NO_NUMBER or self.what.startswith('expected: ')):
            if begins == b'%' and not many and (line < len(lines) or self.what == NO_NUMBER):
                hint = mark
            elif begins in (b'\1', b'\x81') and line == 1:
                hint = tape
            elif begins == b'w' and self.what == 'expected: capacity and a number':
                hint = no_capacity
        return f'{program}: {name}: line {line}, column {column}: {self.what}{hint}\n'


def number_of(word, line, column):
    for end in range(1, len(word) + 1):
        if not word[end - 1:end].isdigit():
            raise Fault(line, column, NO_NUMBER)
        if int(word[:end]) >= 2**64:
            raise Fault(line, column, TOO_LARGE)
    return int(word)


def numbers_in(line, number):
    for word in re.finditer(rb'[^%b]+' % WHITE, line.partition(b'#')[0]):
        yield number_of(word[0], number, word.start() + 1)


def schedules(text, many=False, before=0):
    """The numbers of each schedule; of a queue without capacity, so many numbers stand before the first one."""
    lines = text.split(b'\n')
    found = []
    for number, line in enumerate(lines, 1):
        last = number == len(lines)
        if many and line.startswith(b'%'):
            if line[1:].strip(WHITE):
                raise Fault(number, 1, NO_NUMBER)
            yield whole(found, before, number + 1, 1)
            found = []
            if lines[number:] in ([], [b'']):
                return  # a mark at the very end begins no further schedule
        else:
            found += numbers_in(line, number)
            if last:
                yield whole(found, before, number, len(line) + 1)


def whole(found, before, line, column):
    if before + len(found) < 2:
        raise Fault(line, column, MISSING[before + len(found)])
    return found
