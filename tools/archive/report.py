"""What is told: the counts, the table at the end, the lines on the way, and progress on a terminal."""

import json
import os
import time
from collections import Counter

from runs import DIFFERS, GONE, RAN, REFUSED, UNREADABLE

MEANINGS = {
    1: 'capacity is 0 or above 1,024', 2: 'workers are 0 or too many', 3: 'there is no such worker', 4: 'the worker is busy',
    5: 'the worker to act is idle', 6: 'the machine is broken', 7: 'the meter is at its end', 8: 'code 9, and no weak exchange comes next',
    9: 'an entry cannot be read', 11: 'an odd number of words', 12: 'the tape is cut short', 13: 'unknown tag, wrong length or place, mixed variant',
    14: 'a code that its tag does not allow', 15: 'bytes after the end', 18: 'the edition is neither 1 nor 2', 23: 'all blocks are taken',
}
DONE, REFUSED_SOME, NOT_READ = 0, 1, 2
RESULTS = RAN, REFUSED, DIFFERS, UNREADABLE, GONE
RECORDS = 'same', 'other', 'none', 'written', None


class Counts:
    def __init__(self):
        self.results = Counter()
        self.refusals = Counter()
        self.records = Counter()
        self.refused_anew = 0  # and not as their records have it
        self.aside = 0

    def add(self, result, number, record, times=1):
        self.results[result] += times
        self.records[record] += times
        if result == REFUSED:
            self.refusals[number] += times
            self.refused_anew += times * (record != 'same')

    def add_told(self, told):
        """A line of JSON, as this program tells it, taken apart; a ValueError, KeyError or TypeError if it is none."""
        result, number, record = told['result'], told.get('refused', 0), told.get('record')
        if result not in RESULTS or record not in RECORDS or type(number) is not int or not isinstance(told['file'], str) or (result == REFUSED) > (number > 0):
            raise ValueError
        self.add(result, number, record)

    @property
    def files(self):
        return sum(self.results.values()) - self.results[GONE]

    @property
    def status(self):
        if self.results[UNREADABLE]:
            return NOT_READ
        return REFUSED_SOME if self.refused_anew or self.results[DIFFERS] or self.results[GONE] else DONE

    def table(self):
        rows = [('files', self.files), ('ran to their end', self.results[RAN]), ('refused', self.results[REFUSED])]
        rows += [(f'  {number:2} {MEANINGS.get(number, "")}', times) for number, times in sorted(self.refusals.items())]
        rows += [('differ from their record', self.results[DIFFERS]), ('cannot be read', self.results[UNREADABLE])]
        rows += [(name, times) for name, times in (('records without a file', self.results[GONE]), ('have no record', self.records['none']),
                                                   ('recorded now', self.records['written']), ('left aside, by their names', self.aside)) if times]
        wide = max(len(name) for name, _ in rows)
        return ''.join(f'{name:{wide}}  {times:>10,}\n' for name, times in rows)


def shown(name):
    """A file's name on one line."""
    return ''.join(c if c.isprintable() else c.encode('utf-8', 'surrogatepass').decode('latin-1').encode('unicode_escape').decode()
                   for c in (name if isinstance(name, str) else os.fsdecode(name)))


def say(text):
    """A line on standard error, if there is one."""
    try:
        os.write(2, f'archive: {text}\n'.encode('utf-8', 'surrogateescape'))
    except OSError:
        pass


def told_of(line):
    """A line of JSON of what did not run to its end as recorded, as it is told while the archive is replayed."""
    told = json.loads(line)
    name = shown(told['file'])
    if told['result'] == GONE:
        return f'{name}: is not there, and its record is\n'
    if told['result'] == REFUSED:
        return f'{name}: refused {told["refused"]}{" as recorded" * (told["record"] == "same")}: {MEANINGS.get(told["refused"], "see docs/REFERENCE.md")}\n'
    if told['result'] == DIFFERS:
        sides = ('nothing' if told[side] is None else shown(told[side]) for side in ('recorded', 'now'))
        return '{}: differs at line {}: recorded {}: now {}\n'.format(name, told['line'], *sides)
    return f'{name}: cannot be read: {shown(told["said"])}\n'


class Output:
    """Standard output. What cannot be written ends the program: in silence if nobody reads."""

    def __init__(self):
        self.waiting = []

    def add(self, data):
        if data:
            self.waiting.append(data)

    def flush(self):
        data, self.waiting = memoryview(b''.join(self.waiting)), []
        while data:
            data = data[os.write(1, data):]


class Progress:
    """On a terminal: how many, of how many, how fast, and how long it will still take."""

    def __init__(self, total):
        self.total = total if os.isatty(2) else None
        self.began = self.last = time.monotonic()
        self.shown = False

    def tell(self, done, before):
        now = time.monotonic()
        if self.total is None or now - self.last < 0.5:
            return
        self.last = now
        rate = (done - before) / (now - self.began)
        left = f', {max(0, self.total - done) / rate:,.0f} s left' if rate else ''
        os.write(2, f'\r{done:,} of {self.total:,}, {rate:,.0f} a second{left}\x1b[K'.encode())
        self.shown = True

    def end(self):
        if self.shown:
            os.write(2, b'\r\x1b[K')
            self.shown = False
