"""shrink --keep WHAT [OPTION..] [FILE]: a smallest schedule that still shows something. Every schedule that is tried was run by replay."""

import itertools
import re
import subprocess
import sys

import replay
from calls import calls_told, line_of
from manners import Told, copy_of, is_told, printed, read, run, say, written
from queues import ACT, CALLS, FAIL

HELP = '''shrink --keep WHAT [--queue NAME] [--edition N] [--bits N] [--lent] [--tape] [-o NAME] [FILE]

Takes out of a schedule what is not needed to show WHAT: workers, calls, rows of entries, single
ones and pairs, failing exchanges, capacity and workers, until nothing more can go. Prints what is
left, in words; on standard error how many entries are left of how many. The schedule is read from
FILE, or from standard input, in words, numbers or as a tape.

  --keep WHAT   'w1 empty', 'w2 popped 201': that worker gets that answer
                'refused 5': the run ends with that refusal
                'command: CMD': CMD, with the schedule on its standard input, ends with 0
                anything else: a text that stands in a line of replay --explain, behind the entry's
                place, or of replay --calls; blanks in a row are one
  -o NAME       writes this file, whole or not at all
  --queue single, --queue unbounded, --edition 2, --bits 16, --lent, --tape   for replay, as its
                help says
  --version     prints the version
  -h, --help    prints this

What is left is accepted to its end, unless WHAT is a refusal or a command. Entries keep their order
and workers their numbers. No smaller one comes of it by leaving out an entry or a call, nor two of
these if at most 40 are left; another schedule may be smaller still. At most 10,000 entries.
A value may stand behind an = too, as in --bits=16. What follows a word -- is a name.
Status: 0 done, 1 the schedule does not show it, 2 input or arguments cannot be read, or not all can
be written.
'''
MOST = 10_000  # entries
TOGETHER = 100_000  # entries of all schedules that are tried at once
FOR_PAIRS = 40
ANSWERS = 'pushed|full|closed|displaced|popped|empty|len|yes|no'


def squeezed(text):
    return ' '.join(text.split())


class Case:
    """Numbers of the machine, and entries."""

    def __init__(self, head, entries):
        self.head, self.entries = head, entries

    def text(self):
        return ' '.join(map(str, self.head)) + '\n' + ''.join(f'{first} {item}\n' for first, item in self.entries)

    def without(self, places):
        return Case(self.head, [entry for place, entry in enumerate(self.entries) if place not in places])


# What is to be kept

class Kept:
    """Of several cases, which show it."""

    def __init__(self, program):
        self.program = program

    def shown(self, cases):
        return [self.is_in(case, lines) for case, lines in zip(cases, self.program.parts([case.text() for case in cases], *self.options))]


class Answer(Kept):
    options = ()

    def __init__(self, program, worker, answer, value):
        super().__init__(program)
        self.asked = int(worker), answer, value

    def is_in(self, case, lines):
        found = [line for line in map(line_of, lines) if line]
        return not any(line.refused or line.worker is None for line in found) and any(
            line.stand.idle and (line.worker, line.stand.kind) == self.asked[:2] and self.asked[2] in (None, *line.stand.words) for line in found)


class Refused(Kept):
    options = ()

    def __init__(self, program, number):
        super().__init__(program)
        self.number = int(number)

    def is_in(self, case, lines):
        return any(line.refused == self.number for line in map(line_of, lines) if line) or f'made {self.number}' in lines


class Explained(Kept):
    options = ('--explain',)

    def __init__(self, program, what):
        super().__init__(program)
        self.what = squeezed(what)

    def is_in(self, case, lines):
        return not any(' refused ' in line or line.startswith('refused ') for line in lines) and any(self.what in squeezed(re.sub(r'^ *\d+  ', '', line)) for line in lines)


class Called(Kept):
    """By the table of calls."""

    def __init__(self, program, what):
        super().__init__(program)
        self.what = squeezed(what)

    def shown(self, cases):
        for case in cases:
            text = case.text().encode()
            if any(line.refused or line.worker is None for line in map(line_of, self.program.run(text)) if line):
                yield False
            else:
                yield any(self.what in squeezed(line) for line in calls_told(self.program, text, case.head[0]))


class Command(Kept):
    def __init__(self, program, command):
        super().__init__(program)
        self.command = command

    def shown(self, cases):
        for case in cases:
            words = '\n'.join(self.program.for_words().run(case.text().encode(), '--words-of')) + '\n'
            yield subprocess.run(['sh', '-c', self.command], input=words.encode(), stdout=subprocess.DEVNULL, stderr=subprocess.DEVNULL).returncode == 0


def kept_of(program, what, case):
    """WHAT as it is to be looked for; a text where it is seen first."""
    answer = re.fullmatch(rf'w(\d+) ({ANSWERS})(?: (\d+))?', squeezed(what))
    refused = re.fullmatch(r'refused (\d+)', squeezed(what))
    if what.startswith('command:'):
        return Command(program, what[len('command:'):])
    if answer:
        return Answer(program, *answer.groups())
    if refused:
        return Refused(program, refused[1])
    explained = Explained(program, what)
    return explained if explained.shown([case])[0] else Called(program, what)


# Smaller and smaller

def first_shown(kept, cases):
    """The first of them that shows it, or None; so many are tried together as there is room for."""
    cases = iter(cases)
    while True:
        some, length = [], 0
        for case in cases:
            some.append(case)
            length += len(case.entries)
            if length > TOGETHER or len(some) >= 200:
                break
        if not some:
            return None
        for case, is_shown in zip(some, kept.shown(some)):
            if is_shown:
                return case


def calls_in(entries):
    """The places of each call's entries: from its begin to the next one of its worker."""
    found, last = [], {}
    for place, (first, _) in enumerate(entries):
        worker, code = divmod(first, 16)
        if code < len(CALLS) or worker not in last:
            last[worker] = []
            found.append(last[worker])
        last[worker].append(place)
    return found


def smaller(case):
    """What may go, the most first."""
    entries = case.entries
    for worker in sorted({first // 16 for first, _ in entries}):
        yield case.without({place for place, (first, _) in enumerate(entries) if first // 16 == worker})
    calls = calls_in(entries)
    for places in calls:
        yield case.without({*places})
    if len(calls) <= FOR_PAIRS:
        for one, other in itertools.combinations(calls, 2):
            yield case.without({*one, *other})
    size = len(entries) // 2
    while size:
        for start in range(0, len(entries), size):
            yield case.without({*range(start, start + size)})
        size //= 2
    if len(entries) <= FOR_PAIRS:
        for pair in itertools.combinations(range(len(entries)), 2):
            yield case.without({*pair})


def simpler(case, with_capacity):
    """With no fewer entries: a smaller ring, fewer workers, an exchange that does not fail."""
    workers = max((first // 16 for first, _ in case.entries), default=0) + 1
    if workers < case.head[-1]:
        yield Case([*case.head[:-1], workers], case.entries)
    if with_capacity:
        for capacity in range(1, case.head[0]):
            yield Case([capacity, case.head[1]], case.entries)
    for place, (first, _) in enumerate(case.entries):
        if first % 16 == FAIL:
            yield Case(case.head, [*case.entries[:place], (first - FAIL + ACT, 0), *case.entries[place + 1:]])


def shrunk(case, kept, with_capacity):
    while True:
        found = first_shown(kept, itertools.chain(smaller(case), simpler(case, with_capacity)))
        if found is None:
            return case
        case = found


# The schedule

def case_of(lines):
    """Of a schedule in words, as replay writes them."""
    head, entries = [], []
    for words in map(str.split, lines):
        if words[0] in ('capacity', 'workers'):
            head.append(int(words[1]))
            continue
        first, what, number = 16 * int(words[0][1:]), words[1], int(words[2]) if len(words) > 2 else None
        if what in ('act', 'fail'):
            entries += [(first + (ACT if what == 'act' else FAIL), 0)] * (number or 1)
        else:
            entries.append((first + CALLS.index(what), number or 0))
    return Case(head, entries)


def main(words):
    starter, words = [words[0], 'replay'], words[1:]
    if is_told('shrink', HELP, words):
        return 0
    options, file = read(words, ('--keep', '-o', *replay.WITH_VALUE), replay.ALONE)
    given, name = dict(options), file or 'standard input'
    if not given.get('--keep', '').strip():
        raise Told('--keep wants what is to be kept (see --help)')
    program = replay.Program(replay.command_of(starter), [(option, value) for option, value in options if option != '--tape'])
    program.run(b'1 1\n' if program.queue == 'bounded' else b'1\n', '--explain')  # what replay has to say of the options
    with copy_of(file) as copy:
        copy.seek(0)
        as_words = replay.Program(program.command, [(option, value) for option, value in options if option in ('--queue', '--tape')])
        try:
            case = case_of(as_words.run(copy.read(), '--words-of'))
        except Told as told:
            raise Told(str(told).replace('standard input: ', f'{name}: ', 1), told.status)
    if len(case.entries) > MOST:
        raise Told(f'{name}: {len(case.entries):,} entries, at most {MOST:,} are tried')
    before = len(case.entries)
    kept = kept_of(program, given['--keep'], case)
    if isinstance(kept, (Answer, Called)):
        # what is refused shows nothing more
        ends = [line.entry for line in map(line_of, program.run(case.text().encode())) if line and line.refused]
        case = Case(case.head, case.entries[:ends[0]]) if ends else case
        kept = kept_of(program, given['--keep'], case)
    if not next(iter(kept.shown([case]))):
        raise Told(f'{name}: does not show it: {given["--keep"]}', 1)
    case = shrunk(case, kept, program.queue == 'bounded')
    said = ''.join(line + '\n' for line in program.for_words().run(case.text().encode(), '--words-of')).encode()
    written('shrink', given['-o'], said) if '-o' in given else printed(said)
    say(f'{len(case.entries)} entries of {before}')
    return 0


run('shrink', main, sys.argv[1:])
