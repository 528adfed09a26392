"""runs [OPTION..]: schedules at random, every entry of which replay has run.

Which worker comes when is drawn first. What it does there depends on where it stands, which replay says: an entry that is refused since its worker is idle begins a call in its place,
and at a place whose exchange may fail it is drawn whether it does. So all schedules are run together, again and again, each up to what was not known of it before."""

import os
import random
import sys

import replay
from calls import line_of
from manners import Told, is_told, number_of, printed, read, run, written
from queues import ACT, CALLS, FAIL, READINGS, WITH_ITEM

HELP = '''runs [--seed N] [--count N] [--workers N] [--capacity N] [--calls N] [--weak PERCENT]
     [--queue NAME] [--edition N] [--bits N] [--lent] [--many | -o DIR]

Makes schedules at random, in words: calls of several workers that overlap, each run to its end by
replay before it is printed. Every entry is accepted, and every call answers. The same options give
the same schedules.

  --seed N       which ones (1 if not given)
  --count N      how many (1 if not given)
  --workers N    of each (3 if not given)
  --capacity N   of the ring (2 if not given)
  --calls N      of each schedule (8 if not given, at most 1,000)
  --weak PERCENT   so often an exchange that may fail does, up to 90 (10 if not given); the one-slot
                 queue has none
  --queue single, --queue unbounded, --edition 2, --bits 16, --lent   for replay, as its help says
  --many         prints them one after another, a line % between two, as replay --many reads them
  -o DIR         writes each as DIR/run-1.txt and so on; DIR is made, and no file that is there is
                 written over
  --version      prints the version
  -h, --help     prints this

A value may stand behind an = too, as in --count=5.
Status: 0 done, 1 no machine can be made so, 2 the arguments cannot be read, or not all can be
written.
'''
NUMBERS = {'--seed': (1, 0, 2**63), '--count': (1, 1, 100_000), '--workers': (3, 1, 64), '--capacity': (2, 1, 1024), '--calls': (8, 1, 1_000), '--weak': (10, 0, 90)}
ROUNDS = 200_000  # entries of all schedules that are run at once, at most
CLOSE, CLOSES = CALLS.index('close'), 0.02  # of all calls: behind a close there is little else than Closed


class Schedule:
    """One that is made. Entries up to `known` are as they stay; the others are drawn, and replay has not said yet what they do."""

    def __init__(self, luck, head, workers, calls, weak, reading, codes):
        self.luck, self.head, self.workers, self.left, self.weak, self.reading, self.codes = luck, head, workers, calls, weak, reading, codes
        self.entries, self.known, self.items = [], 0, 0
        self.stands = {}
        self.is_done = False
        self.draw()

    def draw(self):
        """Some more acts: of anybody while calls are left to begin, then of who is busy."""
        who = range(self.workers) if self.left else [worker for worker, stand in self.stands.items() if not stand.idle]
        self.is_done = not who
        for _ in range(4 * self.workers if who else 0):
            worker = self.luck.choice(who)
            idle = worker not in self.stands and not any(first // 16 == worker for first, _ in self.entries)
            if idle and not self.left:
                continue
            self.entries.append(self.begun(worker) if idle else (16 * worker + ACT, 0))

    def begun(self, worker):
        self.left -= 1
        code = CLOSE if self.luck.random() < CLOSES else self.luck.choice(self.codes)
        if CALLS[code] not in WITH_ITEM:
            return 16 * worker + code, 0
        self.items += 1
        return 16 * worker + code, 100 * (worker + 1) + self.items

    def text(self):
        return ' '.join(map(str, self.head)) + '\n' + ''.join(f'{first} {item}\n' for first, item in self.entries)

    def learn(self, lines):
        """From replay's lines of it."""
        for line in filter(None, map(line_of, lines)):
            if line.entry < self.known:
                continue
            if line.worker is None or line.refused:
                return self.mend(line)
            before = self.stands.get(line.worker)
            if before is not None and before.place in self.reading.weak and self.entries[line.entry][0] % 16 == ACT and self.luck.random() * 100 < self.weak:
                self.entries[line.entry] = 16 * line.worker + FAIL, 0
                return None
            self.stands[line.worker] = line.stand
            self.known = line.entry + 1
        return self.draw()

    def mend(self, line):
        """What is refused: an act of an idle worker begins a call, while some are left; else it is dropped, and so is what needs a block where none is free."""
        if line.refused not in (5, 23):
            raise Told(f'replay refuses what was made: {line.refused} at entry {line.entry} of\n{self.text()}')
        if line.refused == 5 and self.left:
            self.entries[line.entry] = self.begun(line.worker)
        else:
            del self.entries[line.entry]


def chosen_of(options):
    given = dict(options)
    numbers = {}
    for option, (otherwise, least, most) in NUMBERS.items():
        numbers[option] = number_of(option, given[option]) if option in given else otherwise
        if not least <= numbers[option] <= most:
            raise Told(f'{option} wants a number from {least} to {most}, not {numbers[option]} (see --help)')
    if '-o' in given and '--many' in given:
        raise Told('--many does not go with -o (see --help)')
    if numbers['--count'] > 1 and not {'-o', '--many'} & {*given}:
        raise Told('--count needs --many or -o DIR (see --help)')
    return given, numbers


def made(schedules, program):
    """Runs them until all are done."""
    while left := [schedule for schedule in schedules if not schedule.is_done]:
        some, length = [], 0
        for schedule in left:
            some.append(schedule)
            length += len(schedule.entries)
            if length > ROUNDS:
                break
        for schedule, lines in zip(some, program.parts([schedule.text() for schedule in some])):
            schedule.learn(lines)


def into_folder(folder, texts):
    try:
        os.makedirs(folder, exist_ok=True)
    except OSError as wrong:
        raise Told(f'{folder}: {wrong.strerror}')
    names = [os.path.join(folder, f'run-{number}.txt') for number in range(1, len(texts) + 1)]
    there = next((name for name in names if os.path.lexists(name)), None)
    if there:
        raise Told(f'{there} is there already: nothing is written')
    for name, text in zip(names, texts):
        written('runs', name, text.encode())


def main(words):
    starter, words = [words[0], 'replay'], words[1:]
    if is_told('runs', HELP, words):
        return 0
    options, file = read(words, ('-o', *NUMBERS, *replay.WITH_VALUE), ('--lent', '--many'))
    if file is not None:
        raise Told(f'{file} is one name too many (see --help)')
    given, numbers = chosen_of(options)
    queue, _, narrow = replay.named_among(options)
    if queue != 'bounded' and '--capacity' in given:
        raise Told(f'--capacity does not go with --queue {queue} (see --help)')
    program = replay.Program(replay.command_of(starter), options)
    head = [*([numbers['--capacity']] if queue == 'bounded' else []), numbers['--workers']]
    said = program.run((' '.join(map(str, head)) + '\n').encode(), '--explain')[0]
    if not said.startswith('made: '):
        raise Told(said, 1)
    reading = READINGS[queue](head[0], 16 if narrow else 64)
    names = [name for name in CALLS if name != 'close' and (queue != 'unbounded' or name != 'force_push')]
    codes = [CALLS.index(name) for name in names for _ in range({'push': 8, 'pop': 8, 'force_push': 3}.get(name, 1))]  # mostly what moves items
    luck = random.Random(f'{numbers["--seed"]} of runs')
    schedules = [Schedule(random.Random(luck.getrandbits(64)), head, numbers['--workers'], numbers['--calls'], numbers['--weak'], reading, codes) for _ in range(numbers['--count'])]
    made(schedules, program)
    parts = program.for_words().parts([schedule.text() for schedule in schedules], '--words-of')
    texts = [''.join(line + '\n' for line in part) for part in parts]
    into_folder(given['-o'], texts) if '-o' in given else printed('%\n'.join(texts).encode())
    return 0


run('runs', main, sys.argv[1:])
