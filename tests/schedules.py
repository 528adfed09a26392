"""Random schedules for tests: entries that a second reading's machine mostly accepts, of workers whose calls overlap; one in some ends with an entry that is
refused. And the judge, which says what replay must print for them."""

import subprocess

from paper_entries import BEGIN_CODES, CODES_WITH_ITEM, busy
from programs import HOME, Ended

JUDGE = HOME / 'oracle/target/release/judge'
REFUSED = ((8, 0), (10, 0), (15, 3), (2, 1), (9, 0), (0, 5), (1024, 0), (8, 7))


def build_judge():
    subprocess.run(['cargo', 'build', '--release', '--offline', '--quiet'], cwd=HOME / 'oracle', check=True)


def words_of(luck, reading, machine, entries, calls=tuple(BEGIN_CODES), closing=0.02):
    """So many entries: of an idle worker a call, which is close only now and then; of a busy one an act, whose weak exchange fails now and then."""
    words = []
    for _ in range(entries):
        number = luck.randrange(machine.count)
        if busy(machine.workers[number]):
            failing = machine.workers[number].place in reading.ENTRIES.weak_exchanges and luck.random() < 0.2
            pair = 16 * number + (9 if failing else 8), 0
        else:
            code = 6 if luck.random() < closing else luck.choice([code for code in calls if code != 6])
            pair = 16 * number + code, luck.randrange(1, 100) if code in CODES_WITH_ITEM else 0
        refusal, machine = reading.step(machine, *pair)
        if refusal == 0:  # 23 may be
            words += pair
    return words + list(luck.choice(REFUSED)) if luck.random() < 0.3 else words


def text_of(numbers):
    return ' '.join(map(str, numbers)) + '\n'


def judged(text, *options):
    """What replay must print, by the unmodified Rust."""
    return subprocess.run([JUDGE, 'expect', '-', *options], input=text, capture_output=True, text=True, check=True).stdout


def judged_walk(text, *options):
    """What walk must print, and say where it refuses."""
    done = subprocess.run([JUDGE, 'walk', '-', *options], input=text.encode(), capture_output=True)
    return Ended(done.returncode, done.stdout, done.stderr.decode())
