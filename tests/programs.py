"""How tests start the compiled programs.

REPLAY, TAPE and WALK name starters; where one is not set, target/bin/NAME is run as tools/start runs it, without asking first whether it is built
and new, which takes longer than most runs here. So the programs are built and proved before, by .ci/run or by a first use of the starter.
"""

import os
import subprocess
import sys
from functools import cache
from pathlib import Path
from typing import NamedTuple

HOME = Path(__file__).resolve().parent.parent

# A program tells its status on descriptor 3, behind the names of files, as tools/start hears it.
TOLD = 'exec 4>&1; told=$("$@" 3>&1 >&4 4>&-); ended=$?; [ "$ended" = 0 ] || exit "$ended"; told=${told#"${told%?}"}; exit "${told:-2}"'


def loaded(file):
    """The words that run a program's file. Its status is not told."""
    return [str(file)]


@cache
def starter_of(name):
    """The words that start a program; its arguments follow."""
    named = os.environ.get(name.upper())
    return [named] if named else ['sh', '-c', TOLD, 'sh', *loaded(HOME / 'target/bin' / name), '--tell-status']


class Ended(NamedTuple):
    status: int
    out: bytes
    said: str


def started(name, *words, given=b'', **more):
    """A program run to its end on this standard input."""
    done = subprocess.run([*starter_of(name), *map(str, words)], input=given, stderr=subprocess.PIPE, **{'stdout': subprocess.PIPE, **more})
    return Ended(done.returncode, done.stdout, done.stderr.decode())


@cache
def may_trace():
    """Whether strace may trace here; told once where it may not."""
    try:
        may = subprocess.run(['strace', '-qq', '-e', 'trace=none', 'true'], capture_output=True).returncode == 0
    except FileNotFoundError:
        may = False
    if not may:
        not_checked('strace may trace nothing here: what it would show is not seen')
    return may


def not_checked(what):
    """Tells what a test passes over; in the file that FERNMOLDEW_NOT_CHECKED names too, for .ci/run to tell it at its end."""
    what = f'{Path(sys.argv[0]).name}: {what}'
    print(what, flush=True)
    if os.environ.get('FERNMOLDEW_NOT_CHECKED'):
        with open(os.environ['FERNMOLDEW_NOT_CHECKED'], 'a') as file:
            file.write(what + '\n')


def failing(call, name, *words, file=None):
    """A program run to its end with a system call that fails with EIO: CALL, or CALL:when=N for the N-th one; of all files, or of this one."""
    call, _, when = call.partition(':')
    path = ['-P', str(file)] if file else []
    trace = ['strace', '-f', '-qq', '-o', '/dev/null', *path, '-e', f'trace={call}', '-e', f'inject={call}:error=EIO' + (f':{when}' if when else '')]
    done = subprocess.run([*trace, *starter_of(name), *map(str, words)], capture_output=True, stdin=subprocess.DEVNULL)
    return Ended(done.returncode, done.stdout, done.stderr.decode())


class Checks:
    """What a test has found wrong, told as it is found. Where ENOUGH is set, the first ends the test."""

    def __init__(self):
        self.wrong = 0

    def check(self, what, is_so):
        if not is_so:
            self.wrong += 1
            print('wrong:', what, flush=True)
            if os.environ.get('ENOUGH'):
                sys.exit(1)

    def same(self, what, here, there):
        """What the program says, and what it should."""
        if here != there:
            self.check(f'{what}:\n  {difference(here, there)}', False)

    def end(self, name, said):
        if self.wrong:
            sys.exit(f'{name}: {self.wrong} wrong')
        print(f'{name}: {said}')


def difference(here, there):
    """The first lines that differ, of texts; of anything else, both."""
    if not isinstance(here, (str, bytes)):
        return f'{here}\n  and not {there}'
    lines = here.splitlines(), there.splitlines()
    for number, (one, other) in enumerate(zip(*lines), 1):
        if one != other:
            return f'line {number}: {one}\n  and not {other}'
    return f'{len(lines[0])} lines and not {len(lines[1])}: {here[-200:]}'
