"""What the checker says of a crate in which a text is changed, all of it: `rt must-fail` and `rt ci` tell of an edit the first line alone.

Each check is one that rt makes of an edit: of a copy of the crate, over the libraries below as `rt ci` builds them, begun with what a check of the crate as
it stands kept. All is done in a folder of its own, so that nothing here is changed; what `rt ci` kept on this machine is not proved again."""

import os
import re
import shutil
import signal
import subprocess
import sys
import tempfile
import time
from pathlib import Path
from typing import NamedTuple

ROOT = Path(__file__).resolve().parent.parent
PARTS = ('src', 'specs', 'proofs')
# The checker's words for a text, and no fact: a name that is not there or that the change took away, and what cannot be read.
UNREAD = re.compile(r'is not in scope|has no (?:field|_)|is no name|operand is missing|expected the end|cannot continue')
# Its words for what it refuses only since something else is refused.
RESTS = re.compile(r'was not admitted|was rejected')
# Its words for a limit of its own, where it gives no verdict.
LIMIT = re.compile(r'antt ran out of|outgrew the memory limit|stopped at the step limit')
# Its words for a goal that is false, where it found the values.
REFUTED = 'allow values at which this goal is false'


class Fault(NamedTuple):
    """What the checker does not admit: a declaration of this file, a function's goal in the folder of its proof, or, with no name, a text that it cannot read."""
    file: str
    name: str | None
    why: str
    is_unanswered: bool = False  # no answer stands there, and the check found none

    @property
    def said(self):
        """Its own words: what it quotes may have any."""
        return re.sub(r'`[^`]*`', '_', self.why)

    @property
    def rests_on_others(self):
        return RESTS.search(self.said) is not None

    @property
    def is_of_a_fact(self):
        # facts are proved in proofs/: elsewhere it is a definition or a clause that does not read
        return self.name is not None and self.file.startswith('proofs/') and not (self.rests_on_others or UNREAD.search(self.said) or LIMIT.search(self.said))

    @property
    def is_refuted(self):
        return REFUTED in self.why


class Said(NamedTuple):
    status: int
    text: str
    seconds: float

    @property
    def refused(self):
        return self.status == 1 and self.text.rstrip().rpartition('\n')[2].startswith('logic=not-proved')

    @property
    def proved(self):
        return self.status == 0

    def faults(self):
        found, unanswered = [], []
        for line in self.text.split('\n'):
            # a function's goals without an answer stand before its verdict
            if refused := re.match(r'(?:\./)?(\S+?):\d+:\d+: error: (?:`([^`]+)`: )?(.*)', line):
                found.append(Fault(*refused.groups()))
            elif hole := re.match(r'note: \S+?:\d+:\d+: (it is not proved that .*\(`([^`]+)`\).*)', line):
                unanswered.append(hole)
            elif judged := re.match(r'fn \w+::(\S+): ', line):
                found += [Fault(f'proofs/{judged[1].replace("::", "/")}/Answers.antt', hole[2], hole[1], True) for hole in unanswered]
                unanswered = []
        return found

    def judged(self, crate):
        """The verdict on each function."""
        return dict(re.findall(rf'^fn {crate}::(\S+): (.*)$', self.text, re.M))

    def end(self):
        """Why there is no verdict."""
        if self.status < 0:
            return f'stopped by signal {-self.status}' + (', most likely for memory: take fewer --jobs' if self.status == -signal.SIGKILL else '')
        lines = self.text.rstrip().split('\n')
        told = next((line for line in lines if re.search(r'\berror\b', line)), lines[-1])
        return f'status {self.status}: {told[:200]}'


def copied_with_links(folder, to):
    """A copy in which what was proved is not written twice: a check replaces such a file and changes none."""
    shutil.copytree(folder, to, copy_function=lambda one, other: os.link(one, other) if one.endswith('.oantt') else shutil.copy2(one, other))


class Tree:
    """These crates as they stand, in a folder of their own, with those below them proved; what `rt ci` kept on this machine is not proved again."""

    def __init__(self, room, crates, jobs):
        self.room = Path(room)
        below = subprocess.run([ROOT / 'tools/reached', *crates], stdout=subprocess.PIPE, text=True, check=True).stdout.split()
        (self.room / '.git').mkdir()  # the top of a repository, for rt
        if (ROOT / 'HANDLES').exists():
            shutil.copy(ROOT / 'HANDLES', self.room)
        if below:
            self.bring(below)
            built = subprocess.run(['rt', 'ci'], cwd=self.room, env={**os.environ, 'RT_JOBS': str(jobs)}, stdout=subprocess.PIPE, stderr=subprocess.STDOUT, text=True, errors='replace')
            if built.returncode:
                sys.exit(f'{built.stdout}\nthe crates below are not proved: rt ci ended with status {built.returncode}')
        self.bring([*below, *crates])

        kit = subprocess.run([ROOT / 'tools/kit'], stdout=subprocess.PIPE, text=True, check=True).stdout.strip()
        sys.path.insert(0, f'{kit}/bin')
        import rtlib

        self.checker = rtlib.RATTLE
        self.crates = {one.name: one for one in rtlib.crates_below(str(self.room))}

    def bring(self, crates):
        """Has the folder hold these crates and list them; rt takes none that is not listed."""
        for crate in {*crates}:
            if not (self.room / 'crates' / crate).exists():
                shutil.copytree(ROOT / 'crates' / crate, self.room / 'crates' / crate, ignore=lambda folder, names: {'out', 'must-fail'} & {*names})
        lines = [line for line in (ROOT / 'crates.txt').read_text().splitlines() if (name := re.match(r'(\w+)[^#]*:', line)) and name[1] in crates]
        (self.room / 'crates.txt').write_text('\n'.join(lines) + '\n')

    def check(self, crate, changed, kept):
        """A check of the crate with these texts, by their path, in the place of its own. It begins with what is kept in that folder, and adds to it."""
        began = time.monotonic()
        with tempfile.TemporaryDirectory(dir=self.room, prefix='check-') as copy:
            for part in PARTS:
                if (self.room / 'crates' / crate / part).is_dir():
                    shutil.copytree(self.room / 'crates' / crate / part, Path(copy) / part)
            for file, text in changed.items():
                (Path(copy) / file).write_text(text)
            words = [self.checker, 'check', *self.crates[crate].words(['--jobs', '1'], keeps=False), '--incremental', str(kept)]
            ran = subprocess.run(words, cwd=copy, stdin=subprocess.DEVNULL, stdout=subprocess.PIPE, stderr=subprocess.STDOUT, text=True, errors='replace')
        return Said(ran.returncode, ran.stdout, time.monotonic() - began)
