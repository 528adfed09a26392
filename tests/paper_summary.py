"""The counts of `replay --summary`, by the second readings of the ring and of the one-slot queue (paper.py, paper_single.py).

What is counted is said by `replay --help` and by document 02: entries that were accepted, acts among them, acts after which a call is back at an earlier
place (item 9; of the one-slot queue, at the exchange that it has lost), refusals; the answers; claims (document 01) and stock (item 4); of each
cause of a retry (item 9), and of lost exchanges (item 8).
"""

from collections import Counter

import paper
import paper_single
from paper_entries import ACT_CODES

ANSWERS = {
    'pushed': 'Pushed', 'full': 'Full', 'closed': 'Closed', 'displaced': 'Displaced', 'popped': 'Popped', 'empty': 'Empty', 'pop-closed': 'Closed',
    'len': 'Len', 'yes': 'Yes', 'no': 'No',
}


class Run:
    """A schedule run by a reading: its accepted acts as paper.py has them, the accepted entries, and whether anything was refused."""

    def __init__(self, reading, machine, words):
        self.acts, self.entries, self.machine = [], 0, machine
        refusal, _ = reading.ENTRIES.refused_whole(machine, words)
        for first, item in zip(words[::2], words[1::2]) if refusal == 0 else ():
            found = self.machine.workers
            refusal, self.machine = reading.step(self.machine, first, item)
            if refusal != 0:
                break
            self.entries += 1
            if first % 16 in ACT_CODES:
                self.acts.append(paper.Act(first // 16, found, self.machine.workers[first // 16]))
        self.refused = refusal != 0

    def ends(self):
        """How often each answer was given; Closed of a pop is another than that of a push, which hands its item back."""
        answers = (act.left.answer for act in self.acts if act.left.place == 'idle')
        return Counter('pop-closed' if answer == ('Closed',) else answer[0].lower() for answer in answers)

    def counts(self, retries):
        yield f'summary entries={self.entries} acts={len(self.acts)} retries={retries} refusals={int(self.refused)}'
        ends = self.ends()
        yield 'answers ' + ' '.join(f'{name}={ends[name]}' for name in ANSWERS)


def causes_line(acts):
    told = Counter(cause for i in range(len(acts)) for cause in why(acts[:i + 1]))
    return 'because ' + ' '.join(f'{cause}={told[cause]}' for cause in (*paper.CAUSES, 'none'))


def why(history):
    causes = paper.causes(history)
    return () if causes is None else causes or ('none',)


def losses_line(acts):
    differed = sum(act.left.differed - act.of().differed for act in acts)
    failed = sum(act.left.failed - act.of().failed for act in acts)
    return f'lost differed={differed} schedule={failed}'


def of_ring(asked, edition, capacity, count, *words):
    """asked: the options that replay is given."""
    most = paper.MOST_LENT if '--lent' in asked else paper.MOST_WORKERS
    run = Run(paper, paper.make(capacity, count, edition, 16 if '--bits' in asked else 64, most)[1], words)
    yield from run.counts(sum(act.way() in paper.BACK for act in run.acts))
    tail, head = (sum(paper.moved(end, act) for act in run.acts) for end in ('tail', 'head'))
    yield f'claims tail={tail} head={head} stock={paper.stock(run.machine) if run.machine.count else 0}'
    if '--causes' in asked:
        yield causes_line(run.acts)
    if '--losses' in asked:
        yield losses_line(run.acts)


def of_single(count, *words):
    run = Run(paper_single, paper_single.make(count)[1], words)
    return run.counts(sum(act.way() in (('B1', 'B1'), ('C1', 'C1')) for act in run.acts))
