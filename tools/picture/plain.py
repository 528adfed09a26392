"""The plain queue along a run: what waits in it, from one change to the next. An item is in it from its claim at tail to its claim at head; an answer's moment is where
that queue, as it then stands, gives it (docs/PROMISES.md)."""

from bisect import insort
from typing import NamedTuple

SHOWN = 12  # items of a cell


class Cell(NamedTuple):
    """What waits from the middle of an entry's column on; the first ones, and how many there are. The first cell's entry is the one before the drawn part."""
    entry: int
    items: tuple
    count: int
    closed: bool

    def ways(self):
        """From the longest to the shortest; that it is closed is seen too."""
        items = ' '.join(self.items) + ' ..' * (self.count > len(self.items))
        if self.count < 2:
            shorter = (items,) if items else ('nothing', '-')
        else:
            shorter = items, f'{self.items[0]} .. ({self.count})', f'({self.count})'
        return (f'{shorter[0]} closed', *shorter) if self.closed else shorter


def cells_of(run):
    """By the claims and the closed times of the drawn part; to where items are no more followed."""
    changes, waiting, cells = [], [], []  # waiting: claim and item
    for life in run.lives:
        changes.append((life.begun, 1, life))
        if life.ended is not None:
            changes.append((life.ended, 0, life))
    changes += [(act.entry, 2, level.closed) for act, before, level in zip(run.acts, [run.before, *run.levels], run.levels) if before.closed != level.closed]
    closed, last = run.before.closed, run.last if run.left is None else run.left
    cell = Cell(run.first - 1, (), 0, closed)
    for entry, what, about in sorted(changes, key=lambda change: change[:2]):
        if entry > last:
            break
        if what == 2:
            closed = about
        elif what == 1:
            insort(waiting, (about.claim, about.item))
        else:
            waiting.remove((about.claim, about.item))
        now = Cell(max(entry, run.first - 1), tuple(item for _, item in waiting[:SHOWN]), len(waiting), closed)
        if now.entry > cell.entry:
            cells.append(cell)
        cell = now
    return [*cells, cell]
