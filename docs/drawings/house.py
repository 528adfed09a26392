#!/usr/bin/env python3
"""docs/drawings/house.py > docs/drawings/house.svg: the families of crates and who uses whom (docs/ARCHITECTURE.md).

Boxes, their counts and the arrows are those of crates.txt. An arrow that others lead along already is left out. Where boxes stand and which
way an arrow takes is said here; a crate without a box, an arrow without a way and a way without an arrow end the script with an error."""

import sys
from pathlib import Path

sys.dont_write_bytecode = True
sys.path.append(str(Path(__file__).resolve().parent.parent.parent / 'tests'))
from family import kind_of, listed
from svg import GREY, WHITE, Drawing

COLUMNS = {'bounded': 116, 'single': 284, 'unbounded': 452, 'tapes': 620}
TITLES = {'bounded': 'ring', 'single': 'one-slot queue', 'unbounded': 'unbounded queue', 'tapes': 'schedule tapes'}
WIDE, NARROW, HIGH = 160, 136, 54
DROP = WIDE - 12  # where an arrow from the right comes down on a machine
RIGHT, HALF, GAP = 804, 124, 16
PROGRAMS, PROOFS, STATEMENTS, TEXTS, MACHINES, SHARED = 100, 100, 200, 320, 430, 530
LIBRARIES = STATEMENTS
# The lines that several arrows share, below the libraries.
TO_TAPES, TO_QUEUES, OF_EXPORTS = 288, TEXTS + HIGH / 2, TEXTS + HIGH - 12


def box_of(name):
    """The box that a crate is drawn in."""
    kind, of = kind_of(name)
    first = name.split('_')[0]
    if kind in ('machine', 'statement', 'proof'):
        return kind, of
    if kind == 'program':
        return ('shows',) if '_shows_' in name else ('programs',)
    if kind == 'library':
        return ('texts',) if of else (first,) if first == 'text' else ('libraries',)
    return (kind,)


# Where each box stands, its fill, and what is written in it above the count of its crates.
BOXES = {
    ('shared',): (COLUMNS['bounded'], SHARED, COLUMNS['tapes'] + WIDE - COLUMNS['bounded'], WHITE, 'queue_..: what every queue shares'),
    ('programs',): (RIGHT, PROGRAMS, HALF, WHITE, 'replay, tape, walk'),
    ('libraries',): (RIGHT, LIBRARIES, HALF, WHITE, 'replay_.. tape_..\nwalk_..'),
    ('shows',): (RIGHT + HALF + GAP, LIBRARIES, HALF, WHITE, '.._shows_..\nfor tests'),
    ('texts',): (RIGHT, TEXTS, 2 * HALF + GAP, WHITE, '.._text..: machines as text'),
    ('text',): (RIGHT, MACHINES, 2 * HALF + GAP, WHITE, 'text_..: text out, numbers in'),
    ('export',): (12, TEXTS, 80, WHITE, '.._c\nbench_..'),
}
for queue, x in COLUMNS.items():
    BOXES['machine', queue] = (x, MACHINES, WIDE, WHITE, f'{queue}..')
    BOXES['statement', queue] = (x, STATEMENTS, NARROW, GREY, f'{queue}_demands')
    BOXES['proof', queue] = (x, PROOFS, NARROW, GREY, f'{queue}_proof_..')


def down(above, below, x):
    return [(x, BOXES[above][1] + HIGH), (x, BOXES[below][1])]


# The way of each arrow; a bend at each point.
WAYS = {
    (('programs',), ('libraries',)): down(('programs',), ('libraries',), RIGHT + HALF / 2),
    (('libraries',), ('texts',)): down(('libraries',), ('texts',), RIGHT + HALF - 24),
    (('shows',), ('texts',)): down(('shows',), ('texts',), RIGHT + 2 * HALF + GAP - 24),
    (('texts',), ('text',)): down(('texts',), ('text',), RIGHT + HALF + GAP / 2),
}
for queue, x in COLUMNS.items():
    WAYS[('proof', queue), ('statement', queue)] = down(('proof', queue), ('statement', queue), x + NARROW / 2)
    WAYS[('statement', queue), ('machine', queue)] = down(('statement', queue), ('machine', queue), x + NARROW / 2)
    WAYS[('machine', queue), ('shared',)] = down(('machine', queue), ('shared',), x + WIDE / 2)
    WAYS[('export',), ('machine', queue)] = [(92, OF_EXPORTS), (x + 24, OF_EXPORTS), (x + 24, MACHINES)]
    if queue != 'tapes':
        WAYS[('texts',), ('machine', queue)] = [(RIGHT, TO_QUEUES), (x + DROP, TO_QUEUES), (x + DROP, MACHINES)]
for above, x in (('libraries', RIGHT + 24), ('shows', RIGHT + HALF + GAP + 24)):
    to = COLUMNS['tapes'] + DROP
    WAYS[(above,), ('machine', 'tapes')] = [(x, LIBRARIES + HIGH), (x, TO_TAPES), (to, TO_TAPES), (to, MACHINES)]

uses = listed()
counts, seen = {}, {}
for name, deps in uses.items():
    box = box_of(name)
    if box not in BOXES:
        sys.exit(f'house.py: no box for crate {name}')
    counts[box] = counts.get(box, 0) + 1
    seen.setdefault(box, set()).update(box_of(dep) for dep in deps)


def below(box):
    """Every box that this one comes to by one arrow or more."""
    found, left = set(), [box]
    while left:
        for other in seen[left.pop()]:
            if other not in found:
                found.add(other)
                left.append(other)
    return found


for box in seen:
    seen[box].discard(box)
for box in seen:
    if box in below(box):
        sys.exit(f'house.py: {" ".join(box)} uses itself by way of others')
arrows = {(box, to) for box in seen for to in seen[box] if not any(to in below(other) for other in seen[box])}
for box in BOXES.keys() - counts.keys():
    sys.exit(f'house.py: a box for {" ".join(box)}, and no crate')
for box, to in sorted(arrows ^ WAYS.keys()):
    sys.exit(f'house.py: {" ".join(box)} to {" ".join(to)}: ' + ('no way is drawn for this arrow' if (box, to) in arrows else 'a way, and no arrow'))

d = Drawing(1080, 680, 'The house: families of crates')
d.text(12, 28, 'The house: families of crates, and who uses whom', anchor='start', size=17, weight='bold')
d.text(12, 50, f'{len(uses)} crates. An arrow says "uses"; what is used by way of another box has no arrow of its own. Lines that cross do not meet.', anchor='start')
for queue, x in COLUMNS.items():
    d.text(x, 84, TITLES[queue], anchor='start', weight='bold')
d.text(RIGHT, 84, 'programs and their libraries', anchor='start', weight='bold')
for y, label in ((PROOFS, 'proofs'), (STATEMENTS, 'statements'), (MACHINES, 'machines'), (SHARED, 'shared')):
    d.text(12, y + HIGH / 2 + 5, label, anchor='start', weight='bold')

for (box, to), way in sorted(WAYS.items()):
    for n, ((x1, y1), (x2, y2)) in enumerate(zip(way, way[1:])):
        d.line(x1, y1, x2, y2, tip=n == len(way) - 2)
for box, (x, y, wide, fill, text) in BOXES.items():
    d.box(x, y, wide, HIGH, fill)
    slips = any(box_of(name) == box and name.endswith('_slips') for name in uses)
    lines = [*text.split('\n'), ('1 crate' if counts[box] == 1 else f'{counts[box]} crates') + (' with slips' if slips else '')]
    for n, line in enumerate(lines):
        d.text(x + wide / 2, y + HIGH / 2 + 4 + 16 * (n - (len(lines) - 1) / 2), line, size=12)

d.legend(12, 616, ((GREY, '', 'statements and proofs, no code'), (WHITE, '', 'code with its definitions; in queue_.. also laws alone')))
print(d)
