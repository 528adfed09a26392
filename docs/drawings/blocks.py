#!/usr/bin/env python3
"""docs/drawings/blocks.py > docs/drawings/blocks.svg: the unbounded queue over positions (docs/INVARIANT.md).

A block has 31 slots and its end, which is no slot; drawn are blocks of five and an end."""

from svg import GREY, HATCH, WHITE, Drawing

SLOTS = 5
WIDE, HIGH, GAP, LEFT, TOP = 44, 42, 26, 40, 118
HEAD, TAIL = 9, 14  # positions, six to a block as drawn
DONE, HAND, HOLDS, OPEN = '#ffffff', HATCH, GREY, WHITE
# Of each slot: what the push and the pop of that position have done.
SAID = {
    0: 'read', 1: 'read', 2: 'read', 3: 'read', 4: 'read',
    6: 'read', 7: 'V10', 8: 'read', 9: 'item', 10: 'item', 12: 'U12', 13: 'item', 14: '', 15: '', 16: '',
}
BLOCKS = (('block 0', 'freed'), ('block 1', 'pool block 3'), ('block 2', 'pool block 0'))


def x_of(position):
    block, offset = divmod(position, SLOTS + 1)
    return LEFT + block * ((SLOTS + 1) * WIDE + GAP) + offset * WIDE


d = Drawing(950, 400, 'The unbounded queue over positions')
d.text(20, 28, 'The unbounded queue over positions', anchor='start', size=17, weight='bold')
d.text(20, 48, 'drawn with blocks of 5 slots and an end; the queue has 31 and an end', anchor='start')

for block, (name, pool) in enumerate(BLOCKS):
    start = block * (SLOTS + 1)
    for position in range(start, start + SLOTS):
        said = SAID[position]
        fill = HAND if said[:1] in ('U', 'V') else HOLDS if said == 'item' else OPEN
        d.box(x_of(position), TOP, WIDE, HIGH, fill, dash='3 4' if block == 0 else '')
        d.text(x_of(position) + WIDE / 2, TOP + 26, said, size=12, plate=fill == HAND, weight='bold' if fill == HAND else 'normal')
        d.text(x_of(position) + WIDE / 2, TOP + HIGH + 18, position, size=11)
    end = start + SLOTS
    d.box(x_of(end), TOP + 10, WIDE - 14, HIGH - 20, WHITE, dash='2 3')
    d.text(x_of(end) + WIDE / 2 - 7, TOP + 25, 'end', size=10)
    d.text(x_of(end) + WIDE / 2 - 7, TOP + HIGH + 18, end, size=11)
    d.text((x_of(start) + x_of(end)) / 2, TOP + HIGH + 42, f'{name}: {pool}', size=12)
    if block == 1:
        d.line(x_of(end) + WIDE - 12, TOP + HIGH / 2, x_of(end + 1) - 2, TOP + HIGH / 2, tip=True)
        d.text(x_of(end) + WIDE + 6, TOP + HIGH / 2 - 8, 'next', size=11)

for position, said in ((HEAD, 'head'), (TAIL, 'tail')):
    d.line(x_of(position), TOP - 26, x_of(position), TOP - 2, tip=True, width=2)
    d.text(x_of(position), TOP - 32, said, weight='bold')

y = TOP + HIGH + 62
d.line(x_of(6) + 2, y, x_of(HEAD) - 2, y)
d.text((x_of(6) + x_of(HEAD)) / 2, y + 16, 'pops claimed', size=12)
d.line(x_of(HEAD) + 2, y, x_of(TAIL) - 2, y)
d.text((x_of(HEAD) + x_of(TAIL)) / 2, y + 16, 'pushes claimed, not yet popped', size=12)
d.line(x_of(TAIL) + 2, y, x_of(17) - 2, y)
d.text((x_of(TAIL) + x_of(17)) / 2, y + 16, 'not claimed', size=12)

d.legend(40, 290, (
    (HOLDS, '', 'written, not yet claimed by a pop'),
    (HAND, '', 'in hand: U9 to U13 of a push, V6 to V12 of a pop'),
    (WHITE, '3 4', 'freed: no worker uses it'),
))
d.notes(520, 303, 24, (
    'head <= tail, and both only grow.',
    'A position is claimed once by a push and once by a pop.',
    'Block j is freed when every slot of it is read, and once.',
))
print(d)
