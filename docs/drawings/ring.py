#!/usr/bin/env python3
"""docs/drawings/ring.py > docs/drawings/ring.svg: the ring over claim numbers (docs/INVARIANT.md).

Above, the claims as a line: those from head to head + capacity are the ring's slots, each once. Below, the same slots as a wheel."""

from math import cos, pi, sin

from svg import GREY, HATCH, WHITE, Drawing

SLOTS = 8
HEAD, TAIL = 10, 15
HOLDS, HAND, AWAITS = GREY, HATCH, WHITE
# What stands in the slot of each claim of the ring: fill, who, stamp, value.
CELLS = {
    10: (HOLDS, 'holds', 'word 10 + 1', 'item 10'),
    11: (HOLDS, 'holds', 'word 11 + 1', 'item 11'),
    12: (HAND, 'P5', 'word 12', 'item 12'),
    13: (HOLDS, 'holds', 'word 13 + 1', 'item 13'),
    14: (HAND, 'P4', 'word 14', 'any'),
    15: (AWAITS, 'awaits', 'word 15', 'any'),
    16: (HAND, 'O4', 'word 8 + 1', 'item 8'),
    17: (AWAITS, 'awaits', 'word 17', 'any'),
}
FIRST, LAST = 8, 19
LEFT, WIDE, TOP, HIGH = 92, 76, 112, 46


def x_of(claim):
    return LEFT + (claim - FIRST) * WIDE


d = Drawing(1030, 670, 'The ring over claim numbers')
d.text(20, 28, 'The ring over claim numbers', anchor='start', size=17, weight='bold')
d.text(20, 48, f'capacity c = {SLOTS}; {HEAD} head claims and {TAIL} tail claims so far', anchor='start')

for claim in range(FIRST, LAST + 1):
    x = x_of(claim)
    if claim in CELLS:
        fill, who, stamp, value = CELLS[claim]
        d.box(x, TOP, WIDE, HIGH, fill)
        d.text(x + WIDE / 2, TOP + 28, who, plate=fill == HAND, weight='bold' if fill == HAND else 'normal')
        for row, said in enumerate((claim % SLOTS, stamp, value)):
            d.text(x + WIDE / 2, TOP + HIGH + 48 + 22 * row, said, size=11)
    else:
        d.box(x, TOP, WIDE, HIGH, WHITE, dash='3 4')
        d.text(x + WIDE / 2, TOP + 28, 'taken' if claim < HEAD else 'later', size=12)
    d.text(x + WIDE / 2, TOP + HIGH + 22, claim, weight='bold')
for row, said in enumerate(('claim k', 'slot k mod c', 'stamp', 'value')):
    d.text(LEFT - 8, TOP + HIGH + 22 + (26 + 22 * (row - 1) if row else 0), said, anchor='end', size=12)

for claim, said in ((HEAD, 'head h'), (TAIL, 'tail t'), (HEAD + SLOTS, 'h + c')):
    d.line(x_of(claim), TOP - 24, x_of(claim), TOP - 2, tip=True, width=2)
    d.text(x_of(claim), TOP - 29, said, weight='bold')

under = TOP + HIGH + 112
for start, end, said in ((HEAD, TAIL, 'claimed at tail, not yet at head'), (TAIL, HEAD + SLOTS, 'free, or about to be')):
    d.line(x_of(start) + 3, under, x_of(end) - 3, under, tip=True)
    d.line(x_of(end) - 3, under, x_of(start) + 3, under, tip=True)
    d.text((x_of(start) + x_of(end)) / 2, under + 18, said, size=12)

# The wheel: slot i at the top for 0, then clockwise.
CX, CY, OUTER, INNER = 250, 488, 142, 66


def at(turn, radius):
    return CX + radius * sin(2 * pi * turn), CY - radius * cos(2 * pi * turn)


for claim, (fill, who, _, _) in sorted(CELLS.items()):
    slot = claim % SLOTS
    (ax, ay), (bx, by) = at(slot / SLOTS, OUTER), at((slot + 1) / SLOTS, OUTER)
    (ex, ey), (fx, fy) = at((slot + 1) / SLOTS, INNER), at(slot / SLOTS, INNER)
    d.path(f'M {ax:.1f} {ay:.1f} A {OUTER} {OUTER} 0 0 1 {bx:.1f} {by:.1f} L {ex:.1f} {ey:.1f} A {INNER} {INNER} 0 0 0 {fx:.1f} {fy:.1f} Z', fill)
    x, y = at((slot + 0.5) / SLOTS, (OUTER + INNER) / 2)
    d.text(x, y + 5, claim, plate=fill == HAND, weight='bold')
    x, y = at((slot + 0.5) / SLOTS, INNER - 15)
    d.text(x, y + 4, slot, size=11)
d.text(CX, CY - 4, 'slot', size=11)
d.text(CX, CY + 10, 'numbers', size=11)
for claim, said in ((HEAD, 'head'), (TAIL, 'tail')):
    turn = claim % SLOTS / SLOTS
    (x1, y1), (x2, y2), (x, y) = at(turn, OUTER + 34), at(turn, OUTER + 3), at(turn, OUTER + 56)
    d.line(x1, y1, x2, y2, tip=True, width=2)
    d.text(x, y + 5, said, weight='bold')

d.legend(500, 350, (
    (HOLDS, '', 'holds item k: stamp word k + 1'),
    (AWAITS, '', 'awaits tail claim k: stamp word k'),
    (HAND, '', 'in the hand of one worker, by its place:'),
))
d.notes(536, 434, 22, (
    'P4, P5: claimed at tail; stamp still word k',
    'O4, O5: claimed at head as k - c; stamp still word (k - c) + 1',
    'F7: claimed at head as k - c, tail claim k next; the same stamp',
    'F8, F9: claimed at both; the same stamp',
))
d.legend(500, 536, ((WHITE, '3 4', 'no slot now: taken, or a later claim'),))
d.notes(500, 586, 22, (
    'word k = (k div c) x lap + (k mod c)',
    'h <= t <= h + c, and both only grow.',
    'From h to h + c every slot has exactly one claim number.',
))
print(d)
