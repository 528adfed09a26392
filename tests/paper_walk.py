"""A second reading of document 02, item 10: every sequence of acts from a machine of the ring (paper.py), and the bytes that list them.

Written from the documents and from none of the crates. Which acts there are is asked of the machine itself: those that it does not refuse.
"""

import paper
from paper_entries import ACT_CODES, MOST_METER, busy

MOST_WORKERS = 3
MOST_DEPTH = 12


def accepted(machine):
    """The acts that a machine does not refuse, as (code, worker), each with the machine after it."""
    asked = [((code, number), *paper.act(machine, 16 * number + code, 0)) for number in range(machine.count) for code in ACT_CODES]
    return [(act, after) for act, refusal, after in asked if refusal == 0]


def changing(machine):
    """What an act can change. Its meter says how many acts of a walk are left."""
    ring = machine.ring
    return machine.meter, ring.head, ring.tail, *ring.slots[:ring.capacity], *machine.workers[:machine.count]


def sequences(machine, depth, met=None):
    """Each sequence, a byte for each act, and the machine at its end. met has what follows the machines that this walk met before: many acts lead to
    the same."""
    met = {} if met is None else met
    if depth == 0 or not any(map(busy, machine.workers)):
        return [(b'', machine)]
    now = changing(machine)
    if now not in met:
        met[now] = [(bytes((16 * code + number, *acts)), end)
                    for (code, number), after in accepted(machine) for acts, end in sequences(after, depth - 1, met)]
    return met[now]


def counted(machine, depth, met=None):
    """How many sequences there are, and how many acts in all of them, without the sequences: for lists that are too long to be made here."""
    met = {} if met is None else met
    if depth == 0 or not any(map(busy, machine.workers)):
        return 1, 0
    now = depth, changing(machine)
    if now not in met:
        after = [counted(machine, depth - 1, met) for _, machine in accepted(machine)]
        met[now] = sum(number for number, _ in after), sum(number + acts for number, acts in after)
    return met[now]


def refusal_of(machine, depth):
    """Of a walk without a buffer: 6, 19, 20, 21 or 0."""
    if paper.broken(machine):
        return 6
    if machine.count > MOST_WORKERS or depth > MOST_DEPTH:
        return 19
    if not all(map(busy, machine.workers[:machine.count])):
        return 20
    # A meter above its most has no act left, and not fewer than none.
    if max(MOST_METER - machine.meter, 0) < depth:
        return 21
    return 0


def sizes(machine, depth, met=None):
    """The refusal or 0, the number of sequences, and the bytes of their list."""
    refusal = refusal_of(machine, depth)
    if refusal != 0:
        return refusal, 0, 0
    lengths = [1 + len(acts) for acts, _ in sequences(machine, depth, met)]
    return 0, len(lengths), sum(lengths)


def walk(machine, depth, buffer, met=None):
    """The refusal or 0, the number of sequences, and the buffer."""
    refusal = refusal_of(machine, depth)
    if refusal != 0:
        return refusal, 0, buffer
    lists = [bytes((len(acts), *acts)) for acts, _ in sequences(machine, depth, met)]
    whole = b''.join(lists)
    if len(buffer) < len(whole):
        return 22, 0, buffer
    return 0, len(lists), whole + buffer[len(whole):]
