"""A second reading of `walk --explain`, from docs/REFERENCE.md ("Endings in words"): the endings of a walk, the words for each, and the first of the shortest ways
there as a schedule. The sequences are those of tests/paper_walk.py, a schedule's words those of tests/paper_words.py; nothing is from the crates."""

import paper
import paper_walk
import paper_words
from paper_entries import busy

MOST_ENDINGS = 512
PLACES = {'is_empty1': 'empty1', 'is_empty2': 'empty2', 'is_full1': 'full1', 'is_full2': 'full2', 'is_closed1': 'isclosed1'}
WITH_ITEM = {'Full': 'full, {} not pushed', 'Closed': 'closed, {} not pushed', 'Displaced': 'displaced {}', 'Popped': 'popped {}', 'Len': 'len {}'}


def ended(worker):
    """What a worker got; of one that is busy only that."""
    if busy(worker):
        return 'busy'
    name, *items = worker.answer
    return WITH_ITEM[name].format(*items) if items else name.lower()


def stands(ring, worker):
    if not busy(worker):
        return ended(worker)
    word = worker.h if worker.place.startswith('O') else worker.t
    hand = f', slot {paper.index(ring, word)} in its hand' if worker.place in paper.IN_HAND else ''
    return f'busy, here at {PLACES.get(worker.place, worker.place)}{hand}'


def endings(machine, depth):
    """Each way in which all workers together end, in the order in which they come: how many sequences do, the acts of the first of the shortest, and the
    machine that it leaves. And how many sequences there are."""
    found, total = {}, 0
    for acts, end in paper_walk.sequences(machine, depth):
        total += 1
        how = tuple(map(ended, end.workers[:end.count]))
        times, shortest, left = found.get(how, (0, acts, end))
        found[how] = (times + 1, *((acts, end) if len(acts) < len(shortest) else (shortest, left)))
    return list(found.values()), total


def way(number, times, acts, left, numbers, edition):
    """The schedule to one ending, with what it is in comments."""
    workers = enumerate(left.workers[:left.count])
    entries = [(16 * (act % 16) + act // 16, 0) for act in acts]
    return ''.join((
        f'# ending {number}: sequences {times}, acts of the shortest {len(acts)}\n',
        *(f'#   w{which}  {stands(left.ring, worker)}\n' for which, worker in workers),
        '' if edition == 1 else f'# for replay --edition {edition}\n',
        paper_words.words(numbers),
        '# and from here\n',
        *(paper_words.line_of(*row) for row in ((times, *entry) for times, entry in paper_words.gathered(entries))),
    ))


def ways(numbers, edition=1, depth=paper_walk.MOST_DEPTH):
    """The first line of --explain, and the schedule to each ending."""
    capacity, count, *words = numbers
    machine = paper.run(paper.make(capacity, count, edition)[1], words)[2]
    found, total = endings(machine, depth)
    more = sum(times for times, *_ in found[MOST_ENDINGS:])
    found = found[:MOST_ENDINGS]
    header = f'# walked: sequences {total}, acts at most {depth}, endings {len(found)}\n' + (f'# sequences that end otherwise {more}\n' if more else '')
    return header, [way(number, *ending, numbers, edition) for number, ending in enumerate(found, 1)]
