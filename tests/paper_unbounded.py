"""A second reading of the unbounded queue: request 12 of document 02, the table of its issue, and the source, src/unbounded.rs.

It is written from those and from none of the crates, as paper.py is. Push has the places U1 to U15, pop V1 to V15; the other calls'
loads are numbered. t and h are index words; b, n, next, and push's new, are block numbers or None; n is the block set aside.
"""

from dataclasses import dataclass, replace
from typing import NamedTuple, Optional

from paper_entries import MOST_WORKERS, Entries, busy, busy_past_the_count, out_of_limits

WIDE = 2**64
BLOCKS = 64
SLOTS = 31
LAST_SLOT = SLOTS - 1

# Bits of a slot's state
WRITE = 1
READ = 2
DESTROY = 4


# Index words: twice the position, and a mark. A block covers 32 positions, the last of which is no slot.

def position(word):
    return word // 2


def offset(word):
    return position(word) % (SLOTS + 1)


def block_number(word):
    return position(word) // (SLOTS + 1)


def marked(word):
    return word % 2 == 1


def unmarked(word):
    return word - word % 2


def onward(word):
    return (word + 2) % WIDE


class Slot(NamedTuple):
    state: int = 0
    value: int = 0


class Block(NamedTuple):
    next: Optional[int] = None
    slots: tuple = (Slot(),) * SLOTS


@dataclass
class Queue:
    head: int
    head_block: Optional[int]
    tail: int
    tail_block: Optional[int]
    blocks: list
    taken: frozenset


# The words held at each place, in the order of the table
WORDS = {
    'U1': ('n', 'item'), 'U2': ('n', 't', 'item'), 'U3': ('t', 'b', 'item'), 'U4': ('n', 't', 'item'), 'U5': ('n', 't', 'new', 'item'),
    'U6': ('n', 't', 'new', 'item'), 'U7': ('n', 't', 'b', 'item'), 'U8': ('n', 't', 'item'), 'U9': ('n', 't', 'b', 'item'),
    'U10': ('n', 't', 'b', 'item'), 'U11': ('n', 't', 'b', 'item'), 'U12': ('n', 't', 'b', 'item'), 'U13': ('n', 't', 'b'),
    'U14': ('n', 'answer'), 'U15': ('n', 'new', 'item'),
    'V1': (), 'V2': ('h',), 'V3': ('h', 'b'), 'V4': ('h', 'b', 'new'), 'V5': ('h',), 'V6': ('h', 'b', 'new'),
    'V7': ('h', 'b', 'new', 'next'), 'V8': ('h', 'b', 'next', 'index'), 'V9': ('h', 'b', 'index'), 'V10': ('h', 'b'), 'V11': ('h', 'b'),
    'V12': ('h', 'b', 'value'), 'V13': ('b', 'i', 'value'), 'V14': ('b', 'i', 'value'), 'V15': ('b', 'value'),
    'len1': (), 'len2': ('t',), 'len3': ('t', 'h'), 'is_empty1': (), 'is_empty2': ('h',), 'is_full1': (), 'close1': (), 'is_closed1': (),
}


@dataclass(frozen=True)
class Worker:
    """A record: idle with its last answer, or in a call. A word that it does not hold is None. At U14 answer is the one to come."""
    call: Optional[str] = None
    place: str = 'idle'
    item: int = 0
    n: Optional[int] = None
    t: Optional[int] = None
    h: Optional[int] = None
    b: Optional[int] = None
    new: Optional[int] = None
    next: Optional[int] = None
    index: Optional[int] = None
    i: Optional[int] = None
    value: Optional[int] = None
    answer: tuple = ('None',)


@dataclass
class Machine:
    queue: Queue
    workers: list
    count: int
    meter: int


def blank():
    queue = Queue(head=0, head_block=None, tail=0, tail_block=None, blocks=[Block()] * BLOCKS, taken=frozenset())
    return Machine(queue, workers=[Worker()] * MOST_WORKERS, count=0, meter=0)


def fresh(count):
    return replace(blank(), count=count)


def copy_of(machine):
    queue = machine.queue
    copied = Queue(queue.head, queue.head_block, queue.tail, queue.tail_block, list(queue.blocks), queue.taken)
    return Machine(copied, list(machine.workers), machine.count, machine.meter)


# The pool

def none_free(queue):
    return len(queue.taken) == BLOCKS


def take(queue):
    number = min(number for number in range(BLOCKS) if number not in queue.taken)
    queue.taken |= {number}
    queue.blocks[number] = Block()
    return number


def free(queue, number):
    queue.taken -= {number}


def slot_at(queue, block, i):
    return queue.blocks[block].slots[i]


def put(queue, block, i, slot):
    slots = queue.blocks[block].slots
    queue.blocks[block] = queue.blocks[block]._replace(slots=slots[:i] + (slot,) + slots[i + 1:])


def set_bit(queue, block, i, bit):
    """Gives the state found."""
    slot = slot_at(queue, block, i)
    put(queue, block, i, slot._replace(state=slot.state | bit))
    return slot.state


# Acts. Each may change the queue and returns the worker's record after it; `fails` is code 9.

def answers(*answer):
    return Worker(answer=answer)


def yes_if(true):
    return answers('Yes' if true else 'No')


def go(worker, place, **given):
    """The worker at a place, with the words of that place: those given, and of the others what it held."""
    held = {word: given[word] if word in given else getattr(worker, word) for word in WORDS[place]}
    return Worker(worker.call, place, **held)


def push_answers(worker, *answer):
    """A block set aside goes back as the call's last act."""
    return answers(*answer) if worker.n is None else go(worker, 'U14', answer=answer)


def top_of_push(worker):
    if marked(worker.t):
        return push_answers(worker, 'Closed', worker.item)
    if offset(worker.t) == SLOTS:
        return go(worker, 'U1')
    if offset(worker.t) == LAST_SLOT and worker.n is None:
        return go(worker, 'U3')
    return go(worker, 'U4' if worker.b is None else 'U7')


def u1(queue, worker, fails):
    return go(worker, 'U2', t=queue.tail)


def u2(queue, worker, fails):
    return top_of_push(replace(worker, b=queue.tail_block))


def u3(queue, worker, fails):
    return go(worker, 'U4' if worker.b is None else 'U7', n=take(queue))


def u4(queue, worker, fails):
    return go(worker, 'U5', new=take(queue))


def u5(queue, worker, fails):
    if queue.tail_block is None:
        queue.tail_block = worker.new
        return go(worker, 'U6')
    return go(worker, 'U1', n=worker.new) if worker.n is None else go(worker, 'U15')


def u6(queue, worker, fails):
    queue.head_block = worker.new
    return go(worker, 'U7', b=worker.new)


def u7(queue, worker, fails):
    if fails or queue.tail != worker.t:
        return go(worker, 'U8', t=queue.tail)
    queue.tail = onward(worker.t)
    return go(worker, 'U9' if offset(worker.t) == LAST_SLOT else 'U12')


def u9(queue, worker, fails):
    queue.tail_block = worker.n
    return go(worker, 'U10')


def u10(queue, worker, fails):
    queue.tail = onward(queue.tail)
    return go(worker, 'U11')


def u11(queue, worker, fails):
    queue.blocks[worker.b] = queue.blocks[worker.b]._replace(next=worker.n)
    return go(worker, 'U12', n=None)


def u12(queue, worker, fails):
    i = offset(worker.t)
    put(queue, worker.b, i, slot_at(queue, worker.b, i)._replace(value=worker.item))
    return go(worker, 'U13')


def u13(queue, worker, fails):
    set_bit(queue, worker.b, offset(worker.t), WRITE)
    return push_answers(worker, 'Pushed')


def u14(queue, worker, fails):
    free(queue, worker.n)
    return answers(*worker.answer)


def u15(queue, worker, fails):
    free(queue, worker.n)
    return go(worker, 'U1', n=worker.new)


def v1(queue, worker, fails):
    return go(worker, 'V2', h=queue.head)


def v2(queue, worker, fails):
    h, b = worker.h, queue.head_block
    if offset(h) == SLOTS:
        return go(worker, 'V1')
    if not marked(h):
        return go(worker, 'V3', b=b)
    return go(worker, 'V1') if b is None else go(worker, 'V4', b=b, new=onward(h))


def v3(queue, worker, fails):
    h, tail = worker.h, queue.tail
    if position(h) == position(tail):
        return answers('Closed') if marked(tail) else answers('Empty')
    new = onward(h)
    if block_number(h) != block_number(tail):
        new |= 1
    return go(worker, 'V1') if worker.b is None else go(worker, 'V4', new=new)


def v4(queue, worker, fails):
    if fails or queue.head != worker.h:
        return go(worker, 'V5', h=queue.head)
    queue.head = worker.new
    return go(worker, 'V6' if offset(worker.h) == LAST_SLOT else 'V10')


def v6(queue, worker, fails):
    found = queue.blocks[worker.b].next
    return worker if found is None else go(worker, 'V7', next=found)


def v7(queue, worker, fails):
    index = onward(unmarked(worker.new))
    if queue.blocks[worker.next].next is not None:
        index |= 1
    return go(worker, 'V8', index=index)


def v8(queue, worker, fails):
    queue.head_block = worker.next
    return go(worker, 'V9')


def v9(queue, worker, fails):
    queue.head = worker.index
    return go(worker, 'V10')


def v10(queue, worker, fails):
    return go(worker, 'V11') if slot_at(queue, worker.b, offset(worker.h)).state & WRITE else worker


def destroy_from(worker, i):
    return go(worker, 'V13', i=i) if i < LAST_SLOT else go(worker, 'V15')


def v11(queue, worker, fails):
    read = replace(worker, value=slot_at(queue, worker.b, offset(worker.h)).value)
    return destroy_from(read, 0) if offset(worker.h) == LAST_SLOT else go(read, 'V12')


def v12(queue, worker, fails):
    found = set_bit(queue, worker.b, offset(worker.h), READ)
    return destroy_from(worker, offset(worker.h) + 1) if found & DESTROY else answers('Popped', worker.value)


def v13(queue, worker, fails):
    read = slot_at(queue, worker.b, worker.i).state & READ
    return destroy_from(worker, worker.i + 1) if read else go(worker, 'V14')


def v14(queue, worker, fails):
    found = set_bit(queue, worker.b, worker.i, DESTROY)
    return destroy_from(worker, worker.i + 1) if found & READ else answers('Popped', worker.value)


def v15(queue, worker, fails):
    free(queue, worker.b)
    return answers('Popped', worker.value)


def count_of(head, tail):
    """As the source computes it: a position that is no slot counts as the next one, and sums wrap."""
    head, tail = unmarked(head), unmarked(tail)
    if offset(tail) == SLOTS:
        tail = onward(tail)
    if offset(head) == SLOTS:
        head = onward(head)
    before = 2 * (SLOTS + 1) * block_number(head)
    head, tail = position((head - before) % WIDE), position((tail - before) % WIDE)
    return (tail - head - tail // (SLOTS + 1)) % WIDE


def len1(queue, worker, fails):
    return go(worker, 'len2', t=queue.tail)


def len2(queue, worker, fails):
    return go(worker, 'len3', h=queue.head)


def len3(queue, worker, fails):
    return answers('Len', count_of(worker.h, worker.t)) if queue.tail == worker.t else go(worker, 'len1')


def is_empty1(queue, worker, fails):
    return go(worker, 'is_empty2', h=queue.head)


def is_empty2(queue, worker, fails):
    return yes_if(position(worker.h) == position(queue.tail))


def is_full1(queue, worker, fails):
    return yes_if(False)


def close1(queue, worker, fails):
    found = queue.tail
    queue.tail = found | 1
    return yes_if(not marked(found))


def is_closed1(queue, worker, fails):
    return yes_if(marked(queue.tail))


ACTS = {
    'U1': u1, 'U2': u2, 'U3': u3, 'U4': u4, 'U5': u5, 'U6': u6, 'U7': u7, 'U8': u2, 'U9': u9, 'U10': u10, 'U11': u11, 'U12': u12,
    'U13': u13, 'U14': u14, 'U15': u15,
    'V1': v1, 'V2': v2, 'V3': v3, 'V4': v4, 'V5': v2, 'V6': v6, 'V7': v7, 'V8': v8, 'V9': v9, 'V10': v10, 'V11': v11, 'V12': v12,
    'V13': v13, 'V14': v14, 'V15': v15,
    'len1': len1, 'len2': len2, 'len3': len3, 'is_empty1': is_empty1, 'is_empty2': is_empty2, 'is_full1': is_full1, 'close1': close1,
    'is_closed1': is_closed1,
}
FIRST_PLACES = {
    'push': 'U1', 'pop': 'V1', 'len': 'len1', 'is_empty': 'is_empty1', 'is_full': 'is_full1', 'close': 'close1',
    'is_closed': 'is_closed1',
}
WEAK_EXCHANGES = ('U7', 'V4')
TAKING = ('U3', 'U4')


# What an answer means: which acts change the plain queue, and which moment is an answer's. The table stands in docs/DIFFERENTIAL.md.

class Plainly:
    capacity = None
    puts = ('U7', 'U9'), ('U7', 'U12')
    takes = ('V4', 'V6'), ('V4', 'V10')
    opens = holds = lets_go = ()

    def forbids(self, story, call, way):
        queue = story.queues[-1]
        return (way in self.puts and queue.closed) or (way in self.takes and queue.waiting() == 0)

    def moment(self, story, call, answer):
        if answer[0] == 'Pushed':
            return story.own(call, *self.puts)
        if call.name == 'push' and answer[0] == 'Closed':
            return story.own(call, ('U1', 'U2'), ('U7', 'U8'))
        if answer[0] == 'Popped':
            return story.own(call, *self.takes)
        if call.name == 'len':
            return story.own(call, ('len2', 'len3'))
        if call.name == 'is_empty' and answer == ('No',):
            loaded = story.own(call, ('is_empty1', 'is_empty2'))
            return loaded if story.queue_at(loaded).waiting() > 0 else story.first_after(loaded, self.puts)
        return story.last(call)

    def answers_no_of_empty(self, story, call, answer):
        """Nothing waited at its load of head and nothing came in since, but head's index stood at a block's end: a pop that has claimed the block's last slot
        has not stored the index behind it yet."""
        if call.name != 'is_empty' or answer != ('No',):
            return False
        loaded = story.own(call, ('is_empty1', 'is_empty2'))
        return offset(story.entries[loaded.place].left.h) == SLOTS


# Broken: "a worker count out of limits, a busy record past it, or a next act (but taking), or with all idle Drop's walk, that uses a free
# block, no block or a slot past 30". Used is a block of which a word or a value is read or written, or which is freed; and the block
# set aside at U9, where the source unwraps it.

# The word that names the block, and the slot used in it
USES = {
    'U9': ('n', None), 'U11': ('b', None), 'U12': ('b', lambda w: offset(w.t)), 'U13': ('b', lambda w: offset(w.t)), 'U14': ('n', None),
    'U15': ('n', None), 'V6': ('b', None), 'V7': ('next', None), 'V10': ('b', lambda w: offset(w.h)), 'V11': ('b', lambda w: offset(w.h)),
    'V12': ('b', lambda w: offset(w.h)), 'V13': ('b', lambda w: w.i), 'V14': ('b', lambda w: w.i), 'V15': ('b', None),
}


def next_act_amiss(queue, worker):
    if worker.place not in USES:
        return False
    block, slot = USES[worker.place]
    return getattr(worker, block) not in queue.taken or (slot is not None and slot(worker) >= SLOTS)


def drops(queue):
    """What Drop's walk meets, or None if it uses a block that is free, none, or dropped by it before."""
    head, tail, block = unmarked(queue.head), unmarked(queue.tail), queue.head_block
    left = set(queue.taken)
    items = []
    while head != tail:
        if block not in left:
            return None
        if offset(head) < SLOTS:
            items.append(slot_at(queue, block, offset(head)).value)
        else:
            left.remove(block)
            block = queue.blocks[block].next
        head = onward(head)
    return None if block is not None and block not in left else items


def broken(machine):
    if out_of_limits(machine.count, MOST_WORKERS) or busy_past_the_count(machine):
        return True
    at_work = [worker for worker in machine.workers if busy(worker)]
    if not at_work:
        return drops(machine.queue) is None
    return any(next_act_amiss(machine.queue, worker) for worker in at_work)


def make(count):
    if out_of_limits(count, MOST_WORKERS):
        return 2, blank()
    return 0, fresh(count)


def begun(call, item):
    return Worker(call, FIRST_PLACES[call], item)


def act_of(machine, worker, fails):
    return ACTS[worker.place](machine.queue, worker, fails)


def lacks_a_block(machine, worker):
    return worker.place in TAKING and none_free(machine.queue)


def items_of(machine):
    return drops(machine.queue)


ENTRIES = Entries(broken, copy_of, begun, act_of, items_of, WEAK_EXCHANGES, calls_missing=('force_push',), lacks_a_block=lacks_a_block)
begin, act, step, run, contents = ENTRIES.begin, ENTRIES.act, ENTRIES.step, ENTRIES.run, ENTRIES.contents


def capacity(machine):
    """The refusal or 0; the crate's dispatch answers that there is none."""
    return (6, None) if broken(machine) else (0, None)
