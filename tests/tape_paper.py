"""A second reading of item 5 of the list of change requests: the writer and the reader of schedule tapes.

It is written from that text and from none of the crates, so that a line misread there is not misread alike here. What the text leaves
open is taken from docs/DECISIONS.md: the value of refusals 12 to 15 is the byte at which the field at fault begins (of 15, the first
byte after the end), of 17 the entry's place (0 for capacity and workers), of 11 it is 0, of 16 the length that there would be.
"""

import struct

ITEMS = (0, 1)
OTHERS = range(2, 10)


class Refused(Exception):
    def __init__(self, number, value):
        self.number, self.value = number, value


class Variant:
    """ "in the second the tag has 128 added and lengths and numbers are little-endian" """

    def __init__(self, name, order, added):
        self.name, self.order, self.added = name, order, added

    def tag(self, number):
        return bytes([number + self.added])

    def two(self, number):
        return struct.pack(self.order + 'H', number)

    def eight(self, number):
        return struct.pack(self.order + 'Q', number)

    def field(self, number, body=b''):
        return self.tag(number) + self.two(len(body)) + body


FIRST = Variant('first', '>', 0)
SECOND = Variant('second', '<', 128)
VARIANTS = (FIRST, SECOND)


def entries(words):
    return list(zip(words[0::2], words[1::2]))


# Writing

def unreadable(first, item):
    """Refusal 9 of document 01: code 10 to 15, or an item not 0 where it must be."""
    code = first & 15
    return code > 9 or (item != 0 and code not in ITEMS)


def tape(variant, capacity, workers, words):
    """ "The writer checks 11, 17, 16 in that order": the tape's bytes, or 11 or 17."""
    if len(words) & 1:
        raise Refused(11, 0)
    if max(capacity, workers) > 65535:
        raise Refused(17, 0)
    fields = [variant.field(1, variant.two(capacity) + variant.two(workers))]
    for place, (first, item) in enumerate(entries(words)):
        worker, code = divmod(first, 16)
        if unreadable(first, item) or worker > 15:
            raise Refused(17, place)
        both = bytes([code << 4 | worker])
        fields.append(variant.field(2, both + variant.eight(item)) if code in ITEMS else variant.field(3, both))
    fields.append(variant.field(4))
    return b''.join(fields)


def write(variant, capacity, workers, words, buffer):
    """Answers (0, count) or (refusal, value), and the buffer afterwards."""
    try:
        written = tape(variant, capacity, workers, words)
        if len(buffer) < len(written):
            raise Refused(16, len(written))
    except Refused as why:
        return (why.number, why.value), buffer
    return (0, len(written)), written + buffer[len(written):]


# Reading

LENGTHS = {1: 4, 2: 9, 3: 1, 4: 0}
CODES = {2: ITEMS, 3: OTHERS}


def fields(tape):
    """ "The reader goes left to right and gives the first fault; in one field, 12 precedes 13 only if tag or length bytes are missing,
    else 13, then 12, then 14." Gives each field's variant, tag and body."""
    at = 0
    variant = None
    tag = None
    while tag != 4:
        if len(tape) - at < 3:
            raise Refused(12, at)
        mine = FIRST if tape[at] < 128 else SECOND
        tag = tape[at] - mine.added
        (length,) = struct.unpack_from(mine.order + 'H', tape, at + 1)
        known = tag in LENGTHS and length == LENGTHS[tag]
        in_place = (tag == 1) == (at == 0)
        one_variant = variant in (None, mine)
        if not (known and in_place and one_variant):
            raise Refused(13, at)
        body = tape[at + 3:at + 3 + length]
        if len(body) < length:
            raise Refused(12, at)
        if tag in CODES and body[0] >> 4 not in CODES[tag]:
            raise Refused(14, at)
        variant = mine
        yield variant, tag, body
        at += 3 + length
    if at < len(tape):
        raise Refused(15, at)


def schedule(tape):
    """Variant, capacity, workers and words."""
    words = []
    for variant, tag, body in fields(tape):
        if tag == 1:
            capacity, workers = struct.unpack(variant.order + 'HH', body)
        elif tag != 4:
            worker, code = body[0] & 15, body[0] >> 4
            item = struct.unpack(variant.order + 'Q', body[1:])[0] if tag == 2 else 0
            words += [16 * worker + code, item]
    return variant, capacity, workers, words


def read(tape, buffer):
    """Answers (0, variant, capacity, workers, count) or (refusal, value), and the buffer afterwards."""
    try:
        variant, capacity, workers, words = schedule(tape)
        if len(buffer) < len(words):
            raise Refused(16, len(words))
    except Refused as why:
        return (why.number, why.value), buffer
    return (0, variant, capacity, workers, len(words)), words + buffer[len(words):]
