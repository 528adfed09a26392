"""The files of an archive: which there are, and what each holds, as the text of a schedule."""

import os
import re
import struct

TAPE, TEXT, RECORD = b'.tape', b'.txt', b'.out'


# Which files there are

def is_taken(name):
    return name.endswith((TAPE, TEXT))


def entries_of(folder, found):
    """What a folder has, the last name first, each with whether it is a folder itself. Of records only those whose tape or schedule is gone are of use here: each is
    told as the file that is not there, and with no entry."""
    try:
        with os.scandir(folder) as entries:
            all_of = sorted([(entry.name, entry.is_dir(follow_symlinks=False), entry.path) for entry in entries], reverse=True)
    except OSError as why:
        found.troubled(folder, why)
        return []
    there = {name for name, is_folder, _ in all_of if not is_folder}
    for name, is_folder, path in reversed(all_of):
        file = name[:-len(RECORD)]
        if name.endswith(RECORD) and not is_folder and is_taken(file) and file not in there:
            found.without_file(path[:-len(RECORD)])
    return [(name, is_folder, path) for name, is_folder, path in all_of if is_folder or not name.endswith(RECORD)]


def below(place, found):
    """Every tape and schedule below it, in the order of their names; a file that is named itself is taken whatever its name, and if it is not there."""
    if not os.path.isdir(place):
        yield place
        return
    waiting = entries_of(place, found)  # folders may be deeper than calls
    while waiting:
        name, is_folder, path = waiting.pop()
        if is_folder:
            waiting += entries_of(path, found)
        elif is_taken(name):
            yield path
        else:
            found.left_aside(path)


def seen_of(path):
    """Sizes and times of a file and its record, by which a change is known."""
    def about(name, follow):
        try:
            told = os.stat(name, follow_symlinks=follow)
        except OSError:
            return [0, 0]
        return [told.st_size, told.st_mtime_ns]
    return about(path, True) + about(path + RECORD, False)


# What a file holds

def first_of(byte):
    """An entry's first number; the code stands high in the byte and the worker low."""
    return 16 * (byte & 15) + (byte >> 4)


ACTS = [b'%d 0\n' % first_of(byte) for byte in range(256)]


class Variant:
    def __init__(self, order, added):
        def field(number, length):
            return bytes([number + added]) + struct.pack(order + 'H', length)
        self.numbers = struct.Struct(order + 'HH')
        self.item = struct.Struct(order + 'Q')
        self.begins, self.ends = field(1, 4), field(4, 0)
        with_item, without = field(2, 9), field(3, 1)
        self.tag_with_item = with_item[0]
        # entries without an item, as many as stand together, or one with its item: codes 2 to 9, or 0 and 1
        self.stretch = re.compile(b'(?:' + re.escape(without) + rb'[\x20-\x9f])+|' + re.escape(with_item) + rb'[\x00-\x1f].{8}', re.DOTALL)

    def text_of(self, stretch):
        if stretch[0] == self.tag_with_item:
            return b'%d %d\n' % (first_of(stretch[3]), *self.item.unpack_from(stretch, 4))
        return b''.join(map(ACTS.__getitem__, stretch[3::4]))


VARIANTS = Variant('>', 0), Variant('<', 128)
HEAD, END = 7, 3


def text_of_tape(data, capacity_too):
    """The schedule of a tape without fault. None where there is any doubt: the program itself says then what it is."""
    for variant in VARIANTS:
        end = len(data) - END
        if data.startswith(variant.begins) and end >= HEAD and data.endswith(variant.ends):
            stretches = variant.stretch.findall(data, HEAD, end)
            if sum(map(len, stretches)) == end - HEAD:
                numbers = variant.numbers.unpack_from(data, 3)
                head = b'%d %d\n' % numbers if capacity_too else b'%d\n' % numbers[1]
                return head + b''.join(map(variant.text_of, stretches))
    return None


COMMENT = re.compile(rb'#[^\n]*')
LONG = re.compile(rb'[0-9]{20}')


def text_of_schedule(data):
    """The text if it is a schedule beyond doubt, so that it can stand among others; else None."""
    numbers = COMMENT.sub(b'', data) if b'#' in data else data
    if numbers.translate(None, b'0123456789 \t\r\n') or LONG.search(numbers) or len(numbers.split(None, 2)) < 2:
        return None
    return data if data.endswith(b'\n') else data + b'\n'


def is_tape(path, data):
    if path.endswith((TAPE, TEXT)):
        return path.endswith(TAPE)
    return data[:1] in (b'\x01', b'\x81')


# A mark between schedules is a line with % alone, as replay --many reads it: blanks may follow, a carriage return among them.
MARK = re.compile(rb'\n%[ \t\r\v\f]*\n')
MARK_BEGUN = re.compile(rb'\n%[ \t\r\v\f]*')
PIECE = 1 << 18


def has_mark(fd):
    """Whether there is a mark anywhere, read piece by piece."""
    at, line = 0, b'\n'  # of the line that is not at its end yet: all that a mark can have
    while piece := os.pread(fd, PIECE, at):
        at += len(piece)
        text = line + piece
        if MARK.search(text):
            return True
        begun = text[max(text.rfind(b'\n'), 0):]
        line = begun if begun == b'\n' else b'\n%' if MARK_BEGUN.fullmatch(begun) else b''
    return line == b'\n%'


def words_for(path, fd):
    """What replay is told of a file: that it is a tape, or has several schedules."""
    if is_tape(path, os.pread(fd, 1, 0)):
        return ['--tape']
    return ['--many'] if has_mark(fd) else []
