"""Runs of replay: many schedules by one process, or one file by a process of its own; and each run beside its record.

A tape is no input of `replay --many`, and a process for each tape is what an archive must not cost. So a tape without fault is read here, and its schedule
runs among others, as a text; whatever is not beyond doubt, here or to replay, gets a process and is judged by replay alone.
"""

import errno
import io
import json
import os
import re
import signal
import stat
from json.encoder import encode_basestring_ascii as quoted

import files

# What one process is handed at most, and what is too long to stand among others.
TEXT_MOST, FILES_MOST, ALONE = 1 << 20, 500, 1 << 18
PIECE = 1 << 16

RAN, REFUSED, DIFFERS, UNREADABLE, GONE = 'ran', 'refused', 'differs', 'unreadable', 'gone'
REFUSED_LINE = re.compile(rb'^(?:made |\d+ |(?: *\d+  -   )?refused )([1-9]\d*)\b', re.MULTILINE)
REFUSED_TAPE = re.compile(rb'refused (\d+) ')


class Asked:
    def __init__(self, command, options, with_capacity, record):
        self.command = command  # runs replay
        self.options = options
        self.with_capacity = with_capacity  # a schedule begins with one
        self.record = record


# The result of a file: what it is counted as, which is the result, the refusal's number or 0 and what is said of its record, if anything; and its line of JSON.

def result_of(path, result, number, seen, **more):
    told = {'file': os.fsdecode(path), 'result': result, **({'refused': number} if number else {}), **more, 'seen': seen}
    return (result, number, more.get('record')), json.dumps(told) + '\n'


def unreadable(path, said):
    return result_of(path, UNREADABLE, 0, files.seen_of(path), said=said)


def gone(path):
    """A record whose file is not there."""
    return result_of(path, GONE, 0, files.seen_of(path))


class Told:
    """The results of some files, put together: how often each is counted, all lines of JSON, and those that are worth telling while the archive is replayed."""

    def __init__(self, results):
        self.counted, lines, self.worth = {}, [], []
        for counted, line in results:
            self.counted[counted] = self.counted.get(counted, 0) + 1
            lines.append(line)
            if counted[0] != RAN:
                self.worth.append(line)
        self.lines = ''.join(lines).encode()


def shown(line):
    return line.rstrip(b'\n').decode('utf-8', 'backslashreplace')


# The program

class Turns:
    """So many programs may run at once, whichever process starts them: a pipe has a byte for each that may still be started. Who waits for one has the only byte of
    another pipe meanwhile, so that nobody who comes later is before him."""

    def __init__(self, count):
        self.left, self.given = os.pipe()
        self.next, self.passed = os.pipe()
        os.write(self.given, b'.' * count)
        os.write(self.passed, b'.')

    def take(self):
        os.read(self.next, 1)
        os.read(self.left, 1)
        os.write(self.passed, b'.')

    def give(self):
        os.write(self.given, b'.')


class Program:
    """replay, started as tools/start does: its status is told on descriptor 3."""

    def __init__(self, asked, turns):
        self.asked, self.turns = asked, turns
        self.running = None

    def start(self, words, given, out, said, told):
        actions = [(os.POSIX_SPAWN_DUP2, fd, number) for number, fd in ((0, given), (1, out), (2, said), (3, told))]
        words = [*self.asked.command, *self.asked.options, *words]
        self.turns.take()
        try:
            # in a group of its own: an interrupt at a terminal is for the archive to hear
            self.running = os.posix_spawn(words[0], words, os.environ, file_actions=actions, setpgroup=0, setsigdef=[signal.SIGINT, signal.SIGTERM, signal.SIGPIPE])
        except OSError:
            self.turns.give()
            raise

    def ended(self, told):
        """Its status; None: it has none, having been ended."""
        ended = os.waitpid(self.running, 0)[1]
        self.running = None
        self.turns.give()
        status = os.pread(told, PIECE, 0)[-1:]
        return int(status) if ended == 0 and status.isdigit() else None

    def stop(self):
        if self.running:
            os.kill(self.running, signal.SIGKILL)


def whole(fd):
    """What a file in memory holds."""
    size = os.fstat(fd).st_size
    pieces, at = [], 0
    while at < size:
        pieces.append(os.pread(fd, size - at, at))
        at += len(pieces[-1])
    return b''.join(pieces)


class InMemory:
    """Files that the program writes to, numbered above its own descriptors."""

    def __init__(self, count):
        self.count = count

    def __enter__(self):
        self.files = [os.memfd_create('archive') for _ in range(self.count)]
        return self.files

    def __exit__(self, *_):
        for fd in self.files:
            os.close(fd)


def write_all(fd, data):
    view = memoryview(data)
    while view:
        view = view[os.write(fd, view):]


# Records

OPENED = os.O_RDONLY | os.O_NONBLOCK | os.O_NOFOLLOW  # a record that is a link is not followed


def record_of(path):
    """What was recorded, and its size and time; None where there is no record."""
    try:
        fd = os.open(path + files.RECORD, OPENED)
    except FileNotFoundError:
        return None, (0, 0)
    except OSError as why:
        if why.errno == errno.ELOOP:
            raise OSError(errno.ELOOP, 'a link, which is not followed') from None
        raise
    try:
        about = os.fstat(fd)
        if not stat.S_ISREG(about.st_mode):
            raise OSError(0, 'not a regular file')
        return os.fdopen(os.dup(fd), 'rb'), (about.st_size, about.st_mtime_ns)
    finally:
        os.close(fd)


class NewRecord:
    """A record that gets its name when it is whole and lasts, unless one has come there meanwhile."""

    def __init__(self, path):
        import tempfile  # costs as much as a hundred files
        self.path = path + files.RECORD
        folder = os.path.dirname(self.path)
        self.fd, self.made = tempfile.mkstemp(prefix=b'.archive-', dir=folder or b'.')

    def write(self, data):
        write_all(self.fd, data)

    def keep(self):
        mask = os.umask(0)
        os.umask(mask)
        os.fchmod(self.fd, 0o666 & ~mask)
        os.fsync(self.fd)
        about = os.fstat(self.fd)
        os.link(self.made, self.path)
        return about.st_size, about.st_mtime_ns

    def close(self):
        os.close(self.fd)
        os.unlink(self.made)


class Beside:
    """A run beside its record, piece by piece: the first line that differs, or a new record where there is none and one is asked for."""

    def __init__(self, path, seen, record):
        self.path, self.seen = path, seen
        self.recorded, self.about = record_of(path)
        self.is_new = self.recorded is None and record
        self.new = NewRecord(path) if self.is_new else None
        self.had = self.recorded is not None
        self.place = 0
        self.difference = None

    def add(self, line):
        """A line of the run, or a piece of one that is too long; b'' at its end."""
        if self.new:
            self.new.write(line)
        if not self.recorded or self.difference:
            return
        self.place += 1
        here = self.recorded.readline(PIECE)
        if here != line:
            self.difference = {'line': self.place, 'recorded': shown(here) if here else None, 'now': shown(line) if line else None}

    def add_all(self, output):
        """The whole run at once."""
        if self.recorded:
            if self.about[0] == len(output) and self.recorded.read() == output:
                return
            self.recorded.seek(0)
        lines = io.BytesIO(output)
        while line := lines.readline(PIECE):
            self.add(line)
        self.add(b'')

    def result(self, number):
        if self.new:
            self.about = self.new.keep()
        seen = [*self.seen, *self.about]
        record = 'written' if self.is_new else 'same' if self.had else 'none'
        if self.difference:
            return result_of(self.path, DIFFERS, number, seen, record='other', **self.difference)
        return result_of(self.path, REFUSED if number else RAN, number, seen, record=record)

    def close(self):
        if self.recorded:
            self.recorded.close()
        if self.new:
            self.new.close()


def is_recorded(path, output):
    """What there is to know of the record if it is this one; None: it is not, or there is a doubt."""
    try:
        fd = os.open(path + files.RECORD, OPENED)
    except OSError:
        return None
    try:
        about = os.fstat(fd)
        is_so = stat.S_ISREG(about.st_mode) and about.st_size == len(output) and os.read(fd, len(output) + 1) == output
    except OSError:
        return None
    finally:
        os.close(fd)
    return about if is_so else None


def beside_record(path, seen, output, number, record):
    """The result of a run that is in hand."""
    if about := is_recorded(path, output):  # the way of nearly all: no buffered file, no line by line
        result, refused = (REFUSED, f'"refused": {number}, ') if number else (RAN, '')
        size, time = seen
        return (result, number, 'same'), (f'{{"file": {quoted(os.fsdecode(path))}, "result": "{result}", {refused}"record": "same", '
                                          f'"seen": [{size}, {time}, {about.st_size}, {about.st_mtime_ns}]}}\n')
    try:
        beside = Beside(path, seen, record)
        try:
            beside.add_all(output)
            return beside.result(number)
        finally:
            beside.close()
    except OSError as why:
        return unreadable(path, f'its record: {why.strerror}')


# Many by one process, and one by its own

PATH, SEEN, TEXT = range(3)  # of a file that is held


class Runs:
    def __init__(self, asked, turns):
        self.asked = asked
        self.program = Program(asked, turns)

    def of(self, paths):
        """The results of these files, in their order."""
        results, held, size = {}, [], 0
        for path in paths:
            try:
                taken = self.taken(path)
            except OSError as why:
                results[path] = unreadable(path, why.strerror)
                continue
            if taken is None:
                results[path] = self.alone(path)
                continue
            held.append(taken)
            size += len(taken[TEXT])
            if size > TEXT_MOST or len(held) == FILES_MOST:
                results.update(self.among_others(held))
                held, size = [], 0
        results.update(self.among_others(held))
        return Told([results[path] for path in paths])

    def taken(self, path):
        """A file that can stand among others, with its size and time and its text; None: it can't, or there is a doubt."""
        fd = os.open(path, os.O_RDONLY | os.O_NONBLOCK)
        try:
            about = os.fstat(fd)
            if not stat.S_ISREG(about.st_mode):
                raise OSError(0, os.strerror(21) if stat.S_ISDIR(about.st_mode) else 'not a regular file')
            size = about.st_size
            data = os.read(fd, size + 1) if size < ALONE else b''  # room for ALONE bytes would cost more than all the rest
        finally:
            os.close(fd)
        if len(data) != size:
            return None
        text = files.text_of_tape(data, self.asked.with_capacity) if files.is_tape(path, data) else files.text_of_schedule(data)
        return text and (path, (size, about.st_mtime_ns), text)

    def among_others(self, held):
        """Where a process does not end as it should, its files are run by two, and so on."""
        if not held:
            return []
        if len(held) == 1:
            return [(held[0][PATH], self.alone(held[0][PATH]))]
        with InMemory(4) as (given, out, said, told):
            write_all(given, b'%\n'.join([text for _, _, text in held]))
            os.lseek(given, 0, os.SEEK_SET)
            self.program.start(['--many'], given, out, said, told)
            status = self.program.ended(told)
            outputs = whole(out).split(b'%\n')
        if status not in (0, 1) or len(outputs) != len(held) + 1:
            half = len(held) // 2
            return self.among_others(held[:half]) + self.among_others(held[half:])
        return [(path, beside_record(path, seen, output, refusal_in(output) if status else 0, self.asked.record)) for (path, seen, _), output in zip(held, outputs)]

    def alone(self, path):
        try:
            given = os.open(path, os.O_RDONLY | os.O_NONBLOCK)
        except OSError as why:
            return unreadable(path, why.strerror)
        try:
            return self.alone_on(path, given)
        finally:
            os.close(given)

    def alone_on(self, path, given):
        about = os.fstat(given)
        seen = about.st_size, about.st_mtime_ns
        try:
            words = files.words_for(path, given)
        except OSError as why:
            return unreadable(path, why.strerror)
        try:
            beside = Beside(path, seen, self.asked.record)
        except OSError as why:
            return unreadable(path, f'its record: {why.strerror}')
        try:
            with InMemory(2) as (said, told):
                number, status, complaint = self.streamed(words, given, said, told, beside)
            if status in (0, 1):
                return beside.result(number)
            return unreadable(path, complaint)
        except OSError as why:
            return unreadable(path, f'its record: {why.strerror}')
        finally:
            beside.close()

    def streamed(self, words, given, said, told, beside):
        """The refusal's number or 0, the status, and what was said."""
        reader, writer = os.pipe()
        self.program.start(words, given, writer, said, told)
        os.close(writer)
        number = 0
        try:
            with open(reader, 'rb') as lines:
                while line := lines.readline(PIECE):
                    number = number or refusal_in(line)
                    beside.add(line)
        finally:
            status = self.program.ended(told)
        complaint = whole(said)
        refused = REFUSED_TAPE.match(complaint)
        if refused and status == 1:
            number = int(refused[1])
            beside.add(complaint)
        beside.add(b'')
        return number, status, shown(complaint.removeprefix(b'replay: standard input: ')) or 'replay was ended'


def refusal_in(output):
    """The first refusal that the output tells, of the machine or of an entry; 0: none."""
    refused = REFUSED_LINE.search(output)
    return int(refused[1]) if refused else 0
