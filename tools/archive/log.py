"""The log of a run, so that an interrupted one can be gone on with: a line of JSON that says which run it is, then the lines of the files that are done, in
the order of the archive. It is there while a run is, and after one that was interrupted."""

import fcntl
import json
import os
import stat
import zlib

import files


class Busy(Exception):
    """Another run is writing it."""


class Damaged(Exception):
    """A whole line of it is none that was written here."""


class Nowhere(Exception):
    """There is no folder for it that one may write."""


# Where it is kept

def may_write(folder):
    """Whether a file may be made there, once the folders that are missing are."""
    while not os.path.lexists(folder):
        folder = os.path.dirname(folder)
    return os.path.isdir(folder) and os.access(folder, os.W_OK | os.X_OK)


def own_temporary():
    """Below the folder of temporary files, where anybody may make anything: made for this user alone, or it is not taken."""
    folder = os.path.join(os.environ.get('TMPDIR') or '/tmp', f'fernmoldew-archive-{os.getuid()}')
    try:
        os.mkdir(folder, 0o700)
    except OSError:
        pass
    try:
        about = os.lstat(folder)
    except OSError:
        return None
    return folder if stat.S_ISDIR(about.st_mode) and about.st_uid == os.getuid() and not about.st_mode & 0o022 else None


def folder_for(tree):
    """Where the log of this user's runs goes: in this tree, where he may write there; else among what programs keep for him; else among temporary files."""
    state = os.environ.get('XDG_STATE_HOME') or os.path.join(os.path.expanduser('~'), '.local/state')
    for folder in (os.path.join(tree, 'target/archive'), os.path.join(state, 'fernmoldew/archive')):
        if os.path.isabs(folder) and may_write(folder):
            return folder
    folder = own_temporary()
    if folder is None:
        raise Nowhere
    return folder


class Log:
    def __init__(self, folder, run, resume):
        """RUN says which run it is: places, options and program."""
        os.makedirs(folder, exist_ok=True)
        which = json.dumps([run['folder'], run['places'], run['options']]).encode()
        self.path = os.path.join(folder, f'{zlib.crc32(which):08x}{zlib.adler32(which):08x}.log')
        self.file = open(os.open(self.path, os.O_RDWR | os.O_CREAT | os.O_CLOEXEC, 0o666), 'r+b')
        try:
            fcntl.flock(self.file, fcntl.LOCK_EX | fcntl.LOCK_NB)
        except BlockingIOError:
            raise Busy from None
        self.number = 0  # of the line that was read last
        self.goes_on = resume and self.next_line() == run
        if not self.goes_on:
            self.cut(0)
            self.add(json.dumps(run).encode() + b'\n')

    def next_line(self):
        """Taken apart; None at the end, or where an interruption has cut it."""
        line = self.file.readline()
        if not line.endswith(b'\n'):
            return None
        self.number += 1
        try:
            return json.loads(line)
        except (ValueError, RecursionError):
            raise self.damaged() from None

    def damaged(self):
        return Damaged(self.path, self.number)

    def cut(self, at):
        self.file.seek(at)
        self.file.truncate()

    def add(self, data):
        try:
            self.file.write(data)
            self.file.flush()
        except OSError as why:
            raise OSError(why.errno, why.strerror, self.path) from None

    def left_of(self, found, done):
        """Of these files those that are not done: from the first on that is not in the log as it now is. Each line of what is done is handed on."""
        found = iter(found)
        for path in found:
            at = self.file.tell()
            line = self.next_line()
            if line is None:
                self.cut(at)
                yield path
                break
            try:
                is_so = os.fsencode(line['file']) == path and line['seen'] == files.seen_of(path)
                if is_so:
                    done(line)
            except (ValueError, KeyError, TypeError):
                raise self.damaged() from None
            if not is_so:
                self.cut(at)
                yield path
                break
        yield from found

    def end(self):
        os.unlink(self.path)
