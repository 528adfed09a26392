"""What the programs in Python share: their arguments, their files, what they say, and how they end."""

import os
import signal
import stat
import sys
import tempfile


class Told(Exception):
    """One line for standard error, and the status."""

    def __init__(self, line, status=2):
        super().__init__(line)
        self.status = status


class Ended(BaseException):
    """By a signal: what is half written is removed on the way out."""


def version_of(program):
    return f'{program} 0.1.0 of Fernmoldew, the port of concurrent-queue 2.5.0\n'


# Arguments

def number_of(option, word):
    if not (word.isascii() and word.isdigit()) or len(word) > 19:
        raise Told(f'{option} wants a number, not {word} (see --help)')
    return int(word)


def options_among(words):
    """Those before a word --."""
    return words[:words.index('--')] if '--' in words else words


def read(words, with_value, alone):
    """The options, in order, and the file, or None."""
    options, file, words, are_names = [], None, list(words), False
    while words:
        word = words.pop(0)
        option, equals, value = word.partition('=')
        if are_names or word and not word.startswith('-'):
            if file is not None:
                raise Told(f'{word} is one name too many (see --help)')
            file = word
        elif word == '--':
            are_names = True
        elif option in with_value:
            if not (equals or words):
                raise Told(f'{option} wants a value (see --help)')
            options.append((option, value if equals else words.pop(0)))
        elif option in alone:
            if equals:
                raise Told(f'{option} takes no value: {word} (see --help)')
            options.append((option, ''))
        else:
            raise Told(f"{word or 'an empty word'} is no option (see --help)")
    return options, file


def is_told(program, text, words):
    """Whether its help or version was asked for, and printed."""
    asked = options_among(words)
    for said, names in ((text, ('--help', '-h')), (version_of(program), ('--version',))):
        if any(name in asked for name in names):
            printed(said.encode())
            return True
    return False


# Files

def mode_for(name):
    """That of the file which is there, or of a new one; None of what is no file, as a pipe, and is written as it stands. A link is not followed."""
    try:
        mode = os.lstat(name).st_mode
    except FileNotFoundError:
        mode = stat.S_IFLNK
    if stat.S_ISREG(mode):
        return stat.S_IMODE(mode)
    if not stat.S_ISLNK(mode):
        return None
    mask = os.umask(0)
    os.umask(mask)
    return 0o666 & ~mask


def written(program, name, said):
    """Under another name first, so that a file is there whole or as it was."""
    try:
        mode = mode_for(name)
        if mode is None:
            with open(name, 'wb') as file:
                file.write(said)
            return
        handle, other = tempfile.mkstemp(prefix=f'.{program}-', dir=os.path.dirname(os.path.abspath(name)))
    except OSError as wrong:
        raise Told(f'{name}: {wrong.strerror}')
    try:
        with open(handle, 'wb') as file:
            os.fchmod(file.fileno(), mode)
            file.write(said)
            file.flush()
            os.fsync(file.fileno())
        os.replace(other, name)
    except BaseException as wrong:
        os.unlink(other)
        if isinstance(wrong, OSError):
            raise Told(f'{name}: {wrong.strerror}')
        raise


def printed(said):
    """Whether somebody reads it still."""
    try:
        with open(1, 'wb', closefd=False) as file:
            file.write(said)
    except BrokenPipeError:
        return False
    except OSError as wrong:
        raise Told(f'standard output: {wrong.strerror}')
    return True


def is_kept(file):
    """Whether it can be read as often as one likes, by its name, or is left to replay to complain of: a pipe cannot, nor what is open here under a number."""
    try:
        mode = os.stat(file).st_mode
    except OSError:
        return True
    return (stat.S_ISREG(mode) or stat.S_ISDIR(mode)) and not os.path.abspath(file).startswith(('/dev/', '/proc/'))


def copy_of(file):
    """What is read once, standard input if no file is named, in a temporary file."""
    name = file or 'standard input'
    try:
        copy = tempfile.TemporaryFile()
    except OSError:
        raise Told(f'{name}: there is no folder for temporary files (TMPDIR, /tmp)')
    try:
        given = os.open(file, os.O_RDONLY) if file else 0
        while piece := os.read(given, 1 << 20):
            try:
                copy.write(piece)
                copy.flush()
            except OSError as wrong:
                raise Told(f'{name}: its temporary file: {wrong.strerror}')
    except OSError as wrong:
        raise Told(f'{name}: {wrong.strerror}')
    return copy


def kept(file):
    """None of a file that can be read by its name, else a copy of what is there."""
    return None if file is not None and is_kept(file) else copy_of(file)


# What is said

def shown(said):
    """On one line, with nothing that a terminal would take for a command."""
    return ''.join(c if c.isprintable() else f'\\x{ord(c) - 0xdc00:02x}' if '\udc80' <= c <= '\udcff' else c.encode('unicode_escape').decode() for c in said)


def say(said):
    """A line on standard error, if there is one."""
    try:
        os.write(2, f'{shown(said)}\n'.encode())
    except OSError:
        pass


# Beginning and end

def end(number, _):
    signal.signal(number, signal.SIG_DFL)
    raise Ended(number)


def run(program, main, words):
    """main answers the status."""
    # what is closed stays unusable, and no file that is opened later takes its number
    for number, mode in enumerate((os.O_WRONLY, os.O_RDONLY, os.O_WRONLY)):
        try:
            os.fstat(number)
        except OSError:
            os.open(os.devnull, mode)
    for number in (signal.SIGHUP, signal.SIGINT, signal.SIGTERM):
        if signal.getsignal(number) != signal.SIG_IGN:
            signal.signal(number, end)
    try:
        sys.exit(main(words))
    except Told as told:
        say(f'{program}: {told}')
        sys.exit(told.status)
    except Ended as ended:
        os.kill(os.getpid(), ended.args[0])
