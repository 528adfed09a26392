"""A part of what replay --explain prints: the lines of the entries and the worker that are asked for, and all that are no entry's, byte for byte."""

import os
import re
import subprocess
import termios
from select import select

from manners import Told, printed

ENTRY = re.compile(rb'(?:\x1b\[\d+m)? *(\d+)  w(\d+) ')  # a refusal's line names no worker so, and is passed on


def channel_for(number):
    """Two ends, to read and to write: of a terminal where ours is one, since replay colours its lines there and tells how far it is."""
    try:
        ours, theirs = os.openpty() if os.isatty(number) else os.pipe()
    except OSError:  # no terminal is left: without colours, then
        ours, theirs = os.pipe()
    if os.isatty(theirs):
        modes = termios.tcgetattr(theirs)
        modes[1] &= ~termios.OPOST  # our own terminal does that
        termios.tcsetattr(theirs, termios.TCSANOW, modes)
    return ours, theirs


def piece_of(end):
    """What is there; nothing at its end, which a terminal tells by an error."""
    try:
        return os.read(end, 1 << 16)
    except OSError:
        return b''


def said_on(piece):
    """To standard error, if there is one."""
    try:
        os.write(2, piece)
    except OSError:
        pass


def chosen_of(lines, is_chosen):
    for line in lines:
        entry = ENTRY.match(line)
        if not entry or is_chosen(int(entry[2]), int(entry[1]), int(entry[1])):
            yield line + b'\n'


def passed_on(words, is_chosen):
    """Runs replay, and answers its status. What it says stands behind the lines that it printed before that."""
    (out, to_out), (said, to_said) = channel_for(1), channel_for(2)
    try:
        run = subprocess.Popen(words, stdout=to_out, stderr=to_said)
    except OSError as wrong:
        raise Told(f'{words[0]}: {wrong.strerror}')
    os.close(to_out)
    os.close(to_said)
    begun, ends = b'', [out, said]
    try:
        while ends:
            first, *_ = select(ends, [], [])[0]
            if first == said and out in ends and select([out], [], [], 0)[0]:
                first = out
            piece = piece_of(first)
            if not piece:
                ends.remove(first)
            elif first == said:
                said_on(piece)
            else:
                *lines, begun = (begun + piece).split(b'\n')
                if not printed(b''.join(chosen_of(lines, is_chosen))):
                    run.terminate()
                    return 0
        printed(begun)
        return run.wait()
    except BaseException:
        run.terminate()
        raise
    finally:
        os.close(out)
        os.close(said)
        run.wait()
