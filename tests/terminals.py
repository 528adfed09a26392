"""How tests start a program on a terminal."""

import os
import pty
import subprocess

from programs import starter_of


def on_terminal(program, *words, **environment):
    """What a program prints to a terminal."""
    ours, theirs = pty.openpty()
    run = subprocess.Popen([*starter_of(program), *map(str, words)], stdout=theirs, env={**{k: v for k, v in os.environ.items() if k != 'NO_COLOR'}, **environment})
    os.close(theirs)
    said = b''
    while True:
        try:
            piece = os.read(ours, 4096)
        except OSError:  # the other end is closed
            break
        if not piece:
            break
        said += piece
    os.close(ours)
    return run.wait(), said.replace(b'\r\n', b'\n')
