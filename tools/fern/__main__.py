"""fern, where its first word is no program that is there: help, the version, or what is wrong."""

import os
import re
import sys
import textwrap

from manners import Told, printed, run, version_of

PROGRAMS = ('replay', 'step', 'picture', 'walk', 'explore', 'possible', 'tape', 'archive', 'runs', 'shrink')
HELP = '''fern PROGRAM [WORD..]

Runs one of these programs with the words that follow.

{}

  help, --help, -h   prints this; help PROGRAM, or PROGRAM --help, what that program does
  --version          prints the version

Status: that of the program; 2 there is no such program, or not all can be written.
'''


def summary_of(home, program):
    """What the comment of its starter says of it."""
    with open(os.path.join(home, program)) as starter:
        return re.search(rf'(?m)^# {program} .*?: (.*) \(--help says more\)\.$', starter.read())[1]


def main(words):
    home, *words = words
    there = [program for program in PROGRAMS if os.access(os.path.join(home, program), os.X_OK)]
    if not words:
        raise Told('usage: fern PROGRAM [WORD..] (see fern help)')
    if words[0] == '--version':
        printed(version_of('fern').encode())
    elif words[0] in ('help', '--help', '-h') and len(words) == 1:
        lines = [textwrap.fill(summary_of(home, program), 96, initial_indent=f'  {program:<10} ', subsequent_indent=' ' * 13) for program in there]
        printed(HELP.format('\n'.join(lines)).encode())
    elif words[0] == 'help' and words[1] in there:
        os.execv(os.path.join(home, words[1]), [words[1], '--help'])
    else:
        raise Told(f'{words[1] if words[0] == "help" else words[0]} is no program (see fern help)')
    return 0


run('fern', main, sys.argv[1:])
