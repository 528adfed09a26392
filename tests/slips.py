"""Must-fail edits as rt reads them (crates/CRATE/must-fail/LABEL.edit), taken apart into their slips.

An edit of one slip has the slip's name, and says in its first line what the slip is. An edit that gathers slips has a line before the lines of each, which rt
passes over:

    slip: NAME, in FUNCTION: what it is                    the one slip of a function's body
    slip: NAME, in FUNCTION at NEED, NEED: what it is      one of several: the needs of the function's proof that it makes false
    slip: NAME, of DEFINITION at THEOREM: what it is       of a definition in specs/ or of a constant: where it is refused, a theorem or a function"""

import re
from pathlib import Path
from typing import NamedTuple

ROOT = Path(__file__).resolve().parent.parent


class Replacement(NamedTuple):
    file: str
    old: str
    new: str


class Slip(NamedTuple):
    name: str
    function: str | None  # whose body it changes
    definition: str | None  # or the definition that it changes; in an edit of one slip neither is said
    refused_at: list[str]
    replacements: list[Replacement]


class Edit(NamedTuple):
    crate: str
    label: str
    slips: list[Slip]

    @property
    def gathers(self):
        return bool(self.slips[0].function or self.slips[0].definition)


class Malformed(Exception):
    pass


def read(path):
    edit = Edit(path.parent.parent.name, path.stem, [])
    file = old = None
    for line in path.read_text().splitlines():
        if line.startswith('slip:'):
            said = re.fullmatch(r'slip: (\w+), (?:in (\w+)|of (\w+))(?: at ([^:]+))?: .+', line)
            if not said or said[3] and not said[4]:
                raise Malformed(f'not "slip: NAME, in FUNCTION [at NEED, ..]: what it is", nor "slip: NAME, of DEFINITION at THEOREM: what it is": {line}')
            if edit.slips and not edit.gathers:
                raise Malformed('a replacement stands before the first slip')
            edit.slips.append(Slip(said[1], said[2], said[3], said[4].split(', ') if said[4] else [], []))
            file = None
        elif line.startswith('file: '):
            file = line.removeprefix('file: ')
        elif line.startswith('old: '):
            old = line.removeprefix('old: ')
        elif line.startswith('new:'):
            if not edit.slips:
                edit.slips.append(Slip(edit.label, None, None, [], []))
            if file is None or old is None:
                raise Malformed(f'no "file:" or no "old:" of its own before: {line}')
            edit.slips[-1].replacements.append(Replacement(file, old, line.removeprefix('new:').removeprefix(' ')))
            old = None
    if not edit.slips or not all(slip.replacements for slip in edit.slips):
        raise Malformed('a slip replaces nothing')
    return edit


def paths(crate='*'):
    return sorted(ROOT.glob(f'crates/{crate}/must-fail/*.edit'))


def named(crate, name):
    """The slip of that name, or None."""
    for path in paths(crate):
        for slip in read(path).slips:
            if slip.name == name:
                return slip
    return None
