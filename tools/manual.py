#!/usr/bin/env python3
"""manual.py man PROGRAM < HELP: the manual page of a program, from what its --help prints, so that it does not go stale; so is what a shell completes of fern. A program is
installed as `fern PROGRAM`, and its page as fern-PROGRAM.

A help has the usage, a blank line, then paragraphs. A line of two blanks is a term, with what it means behind two blanks more and on lines that
are further in; a term that begins with - is an option. 'Status: ' begins the paragraph of the statuses."""

import re
import sys
import textwrap
from datetime import date
from pathlib import Path
from typing import NamedTuple

HOME = Path(__file__).resolve().parent.parent
PROGRAMS = ('archive', 'explore', 'picture', 'possible', 'replay', 'runs', 'shrink', 'step', 'tape', 'walk')


# Options that a program's starter has, and what it starts does not have in its help; the usages that have them.
OF_STARTER = {'replay': (('--explain', '--calls'), [
    ('--from N', 'with --explain or --calls, only what entry N and later ones did'), ('--to N', 'with --explain or --calls, only what entry N and earlier ones did'),
    ('--worker K', 'with --explain or --calls, only what worker K did'),
])}


class Help(NamedTuple):
    usage: list
    blocks: list  # of paragraphs, and of lists of terms, each with its text

    def terms(self, are_options):
        return [term for block in self.blocks if isinstance(block, list) for term in block if term[0].startswith('-') == are_options]


def read(text):
    lines = text.rstrip('\n').split('\n')
    end = lines.index('')
    usage = re.sub(r'\n +', ' ', '\n'.join(lines[:end])).split('\n')  # what is further in goes on the line above
    blocks = []
    is_example = False
    for line in lines[end + 1:]:
        term = re.fullmatch(r'  (\S.*?)(?: {2,}(\S.*))?', line)
        is_example = is_example and line.startswith('   ')
        if not line:
            blocks.append('')
        elif term:
            if not (blocks and isinstance(blocks[-1], list)):
                blocks.append([])
            blocks[-1].append((term[1], term[2] or ''))
        elif line.startswith(' ') and not is_example and isinstance(blocks[-1], list):
            name, said = blocks[-1][-1]
            blocks[-1][-1] = name, f'{said} {line.strip()}'.strip()
        elif line.startswith(' '):
            # lines further in that follow no term are shown as they stand
            if not is_example:
                blocks.append([])
            is_example = True
            blocks[-1].append((line.strip(), ''))
        elif blocks and isinstance(blocks[-1], str) and blocks[-1] and not line.startswith('Status: '):
            blocks[-1] += ' ' + line
        else:
            blocks.append(line)
    return Help(usage, [block for block in blocks if block])


def help_of(program, text):
    """What its --help says, and the options of its starter."""
    told, (beside, terms) = read(text), OF_STARTER.get(program, ((), []))
    more = ' '.join(f'[{term}]' for term, _ in terms)
    usage = [line.replace('[FILE]', f'{more} [FILE]') if {*beside} & {*line.split()} else line for line in told.usage]
    return Help(usage, told.blocks + [terms] * bool(terms))


def summary_of(program):
    """What the comment of its starter says of it."""
    return re.search(rf'(?m)^# {program} .*?: (.*) \(--help says more\)\.$', (HOME / program).read_text())[1]


# The manual page

ESCAPES = str.maketrans({'\\': '\\e', '-': '\\-', "'": '\\(aq', '^': '\\(ha', '~': '\\(ti', '`': '\\(ga'})


def roff(text):
    """In lines of at most 80 bytes; none begins with a point, which would be a command."""
    lines = textwrap.wrap(text, 60, break_on_hyphens=False, break_long_words=False)
    return '\n'.join(re.sub(r'^\.', '\\\\&.', line.translate(ESCAPES)) for line in lines)


def list_of(terms):
    return [line for name, said in terms for line in ('.TP', f'.B {name.translate(ESCAPES)}', *([roff(said)] if said else []))]


def page_of(program):
    """The name of its manual page."""
    return program if program == 'fern' else f'fern-{program}'


def man(program, text, on, version):
    told = help_of(program, text)
    name = page_of(program)
    page = [f'.TH {name.upper()} 1 {on} "fernmoldew {version}" "Fernmoldew"', '.SH NAME', f'{name} \\- {roff(summary_of(program))}', '.SH SYNOPSIS']
    for number, usage in enumerate(told.usage):
        page += ['.br'] * (number > 0) + [f'.B {("" if program == "fern" else "fern ") + usage.translate(ESCAPES)}']
    page.append('.SH DESCRIPTION')
    status = ''
    begun = False
    for block in told.blocks:
        if isinstance(block, list):
            shown = [term for term in block if not term[0].startswith('-')]
            page += list_of(shown)
            begun = begun or bool(shown)
        elif block.startswith('Status: '):
            status = block[len('Status: '):]
        else:
            page += ['.PP'] * begun + [roff(block)]
            begun = True
    options = told.terms(True)
    if options:
        page += ['.SH OPTIONS', *list_of(options)]
    if status:
        page += ['.SH EXIT STATUS', roff(status)]
    others = [page_of(other) for other in (*PROGRAMS, 'fern') if other != program and (HOME / other).exists()]
    page += ['.SH SEE ALSO', ',\n'.join(f'.BR {other} (1)' for other in sorted(others)).replace(',\n', ' ,\n')]
    return '\n'.join(page) + '\n'


# Completion

def options_of(told):
    """Each option with the name of its value or None, the values that the help names, and what it does."""
    found = {}
    for usage in told.usage:
        for option, value in re.findall(r'(?<![\w-])(--?[a-z][a-z-]*)(?: ([A-Z][\w.|]*))?(?=[ \]|]|$)', usage):
            found[option] = [value or None, [], '']
    for term, said in told.terms(True):
        for part in term.split(', '):
            option, _, value = part.partition(' ')
            kept = found.setdefault(option, [value or None, [], ''])
            kept[2] = kept[2] or said
            named = re.findall(r'\((\w+) (?:unless told|if not given)\)', said)
            kept[1] += [word for word in (*named, value) if word and not word[0].isupper() and word not in kept[1]]
            if kept[1]:
                kept[0] = kept[0] or 'VALUE'
    found.setdefault('--help', [None, [], 'prints what this program does'])
    return found


def commands_of(told):
    """The words that may come first, of a program that has such."""
    return [words[1] for words in map(str.split, told.usage) if len(words) > 1 and words[1].isalpha() and words[1].islower()]


def is_file(value):
    return value is not None and bool(re.search(r'FILE|NAME\.|DIR|PLACE|TAPE|SCHEDULE', value))


def bash_of(program, text):
    """A function that completes the words of one program, its name being the first."""
    told = help_of(program, text)
    options, commands = options_of(told), commands_of(told)
    cases = []
    for option, (value, values, _) in options.items():
        if value and not is_file(value):
            cases.append(f'''    {option}) compopt +o default 2>/dev/null; COMPREPLY=($(compgen -W '{' '.join(values)}' -- "$now")); return ;;''')
        elif value:
            cases.append(f'    {option}) return ;;')
    first = f'''    if [ "$COMP_CWORD" = 1 ]; then COMPREPLY=($(compgen -W '{' '.join(commands)} --help' -- "$now")); return; fi\n''' if commands else ''
    before = 'case $before in\n' + '\n'.join(cases) + '\n    esac\n    ' if cases else ''
    return f'''# Made from {program} --help.
_fernmoldew_{program}() {{
    local now=${{COMP_WORDS[COMP_CWORD]}} before=${{COMP_WORDS[COMP_CWORD - 1]}}
    COMPREPLY=()
    {before}case $now in
    -*) COMPREPLY=($(compgen -W '{' '.join(options)}' -- "$now")); return ;;
    esac
{first}}}
'''


def bash(helps):
    """Completion of fern: helps has what the --help of each program prints."""
    names = ' '.join(helps)
    return ''.join(bash_of(program, text) for program, text in helps.items()) + f'''# Completion of fern for bash.
_fernmoldew_fern() {{
    local now=${{COMP_WORDS[COMP_CWORD]}} program=${{COMP_WORDS[1]-}}
    COMPREPLY=()
    if [ "$COMP_CWORD" = 1 ]; then COMPREPLY=($(compgen -W '{names} help --help --version' -- "$now")); return; fi
    if [ "$program" = help ]; then COMPREPLY=($(compgen -W '{names}' -- "$now")); return; fi
    declare -F "_fernmoldew_$program" >/dev/null && [ "$program" != fern ] || return
    COMP_WORDS=("${{COMP_WORDS[@]:1}}")
    COMP_CWORD=$((COMP_CWORD - 1))
    "_fernmoldew_$program"
}}
complete -o default -F _fernmoldew_fern fern
'''


def zsh_of(program, text):
    told = help_of(program, text)
    words = []
    for option, (value, values, said) in options_of(told).items():
        said = re.sub(r"[\[\]:'\\]", ' ', re.split(r'[;:(]|\. ', said)[0]).strip()
        after = '' if not value else f':{value}:' + ('_files' if is_file(value) else f'({" ".join(values)})')
        words.append(f"'{option}[{said}]{after}'")
    if commands_of(told):
        words.append(f"'1:command:({' '.join(commands_of(told))})'")
    head = f'# Made from {program} --help.\n_fern_{program}() {{\n    _arguments'
    return ' \\\n        '.join([head, *words, "'*:file:_files'"]) + '\n}\n'


def zsh(helps):
    names = ' '.join(helps)
    return '#compdef fern\n' + ''.join(zsh_of(program, text) for program, text in helps.items()) + f'''# Completion of fern for zsh.
_fern() {{
    if (( CURRENT == 2 )); then compadd {names} help --help --version; return; fi
    if [[ $words[2] == help ]]; then compadd {names}; return; fi
    local program=$words[2]
    (( $+functions[_fern_$program] )) || return
    shift words
    (( CURRENT-- ))
    _fern_$program
}}
_fern "$@"
'''


if __name__ == '__main__':
    _, program = sys.argv[1:]
    sys.stdout.write(man(program, sys.stdin.read(), date.today().isoformat(), '0'))
