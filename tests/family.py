"""The families of crates: what a crate is follows from its name, and who may use whom from what it is (docs/ARCHITECTURE.md).
For tests/families, tools/order and docs/drawings/house.py."""

import re
from functools import cache
from pathlib import Path

root = Path(__file__).resolve().parent.parent
KIT = {'bytes', 'itoa', 'std'}
QUEUES = ('bounded', 'single', 'unbounded')
PROGRAMS = ('replay', 'tape', 'walk')
LAYERS = ('words|places|acts|pushes|forces|pops|lookers|table|views|machine|judged|entries|runs|orders|step_machine|step_record|sixteen_bits|narrow|lent|lent_by_value|'
          'codes|rows|slices|host|host_step|sixteen_rows|sixteen_host|stock|causes|moments|sequences|walks')

# what a name says, and of which queue; the first pattern that fits decides
KINDS = [
    ('shared', r'queue_\w+'),
    ('proof', r'(?P<of>\w+?)_(proof_\w+|slips)'),
    ('statement', r'(?P<of>\w+?)_(demands|logs)'),
    ('program', r'(?P<of>\w+?)_shows_\w+|' + '|'.join(PROGRAMS)),
    ('export', r'(?P<of>\w+?)_host(_step)?_c|bench_\w+'),
    ('library', r'(?P<of>\w+?)_text(_\w+)?|text_\w+|(' + '|'.join(PROGRAMS) + r')_\w+'),
    ('machine', r'(?P<of>' + '|'.join(QUEUES) + r')(_(' + LAYERS + r'))?|(?P<tape>tapes)(_\w+)?'),
]
MAY_USE = {
    'shared': {'shared'},
    'machine': {'shared', 'machine'},
    'statement': {'shared', 'machine', 'statement'},
    'proof': {'shared', 'machine', 'statement', 'proof'},
    'library': {'shared', 'machine', 'library'},
    'export': {'shared', 'machine'},
    'program': {'shared', 'machine', 'library'},
}


def kind_of(name):
    for kind, pattern in KINDS:
        found = re.fullmatch(pattern, name)
        if found:
            groups = found.groupdict()
            return kind, groups.get('of') or groups.get('tape')
    return None, None


def listed():
    """The crates of crates.txt in its order, each with the crates of this repository that it uses."""
    uses = {}
    for line in (root / 'crates.txt').read_text().splitlines():
        line = line.split('#')[0].strip()
        if line:
            name, _, rest = line.partition(':')
            uses[name.split()[0]] = [dep for dep in rest.split() if dep not in KIT]
    return uses


def apart(text):
    """Each `use` line with braces as a line for each name in them."""
    def lines(found):
        names = [name for name in re.split(r'\s*,\s*', found[2].strip(' ,\n')) if name]
        return '\n'.join(f'use {found[1][:-2]};' if name == 'self' else f'use {found[1]}{name};' for name in names)
    return re.sub(r'\buse ((?:\w+::)+)\{([^{}]*)\};', lines, text)


@cache
def sources(crate):
    """The text of each source file of a crate, without comments."""
    return [apart(re.sub(r'//.*', '', file.read_text())) for file in sorted((root / 'crates' / crate / 'src').rglob('*.rt'))]


@cache
def declared(crate):
    """The types of a crate, each with the types of its parts, and its functions, each with the types of its signature. A type is (crate, name)."""
    types, functions = {}, {}
    own = {name for text in sources(crate) for name in re.findall(r'\b(?:struct|enum) (\w+)', text)}
    for text in sources(crate):
        used = {name: of for of, name in re.findall(r'^\s*use (\w+)::(?:\w+::)*([A-Z]\w*);', text, re.M) if of in crates()}

        def within(part):
            found = {(of, name) for of, name in re.findall(r'\b(\w+)::(?:\w+::)*([A-Z]\w*)', part) if of in crates()}
            found |= {(crate, name) for name in re.findall(r'\bcrate::(?:\w+::)*([A-Z]\w*)', part)}
            names = re.findall(r'(?<![:\w])([A-Z]\w*)', part)
            return found | {(used.get(name, crate), name) for name in names if name in used or name in own}

        for name, parts in re.findall(r'\b(?:struct|enum) (\w+)\s*(\{.*?^\}|\([^;]*;|\{[^}]*\})', text, re.M | re.S):
            types[name] = within(parts)
        for name, asks, answers in re.findall(r'\bfn (\w+)\s*\((.*?)\)\s*(->\s*[^{;]*?)?\s*(?=\{|requires|ensures|;)', text, re.S):
            functions.setdefault(name, set()).update(within(f'{asks} {answers}'))
    return types, functions


@cache
def crates():
    return {path.name for path in (root / 'crates').iterdir()}


def named(crate):
    """What a crate's line of crates.txt lists: the crates that its files name, and those that declare a type which it meets, since the checker must be
    able to name the type of every value; of this repository, then of the kit."""
    found, met = set(), set()
    for file in (root / 'crates' / crate).rglob('*'):
        if file.suffix in ('.rt', '.antt') and 'out' not in file.relative_to(root / 'crates' / crate).parts[:1]:
            found |= set(re.findall(r'\bRattle\.(\w+)\.', file.read_text()))
    for text in sources(crate):
        found |= set(re.findall(r'\b(\w+)::', text))
        for of, name in re.findall(r'\b(\w+)::(?:\w+::)*(\w+)', text):
            if of in crates():
                types, functions = declared(of)
                met |= functions.get(name, set()) | ({(of, name)} if name in types else set())
    for parts in [*declared(crate)[0].values(), *declared(crate)[1].values()]:
        met |= parts
    todo = list(met)
    while todo:
        of, name = todo.pop()
        parts = declared(of)[0].get(name, set()) - met
        met |= parts
        todo += parts
    found |= {of for of, name in met}
    return sorted(found & crates() - {crate}) + sorted(found & KIT - {'std'})
