"""What a function or a theorem of a crate rests on, read off the texts: the definitions of the crate's specs/ and proofs/ that it names, those that these
name, and so on. Of a function that is called only the contract counts: its body is no part of the caller's proof. Where a name is not found in the file that a
`use` line names, all of that file counts, and a line that is not understood ends it, so what is not found here is not rested on."""

import re
from pathlib import Path
from typing import NamedTuple

KEPT = r'(?:(?:pub|abbrev|unfoldable) )*'
HEAD = re.compile(rf'^{KEPT}(?:(data|record|module)\b|ruleset (\S+) =|(\S+)(?: \{{[^}}]*\}})* :(?: |$))', re.M)
INNER = re.compile(rf'^ +{KEPT}(\S+)(?: \{{[^}}]*\}})* :(?: |$)', re.M)
USE = re.compile(r'^ *(?:ghost |pub )*use (\S+?)(?:\.\{([^}]*)\}| as (\S+?))?;?$', re.M)
APART = re.compile(r'[\s(){}\[\].,;`"⌜⌝]+')
OF_THE_BODY = ('Goals', 'Given', 'Tie', 'Lts', 'Code')


class NotUnderstood(Exception):
    pass


class Part(NamedTuple):
    """A definition, or a function's contract or body, and where it stands."""
    file: str
    begin: int
    end: int
    text: str


def bare(text):
    return re.sub(r'--.*', '', text)


class Crate:
    def __init__(self, folder):
        self.folder = Path(folder)
        self.texts = {str(file.relative_to(folder)): file.read_text() for part in ('src', 'specs', 'proofs') for file in sorted(self.folder.glob(f'{part}/**/*')) if file.is_file()}
        self.parts = {}  # by the file and a name of its own
        self.names = {}  # by the file and any name that is declared in a part, the keys of the parts
        self.contracts, self.bodies = {}, {}  # by the function's name
        for file, text in self.texts.items():
            if file.startswith('src/'):
                self.read_code(file, text)
            else:
                self.read_definitions(file, text)
        self.scopes = {file: self.scope_of(file, text) for file, text in self.texts.items()}

    def read_code(self, file, text):
        for begin in re.finditer(r'^(    )?(?:pub )?(?:extern "C" )?fn (\w+)', text, re.M):  # a method stands further in
            further = begin[1] or ''
            body = re.compile(rf'^{further}(?:\S.*)?\{{$', re.M).search(text, begin.start())  # the lines of a contract stand further in
            after = re.compile(rf'^{further}\}}', re.M).search(text, body.end())
            self.contracts[begin[2]] = Part(file, begin.start(), body.end(), text[begin.start() : body.end()])
            self.bodies[begin[2]] = Part(file, body.end(), after.end(), text[body.end() : after.end()])
        for item in re.finditer(r'^(?:pub )?const (\w+)\b.*;$', text, re.M):
            self.parts[file, item[1]] = Part(file, item.start(), item.end(), item[0])
            self.names[file, item[1]] = {(file, item[1])}

    def read_definitions(self, file, text):
        self.last = None
        heads = [*HEAD.finditer(text)]
        for head, following in zip(heads, [*heads[1:], None]):
            end = following.start() if following else len(text)
            inner = [one for one in INNER.finditer(text, head.end(), end)] if head[1] else []
            if head[1] == 'module':  # what stands in it goes by its own name, with what the module is over
                over = text[head.start() : inner[0].start() if inner else end]
                for one, later in zip(inner, [*inner[1:], None]):
                    stop = later.start() if later else end
                    self.add(Part(file, one.start(), stop, over + text[one.start() : stop]), {one[1]})
            else:
                first = head[2] or head[3] or text[head.end() : end].split()[0]
                self.add(Part(file, head.start(), end, text[head.start() : end]), {first, *(one[1] for one in inner)})

        for line in text.split('\n'):
            self.understood(file, line)

    def understood(self, file, line):
        """Each line that is not further in begins a definition, goes on with one, or brings names."""
        head = HEAD.match(line)
        if head:
            self.last = head[3] or head[2]
        elif re.match(r'[^\s)}\]]', line) and not line.startswith(('--', 'use ', 'mod ', 'pub mod ', 'unfolding ', 'infixl ')) and re.match(rf'{KEPT}(\S+)', line)[1] != self.last:
            raise NotUnderstood(f'{self.folder.name}/{file}: {line}')

    def add(self, part, names):
        key = part.file, f'{min(names)}, {part.begin}'
        self.parts[key] = part
        for name in names:
            self.names.setdefault((part.file, name), set()).add(key)

    def scope_of(self, file, text):
        """What each name of this file leads to: keys of what is rested on."""
        scope = {}
        if not file.startswith('src/'):
            scope |= {name: keys for (of, name), keys in self.names.items() if of == file}
        if len(USE.findall(text)) != len(re.findall(r'^ *(?:pub )?use |^ghost use ', text, re.M)) and not file.startswith('src/'):
            raise NotUnderstood(f'{self.folder.name}/{file}: a `use` line')
        for module, listed, name in USE.findall(text):
            if name:
                scope[name] = self.all_of(module)
            for one in filter(None, (one.strip() for one in (listed or '').split(','))):
                found, _, here = one.partition(' as ')
                scope[here or found] = self.named_in(module, found)
        return scope

    def where(self, module):
        """The file of the crate's own that is this module, and the function whose module it is; None for each that it is not."""
        own = re.fullmatch(rf'Rattle\.{self.folder.name}\.((?:specs|proofs)\..*)', module)
        if not own:
            return None, None
        steps = own[1].split('.')
        for count in range(len(steps), 1, -1):
            file = '/'.join(steps[:count]) + '.antt'
            if file in self.texts:
                return file, None
        return None, next((step for step in reversed(steps) if step in self.contracts), None)

    def all_of(self, module):
        file, function = self.where(module)
        if file:
            return {key for key in self.parts if key[0] == file}
        return self.of_function(function, module) if function else set()

    def of_function(self, function, module):
        return {('contract', function)} | ({('body', function)} if module.rsplit('.', 1)[1] in OF_THE_BODY else set())

    def named_in(self, module, name):
        file, function = self.where(module)
        return self.names[file, name] if (file, name) in self.names else self.all_of(module)

    def led_to(self, part):
        """What a part's text names."""
        text, scope = bare(part.text), self.scopes[part.file]
        words = {word for word in APART.split(text) if word}
        found = set()
        own = {name for (file, name), keys in self.names.items() if file == part.file and any(self.parts[key] is part for key in keys)}
        for name, keys in scope.items():
            if name in own:  # a record's field, whatever another record of the file calls so
                continue
            if name in words or '◌' in name and words & {*name.split('◌')} - {''}:
                found |= keys
        if part.file.startswith('src/'):
            said = {*re.findall(r'\w+', text)}
            found |= {('contract', function) for function in self.contracts if function in said}
            found |= {key for key in self.parts if key[0].startswith('src/') and key[1] in said}
        return found

    def part(self, key):
        return {'contract': self.contracts, 'body': self.bodies}[key[0]][key[1]] if key[0] in ('contract', 'body') else self.parts[key]

    def begun(self, name):
        """A function's contract, body and proof; or the definitions of that name."""
        if name in self.contracts:
            proof = {key for key in self.parts if re.search(rf'/{name}/[^/]*$', key[0]) and key[0].startswith('proofs/')}
            return {('contract', name), ('body', name)} | proof
        return set().union(*(keys for (_, one), keys in self.names.items() if one == name))

    def reached_from(self, begun):
        found, todo = set(), {*begun}
        while todo:
            key = todo.pop()
            if key not in found:
                found.add(key)
                todo |= self.led_to(self.part(key)) - found
        return found

    def rested_on(self, name):
        """What a function or every definition of this name rests on."""
        return self.reached_from(self.begun(name))

    def rested_on_at(self, file, name):
        """The same of the definition of this name in this file; of one that a function's proof has, of the whole proof."""
        function = Path(file).parent.name
        return self.rested_on(function) if function in self.contracts else self.reached_from(self.names.get((file, name), set()))

    def keys_of(self, definition):
        """A definition of specs/, or a constant, by its name."""
        return set().union(*(keys for (file, name), keys in self.names.items() if name == definition and file.startswith(('src/', 'specs/'))))

    def part_named(self, definition):
        keys = self.keys_of(definition)
        return self.parts[keys.pop()] if len(keys) == 1 else None
