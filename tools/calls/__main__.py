"""replay --calls, replay --json, a part of replay --explain: a run by its calls, its lines as JSON, some of its lines in plain words. What happened is what replay
prints; it is started with the words that are left."""

import json
import subprocess
import sys

from calls import LEFT, Fold, beside_numbers, line_of, options_for, plain_lines, said_of, table
from manners import Told, copy_of, is_kept, number_of, options_among, printed, run
from part import passed_on
from queues import IDLE, READINGS, pairs_of

MOST = 1_000_000  # entries of a schedule that is told by its calls
NAMES = {'h': 'head', 't': 'tail', 'm': 'meter', 's': 'state', 'hb': 'head_block', 'tb': 'tail_block'}
WITH_VALUE = ('--queue', '--edition', '--bits', '--follow')
CHOOSE = ('--from', '--to', '--worker')  # of the rows of --calls, of the lines of --explain
NOT_WITH = {
    '--calls': ('--quiet', '--causes', '--moments', '--losses', '--stock', '--summary', '--words-of', '--explain', '--follow'),
    '--json': ('--words-of', '--explain', '--follow'),
}


class Asked:
    """What this program looks at among the words; replay judges the rest."""

    def __init__(self, words):
        self.calls = self.json = self.many = False
        self.rest, self.queue, self.narrow, self.lent = [], 'bounded', False, False
        given, name, words, self.chosen = [], None, list(words), {}
        while words:
            word = words.pop(0)
            option, equals, value = word.partition('=')
            if word == '--':
                self.rest += [word, *words]
                name = words[0] if words else None
                break
            if option in ('--calls', '--json'):
                if equals:
                    raise Told(f'{option} takes no value: {word} (see --help)')
                setattr(self, option[2:], True)
                continue
            if option in CHOOSE:
                if not (equals or words):
                    raise Told(f'{option} wants a number (see --help)')
                self.chosen[option] = number_of(option, value if equals else words.pop(0))
                continue
            self.rest.append(word)
            if word.startswith('-'):
                given.append(option)
            else:
                name = word
            if option in WITH_VALUE:
                if not equals and words:
                    value = words.pop(0)
                    self.rest.append(value)
                self.queue = value if option == '--queue' else self.queue
                self.narrow = value == '16' if option == '--bits' else self.narrow
        self.many, self.lent, self.file = '--many' in given, '--lent' in given, name
        for asked in ('--calls', '--json'):
            clash = next((option for option in given if option in NOT_WITH[asked]), None)
            if getattr(self, asked[2:]) and clash:
                raise Told(f'{clash} does not go with {asked} (see --help)')
        if self.chosen and not self.calls and '--explain' not in given:
            raise Told(f'{next(iter(self.chosen))} needs --explain or --calls (see --help)')

    def is_chosen(self, worker, first, last):
        """Of a worker's entries FIRST to LAST, None while they go on."""
        chosen = self.chosen
        return worker == chosen.get('--worker', worker) and first <= chosen.get('--to', first) and (last is None or last >= chosen.get('--from', 0))


class Started:
    """replay at work: its lines, and at its end the status."""

    def __init__(self, words, given=None, is_heard=True):
        if given is not None:
            given.seek(0)
        try:
            self.run = subprocess.Popen(words, stdin=given, stdout=subprocess.PIPE, stderr=None if is_heard else subprocess.DEVNULL, text=True, errors='surrogateescape')
        except OSError as wrong:
            raise Told(f'{words[0]}: {wrong.strerror}')

    def __iter__(self):
        for line in self.run.stdout:
            yield line.rstrip('\n')

    def __enter__(self):
        return self

    def __exit__(self, *_):
        self.run.stdout.close()
        if self.run.poll() is None and _[0] is not None:
            self.run.terminate()
        self.run.wait()


class Out:
    """What is printed, piece by piece."""

    def __init__(self):
        self.lines, self.length, self.is_read = [], 0, True

    def put(self, line):
        self.lines.append(line + '\n')
        self.length += len(line)
        if self.length > 1 << 16:
            self.end()

    def end(self):
        if self.is_read and self.lines:
            self.is_read = printed(''.join(self.lines).encode(errors='surrogateescape'))
        self.lines, self.length = [], 0


# Lines as JSON

def number(word):
    """An answer that is held until a block is freed is a word."""
    return None if word == '-' else int(word) if word.isdigit() else word


def moment(word):
    return None if word == '-' else {'entry': int(word.rstrip('+')), 'after': word.endswith('+')}


def counted(words):
    return {name: int(value) for name, _, value in (word.partition('=') for word in words)}


class Lines:
    """The objects of one schedule's lines; a worker's call is known from its begin."""

    def __init__(self, reading):
        self.reading, self.calls, self.stands = reading, {}, {}

    def object_of(self, text):
        words = text.split()
        if text.startswith(LEFT):
            return {'kind': 'left-window', 'entry': int(words[-1])}
        if words[0].isdigit():
            return self.entry(line_of(text))
        kind, *rest = words
        if kind == 'made':
            return {'kind': kind, 'refused': int(rest[0])}
        if kind == 'slots':
            return {'kind': kind, 'slots': pairs_of(text)}
        if kind == 'value':
            return {'kind': kind, 'value': int(rest[0])}
        if kind == 'block':
            return {'kind': kind, 'block': int(rest[0]), 'next': number(rest[1].partition('=')[2]), 'slots': pairs_of(text)}
        if kind == 'contents':
            refused = int(rest[1]) if rest[:1] == ['refused'] else 0
            return {'kind': kind, 'refused': refused, 'items': None if refused else list(map(int, rest))}
        return {'kind': kind, **counted(rest)}

    def entry(self, line):
        told = {'kind': 'run' if line.worker is None else 'entry', 'entry': line.entry, 'refused': line.refused, **{NAMES[name]: number(word) for name, word in line.ends.items()}}
        if line.worker is None:
            return told
        return {**told, 'worker': line.worker, **self.stands_so(line), **{name: ADDED[name](word) for name, word in line.more.items()}}

    def stands_so(self, line):
        if line.stand is None:
            return {'place': None}
        if not line.refused and self.stands.get(line.worker, IDLE).idle:
            name, item = self.reading.call_of(line.stand)
            self.calls[line.worker] = {'call': name, **({'item': int(item)} if item else {})}
        self.stands[line.worker] = line.stand
        told = {'place': line.stand.place, **self.calls.get(line.worker, {})}
        held = list(map(number, line.stand.words))
        if line.stand.idle:
            return {**told, 'answer': None if line.stand.kind == 'none' else line.stand.kind, **({'value': held[0]} if held else {})}
        return {**told, 'holds': held}


def lost(differed, failed):
    return {'differed': differed, 'schedule': failed}


ADDED = {'because': lambda word: word.split(','), 'lost': lambda word: None if word == '-' else lost(*map(int, word.split(','))), 'at': moment, 'stock': int}


def lines_as_json(starter, asked, out):
    with Started([*starter, *asked.rest]) as lines:
        schedule, reading = 0, Lines(READINGS.get(asked.queue))
        for text in lines:
            if text == '%':
                schedule, reading = schedule + 1, Lines(READINGS[asked.queue])
                continue
            out.put(json.dumps({**({'schedule': schedule} if asked.many else {}), **reading.object_of(text)}))
            if not out.is_read:
                return 0
    return lines.run.returncode


# Calls

class Schedule:
    """One schedule of what two runs print: the same entries, in numbers and in plain words."""

    def __init__(self, asked, head):
        made = [int(word) for word in head.replace(',', ' ').split() if word.isdigit()] if head.startswith('made: a ring') else [0]
        self.name = asked.file or 'standard input'
        self.fold = Fold(READINGS[asked.queue](made[0], 16 if asked.narrow else 64))
        self.head, self.last, self.words, self.left, self.is_chosen = head, [], [], None, asked.is_chosen

    def read(self, numbers, explained):
        """Up to the line % that ends it, or the end."""
        for text in numbers:
            if text == '%':
                break
            line = line_of(text)
            if line and line.worker is not None:
                if line.entry >= MOST:
                    raise Told(f'{self.name}: more than {MOST:,} entries, which are not told by their calls')
                words = next(explained, '')
                if not words.lstrip().startswith(f'{line.entry} '):
                    raise Told(f'{self.name}: changed while it was read')
                self.fold.add(text, said_of(words))
                if line.refused:
                    self.words.append(words)
            elif text.startswith(LEFT):
                self.fold.add(text)
                self.left = text
            else:
                self.last.append(text)
        for text in explained:
            if text == '%':
                break
            self.words.append(text)
        return self

    @property
    def calls(self):
        return [call for call in self.fold.calls if self.is_chosen(call.worker, call.begun, call.ended)]

    @property
    def changes(self):
        return [change for change in self.fold.plain.changes if self.is_chosen(change.worker, change.entry, change.entry)]

    def objects(self):
        lines = Lines(self.fold.reading)
        last = [lines.object_of(text) for text in self.last]
        yield {**last[0], 'said': self.head}
        if self.left:
            yield lines.object_of(self.left)
        for call in self.calls:
            yield {
                'kind': 'call', 'worker': call.worker, 'call': call.name, **({} if call.item is None else {'item': call.item}), 'first': call.begun, 'last': call.ended,
                'answer': call.answer or None, **({} if call.value is None else {'value': call.value}), 'moment': moment(call.moment or '-'), 'lost': lost(call.differed, call.failed),
                'retries': [{'entry': entry, 'because': causes} for entry, causes in call.retries],
            }
        for change in self.changes:
            yield {'kind': 'change', 'entry': change.entry, 'what': change.what, 'item': change.item, 'worker': change.worker}
        if self.fold.refusal:
            yield {'kind': 'refused', 'entry': self.fold.refusal[0], 'refused': self.fold.refusal[1]}
        yield from last[1:]

    def text(self):
        yield self.head
        yield from table(self.calls)
        if self.left:
            yield self.left
        yield from plain_lines(self.changes)
        yield from self.words


def by_calls(starter, asked, out):
    given = None if asked.file is not None and is_kept(asked.file) else copy_of(asked.file)
    rest = asked.rest
    if given is not None and asked.file is not None:
        rest = [word for word in rest if word not in ('--', asked.file)]
    more = options_for(asked.queue, asked.lent)
    with Started([*starter, '--explain', *rest], given) as words:
        # told by the first run alone; two of one input that is given share where it is read, so that the second waits for the first
        said = list(words) if given is not None else iter(words)
        if given is not None:
            words.run.wait()
        with Started([*starter, *more, *rest], given, is_heard=False) as numbers:
            told, explained = iter(numbers), beside_numbers(said)
            schedule = 0
            while (head := next(explained, None)) is not None:
                read = Schedule(asked, head).read(told, explained)
                for line in (read.objects() if asked.json else read.text()):
                    out.put(json.dumps({**({'schedule': schedule} if asked.many else {}), **line}) if asked.json else line)
                if asked.many and not asked.json:
                    out.put('%')
                schedule += 1
                if not out.is_read:
                    return 0
    return words.run.returncode


def main(words):
    starter, words = [words[0], 'replay'], words[1:]
    if {'--help', '-h', '--version'} & {*options_among(words)}:
        return subprocess.run([*starter, *words]).returncode
    asked, out = Asked(words), Out()
    if not (asked.calls or asked.json):
        return passed_on([*starter, *asked.rest], asked.is_chosen)
    status = (by_calls if asked.calls else lines_as_json)(starter, asked, out)
    out.end()
    return status


run('replay', main, sys.argv[1:])
