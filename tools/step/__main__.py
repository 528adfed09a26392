"""step [OPTION..] [FILE]: the machine at a prompt, both ways. What happened is what replay says; at no time is there an entry that replay has not run."""

import os
import re
import signal
import sys

import replay
from machine import Entry, Machine, act
from manners import Told, copy_of, is_told, printed, read, run, say, shown, written
from queues import CALLS, FAIL, WITH_ITEM

HELP = '''step [--queue NAME] [--edition N] [--bits N] [--lent] [--tape] [--print] [FILE]

A queue's machine at a prompt, an act at a time, both ways. Lines are those of a schedule in words
(replay --help), and these. FILE has such lines, or is a schedule in numbers, or a tape: it is run
first. Without a terminal, or with --print, no prompt is shown: the lines come from FILE or from
standard input, and what is printed is the schedule that they come to, with no finish left in it.

  capacity 2, workers 3      first: they make the machine (of other queues workers alone)
  w0 push 101, w1 pop        begins a call: push, force_push, pop, len, is_empty, is_full, close,
                             is_closed
  w0, w0 act, w0 act 4       one act of worker 0; four
  w0 fail, w0 fail 2         an act whose weak exchange fails; two
  w0 finish                  acts until its call answers; where it does not alone, none, and whom it
                             waits for is told
  until w2 answers           along what is ahead; where nothing is, the busy workers act in turn
  until entry 40             the same, until entry 40 is run
  back, back 5, forth, forth 5   so many entries back or forth; a new entry drops what is ahead
  show                       how things stand: head and tail, slots, workers; * is new
  calls                      a row for each call, and the plain queue (replay --calls)
  save FILE                  the schedule up to here, in words
  help, quit                 the end of the input is a quit too

What is refused is told and changes nothing, and the next line is read. A script has show and calls
answered in comments.

  --queue single, --queue unbounded, --edition 2, --bits 16, --lent, --tape   for replay, as its
              help says
  --print     prints the schedule, on a terminal too
  --version   prints the version
  -h, --help  prints this

A value may stand behind an = too, as in --bits=16. What follows a word -- is a name.
Status: 0 done, 1 something was refused, 2 a line or the arguments cannot be read, then nothing is
printed, or not all can be written.
'''
FEW = 8  # slots that are all shown
ENDS = 4
WIDE = 100


class Unread(Exception):
    """A line that cannot be read: what should stand there."""


def number_in(word, what='a number'):
    if not (word.isascii() and word.isdigit()) or len(word) > 20 or int(word) >= 2**64:
        raise Unread(f'{word} is not {what}')
    return int(word)


class Session:
    """Lines, one by one. tell is given what is printed for people; refuse what is refused, with the line's name."""

    def __init__(self, machine, tell, refuse, is_prompt):
        self.machine, self.tell, self.refuse, self.is_prompt = machine, tell, refuse, is_prompt
        self.pending = []  # entries of a script that are not run yet
        self.seen = None  # how things stood when that was last shown
        self.refused = False
        self.is_saved, self.is_warned = True, False

    # Entries

    def flush(self):
        """Runs what is pending. An entry that is refused is dropped with the rest of its line; so are an idle worker's acts up to its next call, which are refused alike."""
        refused = {}  # by line, and told in their order
        while self.pending:
            start = self.machine.at
            ran, refusal = self.machine.run(self.pending)
            self.happened(start)
            left, self.pending = self.pending[ran:], []
            if refusal is None:
                break
            words, idle = self.machine.words_of(refusal), refusal.entry.worker if refusal.number == 5 else None
            refused[refusal.entry.origin] = words
            for entry in left:
                if entry.worker == idle and entry.first % 16 < len(CALLS):
                    idle = None
                if entry.worker == idle:
                    refused.setdefault(entry.origin, words)
                elif entry.origin not in refused:
                    self.pending.append(entry)
        for origin in sorted(refused, key=lambda origin: origin.number or 0):
            self.is_refused(origin, refused[origin])

    def refuse_entry(self, refusal):
        self.is_refused(refusal.entry.origin, self.machine.words_of(refusal))

    def is_refused(self, origin, words):
        self.refused = True
        self.refuse(origin, words)

    def happened(self, start):
        """The lines in plain words of what was run since."""
        self.is_saved, self.is_warned = self.is_saved and start == self.machine.at, False
        if self.is_prompt:
            for line in self.machine.said(start):
                self.tell(line)

    def take(self, entries):
        self.pending += entries
        if self.is_prompt:
            self.flush()
            self.stands()

    # How things stand

    def stands(self):
        """What is new since it was last shown has a *."""
        machine, now = self.machine, {}
        reading, before = machine.reading, self.seen or {}
        def marked(key, text):
            now[key] = text
            return text + ' *' * (before.get(key, text) != text)
        self.tell(f'{machine.at} of {len(machine.rows)} entries' if machine.at < len(machine.rows) else f'{machine.at} entries')
        self.tell('  ' + '; '.join(marked(text.split()[0], text) for text in reading.ends_said(machine.ends)))
        texts = {}
        for slot in sorted(machine.slots):
            first, second = machine.slots[slot]
            name = slot if isinstance(slot, int) else f'{slot[1]} of block {slot[0]}'
            texts[slot] = marked(f'slot {slot}', f'{name} ({str(first).split()[0]},{second})')
        held = {reading.hand_of(stand) for stand in machine.stands.values()}
        shows = [slot for at, slot in enumerate(texts) if len(texts) <= FEW or at < ENDS or at >= len(texts) - ENDS or texts[slot].endswith('*') or slot in held]
        line = f'  slots ({reading.stamp},value):'
        for slot in shows:
            if len(line) + len(texts[slot]) + 2 > WIDE:
                self.tell(line)
                line = '   '
            line += '  ' + texts[slot]
        self.tell(line + ('  ..' if len(shows) < len(texts) else '' if shows else '  none is taken'))
        for worker in range(machine.head[-1]):
            stand = machine.stand(worker)
            hand = reading.hand_of(stand)
            slot = '' if hand is None else 'the slot' if machine.queue == 'single' else f'slot {hand}' if isinstance(hand, int) else f'slot {hand[1]} of block {hand[0]}'
            said = [str(stand), *([] if stand.idle else reading.word_said(stand)), *([f'{slot} in its hand'] if slot else [])]
            text = marked(f'w{worker}', '; '.join(said))
            if machine.head[-1] <= 16 or not stand.idle or stand.kind != 'none' or text.endswith('*'):
                self.tell(f'  w{worker:<3} {text}')
        busy = machine.busy()
        weak = [worker for worker in busy if machine.stand(worker).place in reading.weak]
        self.tell('  can act: ' + (', '.join(f'w{worker}' for worker in busy) or 'nobody') + '; may fail: ' + (', '.join(f'w{worker}' for worker in weak) or 'nobody'))
        self.seen = now

    # Lines

    def line(self, text, origin):
        """Whether another may follow."""
        words = text.partition('#')[0].split()
        if not words:
            return True
        name, *rest = words
        if self.machine.wants and name not in ('help', 'quit'):
            self.make(name, rest, origin)
        elif re.fullmatch(r'w\d+', name):
            self.of_worker(number_in(name[1:]), rest, origin)
        elif name in COMMANDS:
            if len(rest) not in COMMANDS[name]:
                raise Unread(f'{name}: see help')
            if name != 'help':
                self.flush()
            return getattr(self, name)(rest, origin) is not False
        elif name in ('capacity', 'workers'):
            raise Unread('the machine is made already')
        else:
            raise Unread(f'{name} is no command: see help')
        return True

    def make(self, name, rest, origin):
        if name != self.machine.wants or len(rest) != 1:
            raise Unread(f'expected: {self.machine.wants} and a number')
        refused = self.machine.name(number_in(rest[0]))
        if refused:
            self.is_refused(origin, refused)
        elif self.machine.made:
            if self.is_prompt:
                self.tell(self.machine.made)
                self.stands()

    def of_worker(self, worker, rest, origin):
        if worker >= 2**60:
            raise Unread(f'w{worker} is no worker')
        what = rest[0] if rest else 'act'
        if what in CALLS:
            if len(rest) != 1 + (what in WITH_ITEM):
                raise Unread(f'expected: w{worker} {what}' + ' and an item, which is a number' * (what in WITH_ITEM))
            self.take([Entry(16 * worker + CALLS.index(what), number_in(rest[1], 'an item, which is a number') if what in WITH_ITEM else 0, origin)])
        elif what in ('act', 'fail') and len(rest) <= 2:
            count = number_in(rest[1], 'a number of acts, from 1') if len(rest) == 2 else 1
            if not count:
                raise Unread('0 is not a number of acts, from 1')
            if count > 100_000:
                raise Unread(f'{count} acts: 100000 are the most')
            self.take([act(worker, origin) if what == 'act' else Entry(16 * worker + FAIL, 0, origin)] * count)
        elif rest == ['finish']:
            self.flush()
            self.finish(worker, origin)
        else:
            raise Unread(f'{" ".join(rest)}: no call, act, fail or finish')

    def finish(self, worker, origin):
        start = self.machine.at
        awaited, refusal = self.machine.finish(worker, origin)
        self.happened(start)
        if refusal:
            self.refuse_entry(refusal)
        elif awaited is not None:
            self.is_refused(origin, f'w{worker} does not answer alone: it waits for {" and ".join(awaited) or "nobody that has a slot in hand"}')
        if self.is_prompt:
            self.stands()

    def until(self, rest, origin):
        machine = self.machine
        if rest[0] == 'entry':
            last = number_in(rest[1])
            is_so = lambda at, row: at >= last
            workers = range(machine.head[-1])
        elif re.fullmatch(r'w\d+', rest[0]) and rest[1] == 'answers':
            asked = number_in(rest[0][1:])
            is_so = lambda at, row: row.line.worker == asked and row.line.stand.idle
            workers = [asked, *(worker for worker in range(machine.head[-1]) if worker != asked)]
        else:
            raise Unread('expected: until entry N, or until wK answers')
        start = machine.at
        found = next((at for at in range(machine.at, len(machine.rows)) if is_so(at, machine.rows[at])), None)
        if rest[0] == 'entry' and last < machine.at:
            return self.is_refused(origin, f'entry {last} is run: {machine.at} are')
        machine.move(len(machine.rows) if found is None else found + 1)
        is_found = found is not None
        if not is_found:
            is_found = not (rest[0] != 'entry' and machine.stand(asked).idle) and machine.until(is_so, workers, origin)
        self.happened(start)
        if not is_found:
            self.is_refused(origin, f'{"w%d is idle" % asked if rest[0] != "entry" and machine.stand(asked).idle else "nobody can act" if not machine.busy() else "who is busy goes round"}: {machine.at} entries are run')
        if self.is_prompt:
            self.stands()

    def back(self, rest, origin):
        self.go(-1, rest, origin)

    def forth(self, rest, origin):
        self.go(1, rest, origin)

    def go(self, way, rest, origin):
        machine, count = self.machine, number_in(rest[0]) if rest else 1
        at = machine.at + way * count
        if not 0 <= at <= len(machine.rows):
            self.is_refused(origin, f'there are {machine.at if way < 0 else len(machine.rows) - machine.at} entries {"behind" if way < 0 else "ahead"}')
            at = 0 if way < 0 else len(machine.rows)
        start = machine.at
        machine.move(at)
        self.happened(start)
        if self.is_prompt:
            self.stands()

    def show(self, rest, origin):
        self.stands()

    def calls(self, rest, origin):
        for line in self.machine.calls():
            self.tell(line)

    def save(self, rest, origin):
        said = ''.join(line + '\n' for line in self.machine.in_words())
        try:
            written('step', rest[0], said.encode())
        except Told as told:
            return self.is_refused(origin, str(told))
        self.is_saved = True
        if self.is_prompt:
            ahead = len(self.machine.rows) - self.machine.at
            self.tell(f'{self.machine.at} entries in {shown(rest[0])}' + f'; {ahead} are ahead, and not in it' * bool(ahead))

    def help(self, rest, origin):
        for line in HELP[HELP.index('  capacity'):HELP.index('  --queue')].rstrip().splitlines():
            self.tell(line)

    def quit(self, rest, origin):
        if self.is_prompt and not self.is_saved and not self.is_warned:
            self.is_warned = True
            self.tell('not saved: save FILE keeps it, another quit leaves')
            return True
        return False


COMMANDS = {'until': (2,), 'back': (0, 1), 'forth': (0, 1), 'show': (0,), 'calls': (0,), 'save': (1,), 'help': (0,), 'quit': (0,)}


# A script

def lines_of(program, file, is_tape):
    """Of FILE or standard input, as text; a schedule in numbers or a tape as replay has it in words."""
    with copy_of(file) as copy:
        copy.seek(0)
        data = copy.read()
    first = next((word for line in data.split(b'\n') for word in line.partition(b'#')[0].split()[:1]), b'')
    if is_tape or first[:1].isdigit():
        try:
            return program.run(data, '--words-of')
        except Told as told:
            raise Told(str(told).replace('standard input: ', f'{file or "standard input"}: ', 1), told.status)
    return data.decode(errors='surrogateescape').splitlines()


def of_script(machine, file, lines):
    """The session at the script's end, what it told, and whether all lines could be read."""
    name, told, is_read = file or 'standard input', [], True
    def refuse(origin, words):
        say(f'{name}:{origin.number}: {words}')
    session = Session(machine, lambda line: told.append(f'# {line}'), refuse, False)
    for number, text in enumerate(lines, 1):
        try:
            if not session.line(text, Origin(number)):
                break
        except Unread as unread:
            is_read = False
            say(f'{name}:{number}: {unread}')
    session.flush()
    return session, told, is_read


class Origin:
    """A line of a script: two of them are never one."""

    def __init__(self, number):
        self.number = number


def filtered(machine, file, lines):
    session, told, is_read = of_script(machine, file, lines)
    if machine.wants:
        say(f'step: {file or "standard input"}: no machine: expected: {machine.wants} and a number')
        return 2
    if not is_read:
        return 2
    printed(''.join(line + '\n' for line in (*told, *machine.in_words())).encode(errors='surrogateescape'))
    return int(session.refused)


# The prompt

def completed(machine):
    """What a word may be completed to, by the words before it."""
    import readline
    def complete(text, state):
        before = readline.get_line_buffer()[:readline.get_begidx()].split()
        if machine.wants:
            words = [machine.wants] if not before else []
        elif not before:
            words = [*(f'w{worker}' for worker in range(machine.head[-1])), *COMMANDS]
        elif re.fullmatch(r'w\d+', before[0]) and len(before) == 1:
            words = [*CALLS, 'act', 'fail', 'finish']
        elif before == ['until']:
            words = ['entry', *(f'w{worker}' for worker in range(machine.head[-1]))]
        elif before[0] == 'until' and len(before) == 2 and before[1] != 'entry':
            words = ['answers']
        elif before == ['save']:
            folder, _, name = text.rpartition('/')
            try:
                words = [os.path.join(folder, one) + '/' * os.path.isdir(os.path.join(folder, one)) for one in sorted(os.listdir(folder or '.'))]
            except OSError:
                words = []
        else:
            words = []
        found = [word for word in words if word.startswith(text)]
        return found[state] + ' ' * (len(found) == 1 and not found[state].endswith('/')) if state < len(found) else None
    readline.set_completer(complete)
    readline.set_completer_delims(' \t')
    readline.parse_and_bind('tab: complete')


def at_prompt(machine, file, lines):
    try:
        completed(machine)
    except ImportError:
        pass  # this Python has no readline: lines are read without editing
    if lines:
        session, told, _ = of_script(machine, file, lines)
        for line in told:
            print(line)
    session = Session(machine, print, lambda origin, words: print(words), True)
    if machine.made:
        print(machine.made)
        session.stands()
    else:
        print(f'a new machine: {machine.wants} N first; help tells the rest')
    signal.signal(signal.SIGINT, signal.default_int_handler)
    while True:
        try:
            text = input(f'step {machine.at}> ')
            if not session.line(text, Origin(None)):
                break
        except EOFError:
            print()
            break
        except KeyboardInterrupt:
            print()
        except Unread as unread:
            print(unread)
        except Told as told:
            print(told)
    return 0


def main(words):
    starter, words = [words[0], 'replay'], words[1:]
    if is_told('step', HELP, words):
        return 0
    options, file = read(words, replay.WITH_VALUE, (*replay.ALONE, '--print'))
    chosen = dict(options)
    of_machine = [(option, value) for option, value in options if option not in ('--tape', '--print')]
    command = replay.command_of(starter)
    machine = Machine(command, of_machine)
    machine.program.run(b'1 1\n' if machine.queue == 'bounded' else b'1\n', '--explain')  # what replay has to say of the options
    is_prompt = os.isatty(0) and os.isatty(1) and '--print' not in chosen
    as_words = replay.Program(command, [(option, value) for option, value in options if option in ('--queue', '--tape')])
    lines = lines_of(as_words, file, '--tape' in chosen) if file or not is_prompt else []
    return at_prompt(machine, file, lines) if is_prompt else filtered(machine, file, lines)


run('step', main, sys.argv[1:])
