"""The program archive: its arguments, and one run from its beginning to its end."""

import gc
import itertools
import json
import os
import signal
import sys

import files
import log
import report
import runs
import workers

HOME = os.path.dirname(os.path.dirname(os.path.dirname(os.path.realpath(__file__))))
HELP = """archive [OPTION..] PLACE..
archive --sum [--expect N] [FILE..]

Replays every tape (NAME.tape) and schedule (NAME.txt) below the folders PLACE, or the files PLACE,
and compares what replay prints with what was recorded beside each, in NAME.tape.out or
NAME.txt.out, where there is such a file. What is refused, differs or cannot be read is printed as
it is found, with the first line that differs; so is a record whose file is gone. At the end comes a
table: how many ran to their end, were refused, by number, differ, cannot be read.

A record is what replay prints; for a tape that is refused its line 'refused N at byte B: ..' comes
last. Records are compared where they are, and none that is a link is followed; names that end in
neither .tape, .txt nor .out are left aside and counted. A run has a log while it lasts; where you
may not write target/archive, it is kept in fernmoldew/archive of XDG_STATE_HOME, or ~/.local/state.

  --record    writes a record for each file that has none and could be replayed
  --json      one line of JSON for each file: file, result (ran, refused, differs, unreadable; gone:
              the record alone is there), refused (the number), record (same, other, none, written),
              line, recorded and now of the first difference, said; seen: sizes and times of file
              and record. The table goes to standard error
  --sum       the table of lines of JSON, from the files or from standard input
  --expect N  with --sum: so many files there should be, each once
  --jobs N    so many runs of replay at once; as many as there are processors if not given
  --resume    goes on with a run of the same places and options that was interrupted
  --log DIR   where the log of a run is kept while it lasts; target/archive if not given
  --version   prints the version
  -h, --help  prints this

A value may stand behind an = too, as in --jobs=2. What follows a word -- is a place.

The options of replay are handed on, and are the same for all files: --queue NAME, --edition N,
--bits N, --lent, --quiet, --causes, --moments, --losses, --stock, --summary, --explain, --follow
ITEM.

Status: 0 all ran to their end, or were refused, as recorded; 1 some were refused and not recorded
so, differ, or are gone; 2 some cannot be read, the arguments cannot be read, lines that --sum
expects are missing, told twice, or there is none, or not all can be written.
"""
WITH_VALUE = ('--queue', '--edition', '--bits', '--follow')
ALONE = ('--record', '--json', '--sum', '--resume', '--help', '-h', '--version')
HANDED_ON = (*WITH_VALUE, '--lent', '--quiet', '--causes', '--moments', '--losses', '--stock', '--summary', '--explain')
JOBS_MOST = 1024
VERSION = 'archive 0.1.0 of Fernmoldew, the port of concurrent-queue 2.5.0\n'


class Wrong(Exception):
    """One line, and status 2."""


class Interrupted(Exception):
    pass


class Arguments:
    def __init__(self, words):
        self.places, self.options = [], []
        self.record = self.json = self.sum = self.resume = self.help = self.version = False
        self.jobs = len(os.sched_getaffinity(0))
        self.log, self.expect = None, None
        words, are_places = iter(words), False
        for word in words:
            option, equals, value = word.partition('=')
            if are_places or word and not word.startswith('-'):
                self.places.append(os.fsencode(word))
            elif word == '--':
                are_places = True
            elif option in ('--jobs', '--log', '--expect') or option in WITH_VALUE:
                self.valued(option, value if equals else next(words, None))
            elif equals and option in (*ALONE, *HANDED_ON):
                raise Wrong(f'{option} takes no value: {word} (see --help)')
            elif word in ALONE:
                setattr(self, 'help' if word == '-h' else word[2:], True)
            elif word in HANDED_ON:
                self.options.append(word)
            else:
                raise Wrong(f"{word or 'an empty word'} is no option (see --help)")
        if not (self.places or self.sum or self.help or self.version):
            raise Wrong('no folder and no file to replay (see --help)')
        if self.expect is not None and not self.sum:
            raise Wrong('--expect goes with --sum alone (see --help)')

    def valued(self, word, value):
        if value is None:
            raise Wrong(f'{word} wants a value (see --help)')
        if word == '--log':
            self.log = value
        elif word in WITH_VALUE:
            self.options += [word, value]
        elif word == '--expect':
            if not (value.isascii() and value.isdigit() and len(value) < 19):
                raise Wrong(f'--expect wants a number, not {value} (see --help)')
            self.expect = int(value)
        elif value.isascii() and value.isdigit() and 0 < int(value) <= JOBS_MOST:
            self.jobs = int(value)
        else:
            raise Wrong(f'{word} wants a number from 1 to {JOBS_MOST}, not {value} (see --help)')


class Starter:
    """tools/start, which says how replay is run, and builds it first where it must."""

    def __init__(self):
        self.told, writer = os.pipe()
        words = [os.path.join(HOME, 'tools/start'), 'replay', '--command']
        self.process = os.posix_spawn(words[0], words, os.environ, file_actions=[(os.POSIX_SPAWN_DUP2, writer, 1)])
        os.close(writer)

    def command(self):
        with open(self.told, 'rb') as told:
            words = [os.fsdecode(word) for word in told.read().split(b'\0')[:-1]]
        status = os.waitstatus_to_exitcode(os.waitpid(self.process, 0)[1])
        if status:
            raise SystemExit(abs(status))
        return words


def asked_of(arguments, starter):
    """How replay is run; it is asked whether it has a use for the options."""
    asked = runs.Asked(starter.command(), arguments.options, not {'single', 'unbounded'} & set(arguments.options), arguments.record)
    if asked.options:
        program = runs.Program(asked, runs.Turns(1))
        with runs.InMemory(4) as (given, out, said, told):
            runs.write_all(given, b'1 1\n')
            os.lseek(given, 0, os.SEEK_SET)
            program.start([], given, out, said, told)
            if program.ended(told) not in (0, 1):
                raise Wrong(runs.shown(runs.whole(said)).removeprefix('replay: ') or 'replay does not run')
    return asked


def summed(names, expect):
    """The table of lines that were told before, in pieces or on other machines; where it is said how many files there should be, each is counted once."""
    counts = report.Counts()
    seen, twice = set(), None
    for name in names or [b'-']:
        shown = 'standard input' if name == b'-' else report.shown(name)
        try:
            with open(0 if name == b'-' else name, 'rb', closefd=name != b'-') as lines:
                for number, line in enumerate(lines, 1):
                    try:
                        told = json.loads(line)
                        counts.add_told(told)
                    except (ValueError, KeyError, TypeError, AttributeError, RecursionError):
                        raise Wrong(f'{shown}: line {number}: not a line of archive --json') from None
                    if expect is not None and told['result'] != runs.GONE:
                        twice = twice or (told['file'] if told['file'] in seen else None)
                        seen.add(told['file'])
        except OSError as why:
            raise Wrong(f'{shown}: {why.strerror}') from None
    if not (counts.results or expect == 0):
        raise Wrong('there is no line of archive --json')
    output = report.Output()
    output.add(counts.table().encode())
    output.flush()
    if twice is not None:
        raise Wrong(f'{report.shown(twice)}: told twice')
    if expect not in (None, counts.files):
        raise Wrong(f'lines of {counts.files:,} files, and there should be {expect:,}')
    return counts.status


class Untold:
    """What is found on the way, where files are counted only."""

    def troubled(self, *_):
        pass

    without_file = left_aside = troubled


class Run:
    def __init__(self, arguments):
        self.arguments = arguments
        self.counts = report.Counts()
        self.output = report.Output()
        self.before = 0  # done by the run that this one goes on with
        found = self.found(self)
        self.files = itertools.chain(list(itertools.islice(found, 1)), found)  # the first folder is read at once, while the starter is at work

    def tell(self, result):
        told = runs.Told([result])
        self.add(told.counted, told.lines, told.worth)

    def troubled(self, folder, why):
        self.tell(runs.unreadable(folder, why.strerror))

    def without_file(self, file):
        self.tell(runs.gone(file))

    def left_aside(self, _):
        self.counts.aside += 1

    def found(self, told):
        for place in self.arguments.places:
            yield from files.below(place, told)

    def add(self, counted, lines, worth):
        for what, times in counted.items():
            self.counts.add(*what, times)
        if self.arguments.json:
            self.output.add(lines)
        else:
            self.output.add(''.join(map(report.told_of, worth)).encode('utf-8', 'surrogateescape'))

    def was_done(self, told):
        self.counts.add_told(told)
        self.before += 1

    def whole(self, asked):
        arguments = self.arguments
        about = os.stat(asked.command[-2])
        which = {'places': [os.fsdecode(place) for place in arguments.places], 'folder': os.getcwd(), 'options': arguments.options, 'record': arguments.record,
                 'program': [about.st_size, about.st_mtime_ns]}
        try:
            kept = log.Log(arguments.log or log.folder_for(HOME), which, arguments.resume)
        except log.Nowhere:
            raise Wrong('no folder for the log may be written: name one by --log') from None
        except log.Busy:
            raise Wrong('the same places are being replayed with the same options') from None
        if arguments.resume and not kept.goes_on:
            report.say('no such run was interrupted: begun anew')
        total = sum(1 for _ in self.found(Untold())) if os.isatty(2) else 0
        progress = report.Progress(total)
        left = kept.left_of(self.files, self.was_done) if kept.goes_on else self.files
        batches = iter(lambda: list(itertools.islice(left, runs.FILES_MOST)), [])
        crew = workers.Crew(asked, arguments.jobs)
        try:
            for counted, lines, worth in crew.results(batches, lambda: progress.tell(self.counts.files, self.before)):
                self.add(counted, lines, worth)
                progress.end() if self.output.waiting else None
                self.output.flush()
                kept.add(lines)
        finally:
            progress.end()
            crew.end()
        self.output.flush()
        kept.end()


def table(arguments, counts):
    if arguments.json:
        os.write(2, counts.table().encode())
    else:
        runs.write_all(1, counts.table().encode())


def interrupted(number, _):
    raise Interrupted(number)


def run(words):
    arguments = Arguments(words)
    if arguments.help or arguments.version:
        runs.write_all(1, (HELP if arguments.help else VERSION).encode())
        return 0
    if arguments.sum:
        return summed(arguments.places, arguments.expect)
    for number in signal.SIGINT, signal.SIGTERM, signal.SIGHUP:
        signal.signal(number, interrupted)
    starter = Starter()
    this = Run(arguments)
    asked = asked_of(arguments, starter)
    try:
        this.whole(asked)
    except Interrupted:
        report.say(f'interrupted after {this.counts.files:,} files; --resume goes on')
        raise
    except workers.Ended:
        raise Wrong('a process of this run was ended; --resume goes on') from None
    except log.Damaged as where:
        path, number = where.args
        raise Wrong(f'{report.shown(path)}: line {number} is damaged: run it without --resume') from None
    table(arguments, this.counts)
    return this.counts.status


def end_by(number):
    signal.signal(number, signal.SIG_DFL)
    os.kill(os.getpid(), number)


def main():
    # What is closed stays unusable, and no file that is opened later takes its number.
    for number, mode in enumerate((os.O_WRONLY, os.O_RDONLY, os.O_WRONLY, os.O_RDONLY)):
        try:
            os.fstat(number)
        except OSError:
            os.open(os.devnull, mode)
    try:
        return run([os.fsdecode(word) for word in map(os.fsencode, sys.argv[1:])])
    except Wrong as why:
        report.say(why)
    except BrokenPipeError:
        end_by(signal.SIGPIPE)
    except OSError as why:
        report.say(f'{report.shown(os.fspath(why.filename)) if why.filename else "standard output"}: {why.strerror}')
    except Interrupted as by:
        end_by(by.args[0])
    return 2


gc.disable()  # nothing here is a ring of references
sys.exit(main())
