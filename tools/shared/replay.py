"""replay, which says what happened: started, and its lines."""

import subprocess

from manners import Told

UNPROVED = 'built from the sources, not proved on this machine: '
WITH_VALUE, ALONE = ('--queue', '--edition', '--bits'), ('--lent', '--tape')  # what it is handed of another program's options


def words_for(options):
    """Of another program's options, those that are replay's."""
    return [word for option, value in options if option in (*WITH_VALUE, *ALONE) for word in (option, value) if word]


def named_among(options):
    """What replay is to run, of another program's options."""
    chosen = dict(options)
    return chosen.get('--queue', 'bounded'), '--lent' in chosen, chosen.get('--bits') == '16'


def command_of(starter):
    """The words that run the program itself, as tools/start has them; what that notes goes to standard error."""
    done = subprocess.run([*starter, '--command'], stdout=subprocess.PIPE, stdin=subprocess.DEVNULL)
    if done.returncode:
        raise Told('replay is not there', done.returncode)
    *command, _ = done.stdout.decode(errors='surrogateescape').split('\0')[:-1]  # without the word that asks for the status
    return command


class Program:
    """replay itself, run on one text after another."""

    def __init__(self, command, options):
        self.command, self.words = command, words_for(options)
        self.queue, self.lent, self.narrow = named_among(options)

    def for_words(self):
        """The same where nothing is run."""
        return Program(self.command, [('--queue', self.queue)])

    def parts(self, texts, *options):
        """The lines of each of several schedules."""
        found, part = [], []
        for line in self.run('%\n'.join(texts).encode(), '--many', *options):
            if line == '%':
                found.append(part)
                part = []
            else:
                part.append(line)
        return found

    def run(self, text, *options):
        """Its lines. What it cannot read, or refuses as a whole, is told in its words."""
        done = subprocess.run([*self.command, *options, *self.words], input=text, stdout=subprocess.PIPE, stderr=subprocess.PIPE)
        if not done.stdout:
            said = done.stderr.decode(errors='surrogateescape').splitlines()
            raise Told(said[-1][len('replay: '):] if said and said[-1].startswith('replay: ') else said[-1] if said else f'replay ended with status {done.returncode}')
        return done.stdout.decode(errors='surrogateescape').splitlines()


class Replay:
    """replay, started on one input as often as is asked."""

    def __init__(self, starter, queue_words, file, given):
        self.starter, self.words, self.file, self.given = starter, queue_words, None if given else file, given  # what is given is read so, and has a name at the most
        self.name, self.is_named = file or 'standard input', file is not None
        self.noted = None  # the starter's word on what is not proved

    def started(self, *options):
        words = [*self.starter, *options, *self.words, *(['--', self.file] if self.file else [])]
        if self.given:
            self.given.seek(0)
        try:
            return subprocess.Popen(words, stdin=self.given or subprocess.DEVNULL, stdout=subprocess.PIPE, stderr=subprocess.PIPE, text=True, errors='surrogateescape')
        except OSError as wrong:
            raise Told(f'{self.starter[-1]}: {wrong.strerror}')

    def all(self, *options):
        """What it prints, and its status. What it cannot do is told in its words."""
        started = self.started(*options)
        try:
            out, said = started.communicate()
        except BaseException:
            started.terminate()
            raise
        lines = []
        for line in said.split('\n')[:-1]:
            if line.startswith(UNPROVED):
                self.noted = line
            elif lines and lines[-1].startswith('replay: ') and not line.startswith('replay: '):
                lines[-1] += '\n' + line  # of a name that has two
            else:
                lines.append(line)
        if started.returncode not in (0, 1) or not out:
            said = lines[-1] if lines else f'replay ended with status {started.returncode}'
            if said.startswith('replay: '):
                said = said[len('replay: '):]
                if self.given and said.startswith('standard input: '):
                    said = f'{self.name}: {said[len("standard input: "):]}'
            elif self.is_named:
                said = f'{self.name}: {said}'
            raise Told(said, 1 if started.returncode == 1 else 2)
        return out.splitlines(), started.returncode

    def lines(self, *options):
        """Its lines, one by one; whoever has enough of them leaves."""
        started = self.started(*options)
        try:
            yield from started.stdout
        finally:
            started.stdout.close()
            started.stderr.close()
            started.terminate()
            started.wait()
