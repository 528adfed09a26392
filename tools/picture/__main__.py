"""picture [OPTION..] [FILE]: a run drawn. What a run is comes from replay's lines; what is not there is not drawn."""

import os
import sys

import replay
from manners import Told, is_told, kept, number_of, printed, read, run, say, written
from of_log import judged, log_page, log_scene
from of_run import scene_of
from of_run_page import page_of
from run import MOST, run_of
from svg import svg_of

HELP = f'''picture [-o NAME.svg|NAME.html] [--from N] [--to N] [--queue NAME] [--edition N] [--bits N] [--lent]
        [--tape] [FILE]
picture --log [-o NAME.svg|NAME.html] [--from N] [--to N] [--queue NAME] [--edition N] [FILE]

Draws the run of a schedule: an SVG, or an HTML page that needs no network and nothing beside
itself. The schedule is read from FILE, or from standard input, and run by replay; replay --help
says how it is written.

Time goes right, an entry a column. A lane for each worker: a circle where a call begins, a box for
each act with the place that it is done at, solid while a slot is in the worker's hand, with a notch
and the cause where it goes back, the answer at its end, and a diamond at its moment, where a plain
queue gives that answer. Below, what waits in that plain queue, a cell a change. Below, the claims
of tail and head as two lines of steps, a thick one while the queue is closed; between them a bar
for each item, from its claim at tail to the claim at head that takes it. Below, a lane for each
slot (the first four and the last four where there are more than 8; of the unbounded queue those
that something happens to): whose hand, stamp or state, value. Moments are those of replay --calls,
of every queue: an answer that has none there has no diamond.

On the page time alone is zoomed; a strip shows the whole run, and where one is. A pane has the
state after the entry under the mouse: both ends decoded, workers, slots, what is new marked. A
click pins it. Keys: arrows go an entry back or on (with Shift ten), n and p to the next retry,
claim, answer or refusal, + - 0 1 zoom, / searches for an item, Esc lets go. #e12 in the address is
entry 12. Below is a table of all entries, which needs no script.

  -o NAME     writes this file, whole or not at all: .svg or .html; one that is there keeps its
              mode, and in place of a link comes the file; without it the SVG goes to standard
              output
  --from N    the first entry that is drawn (0 if not given)
  --to N      the last one (the run's last if not given); at most {MOST['svg']:,} entries are drawn, on
              a page {MOST['html']:,}
  --log       FILE is a log of calls and answers, as possible --help says. Where it is possible, the
              schedule that possible finds is drawn; where not, the log, and the answers that cannot
              stand together stand out
  --queue single, --queue unbounded, --edition 2, --bits 16, --lent, --tape   for replay, as its
              help says
  --version   prints the version
  -h, --help  prints this

A value may stand behind an = too, as in --to=99. What follows a word -- is a name.

A refused schedule is drawn up to its refusal, which is shown.
Status: 0 drawn, 1 drawn up to a refusal, or an impossible log, or a tape that is refused, 2 input
or arguments cannot be read, or not all can be written, 3 a log that is drawn and not decided.
'''
NOT_FOR_LOGS = ('--bits', *replay.ALONE)


def main(starter, words):
    if is_told('picture', HELP, words):
        return 0
    options, file = read(words, ('-o', '--from', '--to', *replay.WITH_VALUE), ('--log', *replay.ALONE))
    chosen = dict(options)
    first, last = (number_of(option, chosen[option]) if option in chosen else None for option in ('--from', '--to'))
    if last is not None and last < (first or 0):
        raise Told(f'nothing from entry {first or 0} to {last}')
    name = chosen.get('-o')
    if name is not None and not name.endswith(('.svg', '.html')):
        raise Told(f'{name}: a picture is kept as .svg or .html')
    for option in NOT_FOR_LOGS if '--log' in chosen else ():
        if option in chosen:
            raise Told(f'{option} does not go with --log (see --help)')
    if name is None and os.isatty(1):
        raise Told('standard output is a terminal: name a file, as -o run.html')
    kind = 'html' if name and name.endswith('.html') else 'svg'
    said, status = (log_drawn if '--log' in chosen else run_drawn)(starter, options, replay.words_for(options), file, kept(file), first, last, kind)
    said = said.encode(errors='replace')
    written('picture', name, said) if name else printed(said)
    return status


def run_drawn(starter, options, for_replay, file, given, first, last, kind, more=()):
    """What replay runs, as text of this kind, and the status."""
    runs = replay.Replay(starter, for_replay, file, given)
    try:
        drawn = run_of(runs, dict(options).get('--queue', 'bounded'), options, first, last, MOST[kind])
    finally:
        if runs.noted:
            say(runs.noted)
    scene = scene_of(drawn)
    scene.said += more
    is_refused = drawn.refusal and (drawn.refusal[0] is None or drawn.refusal[0] <= drawn.last or not drawn.acts)
    return page_of(drawn, scene) if kind == 'html' else svg_of(scene), 1 if is_refused else 0


def log_drawn(starter, options, for_possible, file, given, first, last, kind):
    """What possible finds; where it finds none, the log."""
    verdict = judged(for_possible, file, given)
    if verdict.schedule:
        options = options + [(option, '') for option in verdict.options if option == '--lent']
        return run_drawn(starter, options, verdict.options, file or 'standard input', verdict.schedule, first, last, kind, ['possible: a schedule that gives these answers'])
    scene, *told = log_scene(verdict, first, last, MOST[kind])
    return log_page(scene, *told) if kind == 'html' else svg_of(scene), verdict.status


run('picture', lambda words: main([words[0]], words[1:]), sys.argv[1:])
