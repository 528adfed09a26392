"""A log of calls and answers as a scene, with what possible says of it. Its grammar is possible's (possible --help); a log that possible cannot read is not drawn."""

import json
import os
import re
import subprocess
import tempfile
from dataclasses import dataclass
from pathlib import Path
from typing import NamedTuple, Optional

from manners import Told, say
from page import KINDS, html_of
from replay import UNPROVED
from run import name_of
from scene import THIN, Answer, Bar, Box, Scene, lanes_of
from svg import line, rect

POSSIBLE = os.environ.get('POSSIBLE') or str(Path(__file__).resolve().parents[2] / 'possible')
COLUMNS = 'Line', 'Worker', '', 'What was seen'
TIMES = re.compile(r'(\d+)\.\.(\d*)$')


class Verdict(NamedTuple):
    """schedule: a file, and how replay is told to run it, where the log is possible. lines: those of the answers that cannot stand together."""
    name: str
    text: str
    status: int
    said: str
    schedule: object = None
    options: tuple = ()
    lines: tuple = ()


@dataclass
class Seen:
    """A call of the log: where it was called and where it had returned, among the events; the lines that say so."""
    worker: int
    said: str
    line: int
    begun: int
    ended: Optional[int] = None
    answer: str = ''


def judged(options, file, given):
    if given:
        given.seek(0)
    try:
        done = subprocess.run([POSSIBLE, '--json', *options, *([] if given else [file if os.path.isabs(file) else f'./{file}'])], stdin=given or subprocess.DEVNULL, capture_output=True, text=True, errors='surrogateescape')
        if given:
            given.seek(0)
        text = given.read().decode(errors='replace') if given else Path(file).read_text(errors='replace') if done.returncode in (0, 1, 3) else ''
    except OSError as wrong:
        raise Told(f'{wrong.filename or POSSIBLE}: {wrong.strerror}')
    if done.returncode not in (0, 1, 3) or not done.stdout:
        said = (done.stderr.strip().splitlines() or [f'possible ended with status {done.returncode}'])[-1]
        said = said[len('possible: '):] if said.startswith('possible: ') else said
        raise Told(said[2:] if not given and said.startswith('./') else said)
    for line in done.stderr.splitlines():
        if line.startswith(UNPROVED):
            say(line)
    found, name = json.loads(done.stdout), name_of(file or 'standard input')
    if found['possible']:
        schedule = tempfile.TemporaryFile()
        schedule.write(found['schedule'].encode())
        return Verdict(name, text, 0, 'possible', schedule, tuple(re.match(r'# possible: \./replay(.*) runs this', found['schedule'])[1].split()))
    if found['possible'] is None:
        return Verdict(name, text, 3, f'not decided: {found["states"]:,} states seen, and the answer of line {found["line"]} come to')
    row = '' if found['row'] is None else f' (PROMISES: What a log never shows, {found["row"]})'
    fewer = '' if found['smallest'] else 'perhaps by fewer answers; '
    return Verdict(name, text, 1, f'impossible: {fewer}{found["why"]}{row}', lines=tuple(tuple(answer['lines']) for answer in found['answers']))


def calls_of(text):
    """The calls, and each event with what stands above its column: a line's number, or a time. Of one time calls come before answers, since they overlap."""
    calls, open_calls, stamped, head = [], {}, [], []
    for number, line in enumerate(text.splitlines(), 1):
        words = line.partition('#')[0].split()
        if not words or not re.match(r'w\d+$', words[0]):
            continue
        worker, words = int(words[0][1:]), words[1:]
        times = next((i for i, word in enumerate(words) if TIMES.match(word)), None)
        if times is not None:
            begun, ended = TIMES.match(words[times]).groups()
            call = Seen(worker, ' '.join(words[:times]), number, 0, answer=' '.join(words[times + 1:]))
            stamped.append((int(begun), 0, len(calls), call))
            if ended:
                stamped.append((int(ended), 1, len(calls), call))
            calls.append(call)
        elif worker in open_calls:
            call = open_calls.pop(worker)
            call.ended, call.answer = len(head), ' '.join(words)
            head.append((number, call))
        else:
            open_calls[worker] = call = Seen(worker, ' '.join(words), number, len(head))
            calls.append(call)
            head.append((number, call))
    for time, is_answer, _, call in sorted(stamped, key=lambda event: event[:3]):
        if is_answer:
            call.ended = len(head)
        else:
            call.begun = len(head)
        head.append((time, call))
    return calls, head


def log_scene(verdict, first, last, most):
    """The scene, the table's rows, and of what kind each is: an event a column."""
    calls, events = calls_of(verdict.text)
    first, last = first or 0, len(events) - 1 if last is None else min(last, len(events) - 1)
    if first > last:
        raise Told(f'{verdict.name}: nothing from event {first}: ' + (f'its events are 0 to {len(events) - 1}' if events else 'it has none'))
    if last - first >= most:
        raise Told(f'{verdict.name}: {last - first + 1:,} events, at most {most:,} are drawn: choose a part, as --from {first} --to {first + most - 1}')
    shown = events[first:last + 1]
    calls = [call for call in calls if call.begun <= last and (call.ended is None or call.ended >= first)]
    end = 2 * len(shown)
    is_part = {id(call) for call in calls if any(call.line == lines[0] for lines in verdict.lines)}
    scene = Scene(verdict.name, [f'a log of {len(calls):,} call{"s" * (len(calls) != 1)}'], first, len(shown), verdict.said, heads={column: str(head) for column, (head, _) in enumerate(shown)}, legend=LEGEND if verdict.lines else LEGEND[:2])
    workers = max([call.worker for call in calls], default=-1) + 1
    lanes, y = lanes_of(scene, 2, workers, {call.worker for call in calls})
    mine = {}
    for call in sorted(calls, key=lambda call: call.begun):
        mine.setdefault(call.worker, []).append(call)
    for worker, row in mine.items():
        lane = lanes[worker]
        for call, onward in zip(row, [*row[1:], None]):
            begin, until = 2 * (call.begun - first), end if onward is None else 2 * (onward.begun - first)
            stop = end + 4 if call.ended is None else 2 * (call.ended - first) + 1
            kind = 'part' if id(call) in is_part else 'bar' if not verdict.lines else 'aside'
            item = ''.join(re.findall(r'\d+', call.said)[:1])
            scene.bars.append(Bar(begin + 1, stop, lane.middle - THIN / 2, THIN, kind, item, (('item', item), ('worker', worker), ('line', call.line), ('part', int(id(call) in is_part)))))
            scene.boxes.append(Box(begin + 1, lane.bar, 'begin', item=item))
            scene.label(begin, until, lane.name, 'name', call.said, item=item)
            if call.ended is not None:
                scene.boxes.append(Box(stop, lane.bar, 'end', edge=True, item=item))
                scene.answers.append(Answer(begin, stop + 1, until, lane.bar + 13, lane.below, (call.answer,), ''.join(re.findall(r'\d+', call.answer)[:1])))
    scene.height = int(y + 4)
    rows, kinds = [], []
    for column, (head, call) in enumerate(shown):
        is_begin = call.begun == first + column
        said = call.said if is_begin else f'{call.answer or "?"} (of {call.said})'
        rows.append((str(head), f'w{call.worker}', 'part' if id(call) in is_part else '', f'{"calls" if is_begin else "has returned:"} {said}'))
        kinds.append(0 if is_begin else KINDS['answer'])
    return scene.sort(), rows, kinds


LEGEND = (
    ('<circle cx="13" cy="10" r="5" class="bar"/>', 'a call'),
    (rect(2, 6, 24, THIN, 'bar') + line(25, 1, 25, 19, 'edge'), 'has returned'),
    (rect(2, 6, 24, THIN, 'part') + line(25, 1, 25, 19, 'edge'), 'cannot stand together'),
)


def log_page(scene, rows, kinds):
    return html_of(scene, rows, COLUMNS, lambda pool: {'kinds': kinds})
