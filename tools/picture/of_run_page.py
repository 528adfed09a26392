"""What a page has of a run beside its scene: the table's rows, and how things stand after each entry."""

from of_run import refusal_of, slot_name
from page import KINDS, html_of

COLUMNS = 'Entry', 'Worker', 'Place', 'What it does'


def row_of(run, act):
    """replay's line in words, its parts in cells."""
    worker, _, said = run.lines.get(act.entry, '').partition(' ')
    place, _, line = said.strip().partition(' ')
    if place in ('', 'refused'):
        worker, place, line = f'w{act.worker}', '', refusal_of(run).partition(' ')[2].partition(' ')[2]
    return str(act.entry), worker, place, ' '.join(line.split())


def stands(act):
    """How a worker stands after an act: where it goes on, its call, the words that it has loaded, its item, what it has in hand."""
    if act.onward == 'idle':
        return '\n'.join(('idle', f'answered {act.answer}', '', '', ''))
    return '\n'.join((act.onward, f'{act.call.name} {act.call.item}'.strip(), act.word, act.item, '' if act.hand is None else slot_name(act.hand)))


def told_of(run):
    def told(pool):
        """By columns, from the first one that is drawn."""
        kinds, ends = [], []
        for act in run.acts:
            refused = bool(run.refusal) and run.refusal[0] == act.entry
            kinds.append(KINDS['retry'] * bool(act.causes) + KINDS['claim'] * act.claims + KINDS['answer'] * bool(act.answer) + KINDS['refusal'] * refused)
        acts = run.acts[:-1] if kinds and kinds[-1] & KINDS['refusal'] else run.acts
        for end in ('tail', 'head'):
            if getattr(run.before, end) is not None:
                changes = [(0, getattr(run.before, end))]
                for column, level in enumerate(run.levels):
                    if getattr(level, end) != changes[-1][1]:
                        changes.append((column, getattr(level, end)))
                ends.append([end, [at - (i == 0) for i, (at, _) in enumerate(changes)], [pool.place(run.decoded(word)) for _, word in changes]])
        if run.plain:
            ends.append(['plain queue', [cell.entry - run.first for cell in run.plain], [pool.place(cell.ways()[0]) for cell in run.plain]])
        return {
            'kinds': kinds, 'ends': ends, 'acts': {'worker': [act.worker for act in acts], 'after': [pool.place(stands(act)) for act in acts]},
            'before': {worker: pool.place(stands(act)) for worker, act in run.before_acts.items()},
            'slots': [[slot_name(slot), *map(str, stand)] for slot, stand in sorted(run.slots.items())],  # as text: a script's numbers are shorter than words
            'changes': [[entry - run.first, slot_name(slot), str(stamp), str(value)] for entry, slot, stamp, value in run.changes],
        }
    return told


def page_of(run, scene):
    return html_of(scene, [row_of(run, act) for act in run.acts], COLUMNS, told_of(run), run.stamp)
