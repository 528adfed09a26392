"""A run as a scene: a lane for each worker, the plain queue, claims of tail and head with the items between them, a lane for each slot."""

from collections import defaultdict

from run import REFUSALS
from scene import CELL, THIN, Answer, Bar, Box, Diamond, Join, Scene, Step, lanes_of

MOST_SLOTS, MOST_ROWS, FEW_ROWS, ROW, CHART = 8, 8, 4, 15, 260


def refusal_of(run):
    entry, refused = run.refusal
    why = f'refused {refused}: {REFUSALS.get(refused, "see docs/REFERENCE.md")}'
    return why if entry is None else f'entry {entry} {why}'


def slot_name(slot):
    return f'block {slot[0]}.{slot[1]}' if isinstance(slot, tuple) else f'slot {slot}'


def said_of(run):
    """The line below the title."""
    part = f'{run.count:,} entr{"y" if run.count == 1 else "ies"}'
    if run.acts and len(run.acts) != run.count:
        part = f'entries {run.first} to {run.last} of {run.count:,}'
    left = [] if run.left is None else [f'left the window at entry {run.left}']
    return '; '.join([run.what, part, *left, *([run.ending] if run.ending else [])])


class Drawn:
    """The scene while it is made; what is at a height is kept until its marks are."""

    def __init__(self, run):
        self.run, self.end = run, 2 * len(run.acts)
        self.scene = Scene(run.name, [said_of(run)], run.first, len(run.acts), refusal_of(run) if run.refusal else '')
        self.scene.titles = {entry - run.first: f'{entry}  {line}' for entry, line in run.lines.items()}
        y = self.workers(2)
        if run.acts:
            y = self.plain_queue(y)
        y = self.claims(y)
        self.scene.height = int(self.slots(y) + 2)
        self.scene.sort()

    def at(self, entry):
        """The middle of its column; beyond the end of what has none."""
        return self.end + 4 if entry is None else 2 * (entry - self.run.first) + 1

    def workers(self, y):
        run, scene = self.run, self.scene
        calls, retries = defaultdict(list), defaultdict(list)
        for act in run.acts:
            if act.causes:
                retries[id(act.call)].append(act)
        for call in sorted(run.calls, key=lambda call: call.begun):
            calls[call.worker].append(call)
        self.lanes, y = lanes_of(scene, y, run.workers, {*calls, *(act.worker for act in run.acts)})
        if run.stranger is not None:
            scene.names += [(y + 17, f'w{run.stranger}', 'bold red'), (y + 28, 'there is none', 'small red')]
            self.stranger = y + 4
            y += 34
        for act in run.acts:
            self.act(act)
        for worker, mine in calls.items():
            self.calls(self.lanes[worker], mine, retries)
        for hand in run.hands:
            scene.bars.append(Bar(self.at(hand.begun), self.at(hand.ended), self.lanes[hand.worker].middle - THIN / 2, THIN, 'held'))
        return y

    def act(self, act):
        run = self.run
        refused = bool(run.refusal) and run.refusal[0] == act.entry
        is_stranger = refused and run.stranger is not None
        data = (('entry', act.entry), ('place', 'refused' if refused else act.place or 'begin'), ('worker', '' if is_stranger else act.worker),
                ('hand', '' if act.hand is None else slot_name(act.hand)), ('item', act.item), ('because', ','.join(act.causes)), ('answer', act.answer))
        y = self.stranger if is_stranger else self.lanes[act.worker].bar
        kind = 'refused' if refused else 'begin' if not act.place else 'held' if act.hand is not None else 'bar'
        said = f'✗{run.refusal[1]}' if refused else act.place[-1:] if act.place[:1].islower() else act.place
        self.scene.boxes.append(Box(self.at(act.entry), y, kind, said, bool(act.causes), bool(act.answer), act.item, data))

    def calls(self, lane, calls, retries):
        scene = self.scene
        begins = [self.at(call.begun) - 1 for call in calls]
        for call, begin, onward in zip(calls, begins, [*begins[1:], self.end]):
            scene.bars.append(Bar(begin + 1, self.at(call.ended), lane.middle - THIN / 2, THIN, 'bar', call.item))
            name = f'{call.name} {call.item}'.strip()
            scene.label(begin, onward, lane.name, 'name', name, name.replace('force_push', 'force'), call.name, item=call.item)
            if call.moment is not None and call.ended is not None:
                scene.diamonds.append(Diamond(call.moment - 2 * self.run.first, lane.middle, (('worker', call.worker), ('moment', call.moment), ('answer', call.answer))))
            mine = retries[id(call)]
            marks = [self.at(act.entry) for act in mine]
            end = self.end if call.ended is None else self.at(call.ended) + 1
            edges = [begin, *((one + other) // 2 for one, other in zip(marks, [*marks[1:], end]))] if marks else [begin]
            for act, mark, left, right in zip(mine, marks, edges, edges[1:]):
                half = min(mark - left, right - mark)  # so that it stands below its act
                scene.label(mark - half, mark + half, lane.below, 'cause', ', '.join(act.causes), act.causes[0])
            if call.ended is not None:
                ways = (call.answer, call.answer.split()[0])
                scene.answers.append(Answer(edges[-1], end, onward, lane.bar + 13, lane.below, tuple(dict.fromkeys(ways)), ''.join(call.answer.split()[1:])))

    def plain_queue(self, y):
        run, scene = self.run, self.scene
        scene.names.append((y + 14, 'plain queue', 'bold'))
        ends = [self.at(cell.entry) for cell in run.plain[1:]] + [self.end if run.left is None else self.at(run.left)]
        for cell, end in zip(run.plain, ends):
            begin = max(self.at(cell.entry), 0)
            data = (('entry', cell.entry), ('waits', ' '.join(cell.items)), ('count', cell.count), ('closed', int(cell.closed)))
            scene.bars.append(Bar(begin, end, y + 2, 16, 'plain shut' if cell.closed else 'plain', data=data))
            scene.label(begin, end, y + 14, 'item', *cell.ways())
        return y + 26

    def claims(self, y):
        run, scene = self.run, self.scene
        heads, tails = run.before.heads, max([run.before.tails, *(level.tails for level in run.levels)])
        waiting = max([run.before.tails - heads, *(level.tails - level.heads for level in run.levels)])
        base, rows = heads, max(tails - heads, 1)
        wraps = rows > max(MOST_ROWS, waiting)
        rows = max(waiting + 2, FEW_ROWS) if wraps else rows
        row = min(ROW, CHART / rows)
        top = y + 2
        floor = top + 15 + rows * row

        def level(claims):
            return floor - ((claims - base) % rows if wraps else claims - base) * row

        scene.rules.append(floor)
        middle = (top + floor) / 2 + 4
        scene.names += [(middle - 8, 'tail', 'left'), (middle + 8, 'head', 'left')]
        scene.samples += [(middle - 11, 'tail'), (middle + 5, 'head')]
        for life in run.lives:
            y = level(life.claim) - row
            pad = 1 if row > 4 else 0
            begin, end = self.at(life.begun), self.at(life.ended)
            taker = '' if life.taker is None or life.ended > run.last else f'w{life.taker}'
            data = (('item', life.item), ('claim', life.claim), ('giver', life.giver), ('from', life.begun),
                    *(() if life.ended is None else (('taker', life.taker), ('to', life.ended))))
            scene.bars.append(Bar(begin, end, y + pad, max(row - 2 * pad, .3), 'life', life.item, data))
            if row >= 11:
                scene.label(begin, end, y + row - 4, 'item', f'{life.item} w{life.giver}→{taker}', life.item, item=life.item)
            for who, when in ((life.giver, life.begun), (life.taker, life.ended)):
                if when is not None and run.first <= when <= run.last:
                    scene.joins.append(Join(self.at(when), self.lanes[who].bar + CELL, y + row / 2, 'join', life.item))
        self.shut(top, floor)
        scene.lines += [self.steps('tails', level, -1.2), self.steps('heads', level, 1.2)]  # both are seen where they are equal
        scene.top, scene.floor = top, floor
        scene.far.append(Step(0, floor - (run.before.tails - run.before.heads) * row, True, 'life'))
        for act, one in zip(run.acts, run.levels):
            there = floor - (one.tails - one.heads) * row
            if there != scene.far[-1].y:
                scene.far.append(Step(self.at(act.entry), there, True, 'life'))
        y = floor + 6
        for end in ('tail', 'head'):
            if getattr(run.before, end) is not None:
                y += 12
                scene.names.append((y, f'{end} word', 'dim'))
                self.words(y, getattr(run.before, end), [(self.at(act.entry), getattr(level, end)) for act, level in zip(run.acts, run.levels)])
        return y + 12

    def shut(self, top, floor):
        """While the queue is closed, and where it is open again."""
        run, scene = self.run, self.scene
        state, begun = run.before.closed, 0
        for at, closed in [*((self.at(act.entry), level.closed) for act, level in zip(run.acts, run.levels)), (self.end, None)]:
            if closed != state:
                if state:
                    scene.areas.append(Bar(begun, at, top, floor - top + 2, 'shut'))
                if state or begun:
                    scene.label(begun, at, top + 10, 'shut', *(('closed', 'cl') if state else ('open again', 'open')))
                state, begun = closed, at

    def steps(self, end, level, apart):
        """A line of steps; tail's where it is marked is of another class. Where rows are used again from below, no line leads there."""
        run, name = self.run, end[:-1]

        def stand(one):
            return level(getattr(one, end)) + apart, name + ' closed' * (one.closed and name == 'tail')

        now = stand(run.before)
        steps = [Step(0, now[0], False, now[1])]
        for act, one in zip(run.acts, run.levels):
            there = stand(one)
            if there != now:
                steps.append(Step(self.at(act.entry), there[0], there[0] < now[0], there[1]))
                now = there
        return steps

    def words(self, y, first, changes):
        """A row of text: how it stands at the left, and each change where it comes."""
        stands = [(0, str(first))]
        for at, said in changes:
            if str(said) != stands[-1][1]:
                stands.append((at, str(said)))
        for (begin, said), end in zip(stands, [*(at for at, _ in stands[1:]), self.end]):
            self.scene.label(begin, end, y, 'word', said)

    def slots(self, y):
        run, scene = self.run, self.scene
        touched = {change[1] for change in run.changes} | {hand.slot for hand in run.hands}
        slots = sorted(run.slots) if run.stamp == 'stamp' or not touched else sorted(touched)
        half, left_out = MOST_SLOTS // 2, max(len(slots) - MOST_SLOTS, 0)
        hands, changes = self.rows_of_hands(), defaultdict(list)
        for entry, slot, stamp, value in run.changes:
            changes[slot].append((self.at(entry), stamp, value))
        for i, slot in enumerate(slots[:half] + slots[-half:] if left_out else slots):
            if left_out and i == half:
                scene.names.append((y + 10, f'.. {left_out:,} more', 'left dim'))
                y += 16
            mine = [(hand, row) for hand, row in hands if hand.slot == slot]
            for hand, row in mine:
                begin, end, top = self.at(hand.begun), self.at(hand.ended), y + 13 * row
                data = (('slot', slot_name(slot)), ('worker', hand.worker), ('from', hand.begun), *(() if hand.ended is None else (('to', hand.ended),)))
                scene.bars.append(Bar(begin, end, top, 12, 'held band', data=data))
                scene.label(begin, end, top + 9.5, 'hand', f'w{hand.worker}')
            scene.names.append((y + 10, slot_name(slot), 'bold'))
            scene.rules.append(y + 6)
            y += 13 * (1 + max([row for _, row in mine], default=0)) + 10
            for name, first, column in zip((run.stamp, 'value'), run.slots.get(slot, (0, 0)), (1, 2)):
                scene.names.append((y, name, 'dim'))
                self.words(y, first, [(change[0], change[column]) for change in changes[slot]])
                y += 11
            y -= 3
        return y

    def rows_of_hands(self):
        """Each hand with the row of its slot's lane that it is drawn in: a push and the pop that waits for it may overlap in the unbounded queue."""
        rows, free = [], defaultdict(list)
        for hand in sorted(self.run.hands, key=lambda hand: hand.begun):
            ends = free[hand.slot]
            row = next((i for i, end in enumerate(ends) if end <= hand.begun), len(ends))
            ends[row:row + 1] = [self.run.count if hand.ended is None else hand.ended]
            rows.append((hand, row))
        return rows


def scene_of(run):
    return Drawn(run).scene
