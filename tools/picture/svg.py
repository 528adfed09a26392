"""A scene as an SVG for papers: strips of so many columns, one below another as lines of music stand. Text is text."""

from html import escape
from math import ceil

from scene import AXIS, BOX, CELL, CHAR, COL, LABELS, SMALL, STRIP, STYLES
from parts import kept

MARGIN, GAP = 8, 14
NARROW = 300  # a picture is no narrower, so that its title has room


def number(x):
    return f'{x:.1f}'.rstrip('0').rstrip('.')


def text(x, y, said, kind=''):
    kind = f' class="{kind}"' if kind else ''
    return f'<text x="{number(x)}" y="{number(y)}"{kind}>{escape(said, quote=False)}</text>'


def rect(x, y, width, height, kind):
    return f'<rect x="{number(x)}" y="{number(y)}" width="{number(max(width, 0))}" height="{number(height)}" class="{kind}"/>'


def line(x1, y1, x2, y2, kind):
    return f'<path d="M{number(x1)} {number(y1)}L{number(x2)} {number(y2)}" class="{kind}"/>'


def diamond(x, y):
    return f'<path d="M{number(x)} {number(y - 7)}l4 7l-4 7l-4-7z" class="moment"/>'


def box_of(box, x):
    """An act: a box with its place; a begin is a circle."""
    if box.kind == 'begin':
        return f'<circle cx="{number(x)}" cy="{number(box.y + CELL / 2)}" r="5" class="bar"/>'
    if box.kind == 'end':
        return line(x, box.y - 1, x, box.y + CELL + 1, 'edge')
    kind = {'held': 'mid on', 'refused': 'mid red'}.get(box.kind, 'mid')
    parts = [rect(x - BOX / 2, box.y, BOX, CELL, box.kind), text(x, box.y + (11.5 if box.notch else 13), box.said, kind)]
    if box.notch:
        parts.append(f'<path d="M{number(x - 6)} {number(box.y + CELL)}l6-5l6 5z" class="notch"/>')
    if box.edge:
        parts.append(line(x + BOX / 2 + 1, box.y - 1, x + BOX / 2 + 1, box.y + CELL + 1, 'edge'))
    return ''.join(parts)


def fitted(room, *ways, wide=CHAR):
    """The first way to say it that has room, else the last one, cut."""
    most = int(room / wide)
    for way in ways:
        if len(way) <= most:
            return way
    return ways[-1][:most - 1] + '…' if most > 2 else ''


def wrapped(said, most):
    """Words in lines of at most so many letters; a longer word is cut."""
    lines = ['']
    for word in said.split():
        word = word if len(word) <= most else word[:most - 1] + '…'
        if lines[-1] and len(lines[-1]) + 1 + len(word) > most:
            lines.append('')
        lines[-1] = f'{lines[-1]} {word}'.strip()
    return lines


def by_strips(scene):
    """The marks of each list that enter each strip, from their first field to where they end."""
    ends = (('areas', 'end'), ('joins', 'at'), ('bars', 'end'), ('boxes', 'at'), ('diamonds', 'at'), ('labels', 'end'), ('answers', 'end'))
    strips = [{name: [] for name, _ in ends} for _ in range(0, scene.columns, STRIP)]
    for name, end in ends:
        for mark in getattr(scene, name):
            begin, stop = mark[0], getattr(mark, end)
            edges = (begin - 1, begin) if name == 'diamonds' else (begin, stop - 1)  # a moment between two strips is at the edge of both
            first, last = (max(0, min(at // (2 * STRIP), len(strips) - 1)) for at in edges)
            for strip in strips[first:last + 1]:
                strip[name].append(mark)
    return strips


class Strip:
    """The columns from FIRST to END of a scene; its upper left corner is 0, 0."""

    def __init__(self, scene, first, end, marks, passed):
        self.passed = passed
        self.scene, self.left, self.right, self.marks = scene, 2 * first, 2 * end, marks
        self.wide = (end - first) * COL

    def x(self, at):
        """Just beyond the edges of what is further out."""
        return min(max((at - self.left) * COL / 2, -2), self.wide + 2)

    def placed(self, begin, end, y, style, ways, is_cut=True):
        """A label, at the place in its span that its style says; '' where there is no room for it."""
        how = STYLES[style]
        wide = SMALL if 'small' in how.kind else CHAR
        left, right = max(self.x(begin), 0) + how.pad, min(self.x(end), self.wide) - how.pad
        said = fitted(right - left, *ways, wide=wide)
        if not said or not is_cut and said != ways[0]:
            return ''
        long, share = len(said) * wide, {'start': 0, 'middle': .5, 'end': 1}[how.anchor]
        x = (begin - self.left) * COL / 2 + how.pad + share * ((end - begin) * COL / 2 - 2 * how.pad - long)  # in its span, were all of it in the strip
        kind = how.kind + (' dim' if begin < self.left or not begin else ' bold') * how.sticky
        return text(min(max(x, left), right - long), y, said, kind)

    @staticmethod
    def group(kind, item, data, drawn):
        """With what is known of it, for whoever reads the file."""
        more = ''.join(f' data-{name}="{value}"' for name, value in (data or (('item', item),)) if value != '')
        return f'<g class="{kind}"{more}>{drawn}</g>' if more else drawn

    def parts(self):
        scene, high = self.scene, self.scene.height
        first, end = self.left // 2, self.right // 2
        yield rect(0, -AXIS, self.wide, high + AXIS, 'paper')
        yield from (rect(self.x(area.begin), area.y, self.x(area.end) - self.x(area.begin), area.high, area.kind) for area in self.marks['areas'])
        yield f'<path d="{"".join(f"M{x * COL} 0V{high}" for x in range(1, end - first))}" class="grid"/>'
        heads = [str(scene.heads.get(column, scene.first + column)) for column in range(first, end)]
        every = ceil((max(map(len, heads)) * SMALL + 5) / COL)
        for x, head in enumerate(heads):
            if (scene.first + first + x) % every == 0:
                half = len(head) * SMALL / 2 + 1
                yield text(min(max((x + .5) * COL, half), self.wide - half), -5, head, 'mid small dim')
        yield from (line(0, y, self.wide, y, 'idle') for y in scene.rules)
        for join in self.marks['joins']:
            yield line(self.x(join.at), join.top, self.x(join.at), join.bottom, join.kind)
        for bar in self.marks['bars']:
            drawn = rect(self.x(bar.begin), bar.y, self.x(bar.end) - self.x(bar.begin), bar.high, bar.kind)
            yield self.group(next((name for name in ('band', 'plain') if name in bar.kind), 'item'), bar.item, bar.data, drawn)
        yield from (self.steps(name) for name in range(len(scene.lines)))
        for column, box in ((box.at // 2, box) for box in self.marks['boxes']):
            title = escape(scene.titles.get(column, ''), quote=False)
            hit = f'<rect x="{(column - first) * COL}" width="{COL}" height="{high}" class="hit"><title>{title}</title></rect>'
            yield self.group('entry', box.item, box.data, (line(self.x(box.at), 0, self.x(box.at), high, 'stop') if box.kind == 'refused' else '') + box_of(box, self.x(box.at)) + hit)
        for one in self.marks['diamonds']:
            yield self.group('at', '', one.data, diamond(min(max(self.x(one.at), 5), self.wide - 5), one.y))  # at an edge too it is whole
        for label in self.marks['labels']:
            yield self.placed(label.begin, label.end, label.y, label.style, label.ways)
        for answer in self.marks['answers']:
            if self.left < answer.end <= self.right:
                beside = self.placed(answer.end, answer.onward, answer.y, 'beside', answer.ways, is_cut=False)
                yield beside or self.placed(answer.clear, answer.end, answer.below, 'below', answer.ways)

    def steps(self, which):
        """A path for each class, in order. Strips are drawn in order: what a line has left behind is passed over once."""
        steps, last = self.scene.lines[which], self.passed[which]
        while last + 1 < len(steps) and steps[last + 1].at <= self.left:
            last += 1
        self.passed[which] = last
        paths, path, kind = [], f'M0 {number(steps[last].y)}', steps[last].kind
        for step in steps[last + 1:last + 1 + 2 * STRIP]:
            if step.at >= self.right:
                break
            x = number(self.x(step.at))
            path += f'H{x}' + (f'V{number(step.y)}' if step.joined else f'M{x} {number(step.y)}')
            if step.kind != kind:
                paths.append((path, kind))
                path, kind = f'M{x} {number(step.y)}', step.kind
        return ''.join(f'<path d="{path}" class="{kind}"/>' for path, kind in [*paths, (path + f'H{self.wide}', kind)])


def names_of(scene):
    """What stands to the left of a strip."""
    right = LABELS - 6
    parts = [rect(0, -AXIS, LABELS, scene.height + AXIS, 'paper')]
    parts += [text(8, y, said, kind.replace('left', '').strip()) if 'left' in kind else text(right, y, said, f'end {kind}') for y, said, kind in scene.names]
    return ''.join(parts + [line(36, y, right, y, kind) for y, kind in scene.samples])


SAMPLE = 28, 20  # what is drawn beside the words of a legend
LEGEND = (
    ('<circle cx="13" cy="10" r="5" class="bar"/>', 'a call begins'),
    (rect(2, 1, BOX, CELL, 'bar') + text(13, 14, 'P2', 'mid'), 'an act, at its place'),
    (rect(2, 1, BOX, CELL, 'held') + text(13, 14, 'P4', 'mid on'), 'a slot in hand'),
    (rect(2, 1, BOX, CELL, 'bar') + text(13, 12.5, 'O6', 'mid') + f'<path d="M7 {CELL + 1}l6-5l6 5z" class="notch"/>', 'goes back, and why'),
    (rect(2, 1, BOX, CELL, 'bar') + text(13, 14, 'P5', 'mid') + line(25, 0, 25, CELL + 2, 'edge'), 'answers'),
    (rect(2, 6, 24, 8, 'bar') + diamond(13, 10), "the answer's moment: a plain queue gives it there"),
    (rect(2, 4, 24, 12, 'life'), 'an item, from tail claim to head claim'),
    (line(2, 10, 26, 10, 'tail closed'), 'closed'),
)


def svg_of(scene):
    strips = [(at, min(at + STRIP, scene.columns)) for at in range(0, scene.columns, STRIP)]
    wide = max([LABELS + (end - at) * COL for at, end in strips] + [NARROW]) + MARGIN
    parts, y = [text(MARGIN, 18, fitted(wide - 2 * MARGIN, scene.title, wide=8), 'title')], 34
    for said, kind in [*((said, '') for said in scene.said), *([(scene.alarm, 'red')] if scene.alarm else [])]:
        for row in wrapped(said, int((wide - 2 * MARGIN) / CHAR)):
            parts.append(text(MARGIN, y, row, kind))
            y += 16
    y += 10
    names = names_of(scene) + text(LABELS - 6, -5, 'entry' if not scene.heads else 'line', 'end small dim')
    passed = [0] * len(scene.lines)
    for (at, end), marks in zip(strips, by_strips(scene)):
        parts.append(f'<g transform="translate(0 {y + AXIS})">{names}</g>')
        parts.append(f'<svg x="{LABELS}" y="{y}" width="{(end - at) * COL}" height="{scene.height + AXIS}" viewBox="0 {-AXIS} {(end - at) * COL} {scene.height + AXIS}" class="strip">')
        parts += filter(None, Strip(scene, at, end, marks, passed).parts())
        parts.append('</svg>')
        y += scene.height + AXIS + GAP
    x = MARGIN
    for drawn, said in legend_of(scene):
        room = SAMPLE[0] + 3 + len(said) * SMALL + 14
        if x > MARGIN and x + room - 14 > wide:
            x, y = MARGIN, y + SAMPLE[1] + 2
        parts.append(f'<g transform="translate({x:.0f} {y})">{drawn}{text(SAMPLE[0] + 3, 14, said, "small")}</g>')
        x += room
    high = y + SAMPLE[1] + MARGIN
    head = (f'<svg xmlns="http://www.w3.org/2000/svg" viewBox="0 0 {wide} {high}" width="{wide}" height="{high}" role="img">',
            f'<title>{escape(scene.title, quote=False)}: {escape("; ".join(scene.said), quote=False)}</title>', f'<style>{kept("style.css")}</style>', rect(0, 0, wide, high, 'paper'))
    return '\n'.join([*head, *parts, '</svg>\n'])


def legend_of(scene):
    """Samples of what is drawn, each of SAMPLE's size, and what they mean; no moment where none is drawn."""
    return scene.legend or [(drawn, said) for drawn, said in LEGEND if 'moment' not in said or scene.diamonds]
