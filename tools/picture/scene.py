"""What a picture consists of, whoever draws it: lanes with their names, and marks in them.

A mark stands at a time and at a height. Times are in half columns from the left: column i is 2i to 2i + 2, and what its entry changes, changes at 2i + 1, its middle.
A label has a span of its own, which no other label of its row enters, and ways to say it, the longest first: so that at any width each is drawn where one of its ways
has room, and no two overlap."""

from dataclasses import dataclass, field
from typing import NamedTuple

COL, STRIP, LABELS, AXIS = 26, 36, 92, 16  # widths of a column, in columns of a strip, of what stands left of it; the height of what stands above
CHAR, SMALL = 6.05, 5.45  # a letter's width, of 10 and of 9 pixels
CELL, THIN, BOX = 18, 8, 22  # heights of an act and of the bar between two; an act's width


class Style(NamedTuple):
    """Of a label: its class, where in its span it stands and how far from its edges. sticky: dim where its span begins left of what is seen, else bold."""
    kind: str
    anchor: str = 'start'
    pad: int = 2
    sticky: bool = False


STYLES = {
    'name': Style('small clear', pad=1),
    'beside': Style('bold clear', pad=4),
    'below': Style('bold clear', 'end', pad=1),
    'cause': Style('small clear', 'middle', pad=1),
    'word': Style('clear', sticky=True),
    'item': Style('', pad=4),
    'hand': Style('on', 'middle'),
    'shut': Style('red clear', pad=3),
}


class Bar(NamedTuple):
    begin: int
    end: int
    y: float
    high: float
    kind: str
    item: str = ''
    data: tuple = ()  # names and values that the SVG keeps with it


class Box(NamedTuple):
    """At the middle of a column: an act, a begin, a refusal. notch: it goes back; edge: it answers."""
    at: int
    y: float
    kind: str
    said: str = ''
    notch: bool = False
    edge: bool = False
    item: str = ''
    data: tuple = ()


class Diamond(NamedTuple):
    at: int
    y: float
    data: tuple = ()


class Join(NamedTuple):
    """A line down, from one height to another."""
    at: int
    top: float
    bottom: float
    kind: str
    item: str = ''


class Label(NamedTuple):
    begin: int
    end: int
    y: float
    style: str
    ways: tuple
    item: str = ''


class Answer(NamedTuple):
    """Right of its call's end, uncut, where there is room for it up to the next call; else below the end, from where it is clear of causes."""
    clear: int
    end: int
    onward: int
    y: float
    below: float
    ways: tuple
    item: str = ''


class Step(NamedTuple):
    """From here on a line is at this height and of this class. joined: a line leads there from where it was."""
    at: int
    y: float
    joined: bool
    kind: str


@dataclass
class Scene:
    title: str
    said: list
    first: int  # the number of the first column
    columns: int
    alarm: str = ''
    heads: dict = field(default_factory=dict)  # columns whose number is not their place from the first one
    names: list = field(default_factory=list)  # y, text, class, of what stands left of the picture
    samples: list = field(default_factory=list)  # y, class, of a line beside a name there
    rules: list = field(default_factory=list)  # y, of a dotted line through all columns
    areas: list = field(default_factory=list)
    joins: list = field(default_factory=list)
    bars: list = field(default_factory=list)
    boxes: list = field(default_factory=list)
    diamonds: list = field(default_factory=list)
    labels: list = field(default_factory=list)
    answers: list = field(default_factory=list)
    lines: list = field(default_factory=list)  # each a list of steps
    far: list = field(default_factory=list)  # steps that stand for those lines where columns are narrower than a pixel
    top: float = 0  # between these two heights
    floor: float = 0
    legend: tuple = ()  # samples and what they mean, where they are not those of a run
    titles: dict = field(default_factory=dict)  # what an SVG says of a column under the cursor
    height: int = 0

    def label(self, begin, end, y, style, *ways, item=''):
        if end > begin and ways and ways[0]:
            self.labels.append(Label(begin, end, y, style, tuple(dict.fromkeys(ways)), item))

    def sort(self):
        """By where they begin, as their first field says it."""
        for marks in (self.areas, self.joins, self.bars, self.boxes, self.diamonds, self.labels, self.answers):
            marks.sort(key=lambda mark: mark[0])
        return self


class Lane:
    """A worker's: the call's name, its acts, causes of retries and answers that have no room beside their ends."""

    def __init__(self, top):
        self.name, self.bar = top + 11, top + 15
        self.middle = self.bar + CELL / 2
        self.below = self.bar + CELL + 10
        self.bottom = self.below + 7


FOLDED = 17  # the height of a lane of idle workers


def lanes_of(scene, y, workers, busy):
    """A lane for each busy worker; the idle ones between two of them have one together. Gives the lanes and where they end."""
    lanes, idle = {}, []
    for worker in [*range(workers), None]:
        if worker is not None and worker not in busy:
            idle.append(worker)
            continue
        if idle:
            said = f'w{idle[0]}' + (f' to w{idle[-1]}' if len(idle) > 1 else '')
            scene.names.append((y + 12, said, 'dim'))
            scene.rules.append(y + 9)
            y, idle = y + FOLDED, []
        if worker is not None:
            lanes[worker] = Lane(y)
            scene.names.append((lanes[worker].bar + 13, f'w{worker}', 'bold'))
            scene.rules.append(lanes[worker].middle)
            y = lanes[worker].bottom
    return lanes, y
