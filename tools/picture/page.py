"""A scene as an HTML page that needs nothing beside itself: a table of all columns, and the marks, packed, for a script to draw what is seen of them."""

import base64
import json
import zlib
from html import escape

from parts import kept
from scene import AXIS, BOX, CELL, CHAR, COL, LABELS, SMALL, STRIP, STYLES
from svg import SAMPLE, legend_of, names_of

CHUNK = 250  # rows of the table that a browser lays out together
KINDS = {'retry': 1, 'claim': 2, 'answer': 4, 'refusal': 8}
KEYS = (('← →', 'an entry back or on, with Shift ten'), ('n p', 'the next one, or the one before'), ('+ −', 'nearer, further out'), ('0 1', 'whole, near'),
        ('/', 'search for an item'), ('Home End', 'first, last entry'), ('click', 'pins an entry; Esc lets go'), ('Ctrl wheel', 'zooms'))


class Pool:
    """Strings, each once, by their place."""

    def __init__(self):
        self.places = {}

    def place(self, said):
        return self.places.setdefault(said, len(self.places))


def packed(marks, pool, **columns):
    """A list of marks as columns: where each begins, from the one before it; where it ends, from there; what is said by its place in the pool."""
    begins = [mark[0] for mark in marks]
    found = {'begin': [one - other for one, other in zip(begins, [0, *begins])]}
    for name, field in columns.items():
        values = [getattr(mark, field) for mark in marks]
        if name in ('end', 'onward'):
            values = [value - begin for value, begin in zip(values, begins)] if name == 'end' else values
        elif values and isinstance(values[0], tuple):
            values = [pool.place('\n'.join(value)) for value in values]
        elif values and isinstance(values[0], str):
            values = [pool.place(value) for value in values]
        elif values and isinstance(values[0], bool):
            values = [int(value) for value in values]
        else:
            values = [round(value, 1) for value in values]
        found[name] = values
    return found


def data_of(scene, told):
    """What the script has: marks, sizes, and how things stand (told, by whoever made the scene)."""
    pool = Pool()
    for kind in ('bar', 'aside', 'plain', 'plain shut', 'life', 'held', 'held band', 'part'):  # in the order in which they cover one another
        pool.place(kind)
    data = {
        'first': scene.first, 'columns': scene.columns, 'high': scene.height, 'heads': scene.heads, 'rules': scene.rules, 'chunk': CHUNK,
        'sizes': {'col': COL, 'cell': CELL, 'box': BOX, 'char': CHAR, 'small': SMALL, 'strip': STRIP, 'labels': LABELS, 'axis': AXIS},
        'styles': {name: style._asdict() for name, style in STYLES.items()},
        'areas': packed(scene.areas, pool, end='end', y='y', high='high', kind='kind'),
        'joins': packed(scene.joins, pool, top='top', bottom='bottom', item='item'),
        'bars': packed(scene.bars, pool, end='end', y='y', high='high', kind='kind', item='item'),
        'boxes': packed(scene.boxes, pool, y='y', kind='kind', said='said', notch='notch', edge='edge', item='item'),
        'diamonds': packed(scene.diamonds, pool, y='y'),
        'labels': packed(scene.labels, pool, end='end', y='y', style='style', ways='ways', item='item'),
        'answers': packed(scene.answers, pool, end='end', onward='onward', y='y', below='below', ways='ways', item='item'),
        'lines': [packed(steps, pool, y='y', joined='joined', kind='kind') for steps in scene.lines],
        'far': packed(scene.far, pool, y='y'), 'top': scene.top, 'floor': scene.floor,
        'kinds': [], 'acts': {'worker': [], 'after': []}, 'before': {}, 'ends': [], 'slots': [], 'changes': [], **told(pool),
    }
    data['pool'] = list(pool.places)
    deflate = zlib.compressobj(6, zlib.DEFLATED, -15)
    whole = deflate.compress(json.dumps(data, separators=(',', ':')).encode()) + deflate.flush()
    return base64.b64encode(whole).decode()


def rows_of(rows):
    """End tags that a browser needs not are left out: a row is as short as can be."""
    for at in range(0, len(rows), CHUNK):
        yield '<tbody>'
        for row in rows[at:at + CHUNK]:
            yield '<tr><th>' + '<td>'.join(escape(cell, quote=False).replace('&gt;', '>') for cell in row)


def html_of(scene, rows, columns, told, stamp='stamp'):
    """rows: a row of the table a column, each of as many cells as there are names of columns."""
    name = escape(scene.title)
    samples = ''.join(f'<li><svg viewBox="0 0 {SAMPLE[0]} {SAMPLE[1]}" width="{SAMPLE[0]}" height="{SAMPLE[1]}" aria-hidden="true">{drawn}</svg> {said}' for drawn, said in legend_of(scene))
    alarm = f'<p class="refusal" role="alert">{escape(scene.alarm)}</p>' if scene.alarm else ''
    kinds = ''.join(f'<option value="{bit}">{kind}' for kind, bit in {'any of these': sum(KINDS.values()), **KINDS}.items())
    keys = ''.join(f'<dt><kbd>{key}</kbd><dd>{said}' for key, said in KEYS)
    return kept('page.html').format(
        title=name, said='<br>'.join(map(escape, scene.said)), alarm=alarm, style=kept('style.css') + kept('page.css'), script=kept('draw.js') + kept('state.js') + kept('page.js'),
        kinds=kinds, keys=keys, legend=samples, names=names_of(scene), wide=LABELS, high=scene.height, stamp=stamp, axis=columns[0].lower(),
        caption='All entries drawn, in order' if columns[0] == 'Entry' else 'All of the log, in order',
        columns=''.join(f'<th scope="col">{column}' for column in columns), rows='\n'.join(rows_of(rows)), data=data_of(scene, told))
