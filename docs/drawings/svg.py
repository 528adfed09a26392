"""Shapes for the drawings of docs/: SVG by the standard library alone, in black, white and two patterns, so that they print."""

HATCH = 'url(#hatch)'
GREY = '#d9d9d9'
WHITE = '#ffffff'

HEAD = '''<svg xmlns="http://www.w3.org/2000/svg" viewBox="0 0 {width} {height}" width="{width}" height="{height}"
     font-family="DejaVu Sans, Helvetica, Arial, sans-serif" font-size="13" fill="#000000">
<title>{title}</title>
<defs>
<pattern id="hatch" width="7" height="7" patternUnits="userSpaceOnUse" patternTransform="rotate(45)">
<rect width="7" height="7" fill="#ffffff"/><line x1="0" y1="0" x2="0" y2="7" stroke="#000000" stroke-width="2"/>
</pattern>
<marker id="tip" viewBox="0 0 10 10" refX="9" refY="5" markerWidth="7" markerHeight="7" orient="auto-start-reverse">
<path d="M 0 0 L 10 5 L 0 10 z"/>
</marker>
</defs>
<rect width="{width}" height="{height}" fill="#ffffff"/>'''


def shown(number):
    return f'{number:.1f}'.rstrip('0').rstrip('.')


def escaped(text):
    return str(text).replace('&', '&amp;').replace('<', '&lt;').replace('>', '&gt;')


class Drawing:
    def __init__(self, width, height, title):
        self.parts = [HEAD.format(width=width, height=height, title=escaped(title))]

    def text(self, x, y, text, anchor='middle', size=13, weight='normal', plate=False):
        """plate: on a white ground, so that it is read on a pattern."""
        if plate:
            wide = len(str(text)) * size * 0.64 + 4
            self.box(x - wide / 2, y - size + 1, wide, size + 3, WHITE, stroke='none')
        self.parts.append(f'<text x="{shown(x)}" y="{shown(y)}" text-anchor="{anchor}" font-size="{size}" font-weight="{weight}">{escaped(text)}</text>')

    def box(self, x, y, width, height, fill=WHITE, stroke='#000000', dash=''):
        dashed = f' stroke-dasharray="{dash}"' if dash else ''
        self.parts.append(f'<rect x="{shown(x)}" y="{shown(y)}" width="{shown(width)}" height="{shown(height)}" fill="{fill}" stroke="{stroke}"{dashed}/>')

    def line(self, x1, y1, x2, y2, tip=False, dash='', width=1):
        dashed = f' stroke-dasharray="{dash}"' if dash else ''
        tipped = ' marker-end="url(#tip)"' if tip else ''
        self.parts.append(
            f'<line x1="{shown(x1)}" y1="{shown(y1)}" x2="{shown(x2)}" y2="{shown(y2)}" stroke="#000000" stroke-width="{width}"{dashed}{tipped}/>')

    def path(self, steps, fill='none'):
        self.parts.append(f'<path d="{steps}" fill="{fill}" stroke="#000000"/>')

    def legend(self, x, y, rows):
        """A sample of each fill and what it stands for."""
        for n, (fill, dash, text) in enumerate(rows):
            self.box(x, y + 24 * n, 26, 16, fill, dash=dash)
            self.text(x + 36, y + 24 * n + 13, text, anchor='start')

    def notes(self, x, y, apart, rows):
        """Lines of small text, so far apart."""
        for n, text in enumerate(rows):
            self.text(x, y + apart * n, text, anchor='start', size=12)

    def __str__(self):
        return '\n'.join([*self.parts, '</svg>'])
