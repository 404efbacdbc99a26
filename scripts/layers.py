#!/usr/bin/env python3
"""Draws docs/layers.svg from crates.txt: each crate as a box in its layer, and what it names.

    scripts/layers.py           draws it
    scripts/layers.py --check   says whether the picture is current, and whether a crate names one of a layer that it must not know

The first word of a crate's name says its layer. An arrow goes from a crate to one of its own layer that it names; crates of lower layers
stand as a line in its box. What follows from another name is left out: a crate that is named by one that is named anyway.
"""
import html
import sys
import textwrap

sys.dont_write_bytecode = True     # no files beside the scripts
from definitions import ROOT

PICTURE = ROOT / 'docs/layers.svg'

# layer: its title, the layers that it may know besides its own, its two colours. A layer of one crate bears that crate's name
LAYERS = {
    'promises': ('promises', 'malquindo machine objects store base', '#f6e7f4', '#8a3a80'),
    'program': ('program_: run by a person', 'malquindo machine objects store base', '#eceff3', '#4a5a70'),
    'test': ('test_: cases, run and compared', 'program malquindo machine objects store base', '#eceff3', '#4a5a70'),
    'malquindo': ('malquindo: as a library, and for C', 'machine objects store base', '#fdeedd', '#a05a10'),
    'machine': ('machine_: commands, rights, sessions, replies', 'objects store base', '#e4eefb', '#2a5a9a'),
    'store': ('store_: the card image, its files, the move', 'base', '#e5f4e7', '#2c7038'),
    'objects': ('objects_: data objects, read and written', 'base', '#fbf5d9', '#7d6608'),
    'base': ('base', '', '#f0ece6', '#6b5a40'),
}
# the layers from top to bottom; those that stand side by side share a band, by these parts of its width
BANDS = [[('promises', 1), ('program', 1), ('test', 3)], [('malquindo', 1)], [('machine', 1)], [('store', 3), ('objects', 2)], [('base', 1)]]

WIDTH, EDGE, GAP, TITLE, STEP = 1240, 20, 12, 30, 26
BOX, SMALL, LINE, LETTER = 210, 10.5, 13.5, 6.15


def layer_of(crate):
    return crate.split('_')[0]


def read_crates():
    """Each crate with the crates that it names, and what crates.txt says of it."""
    names, about = {}, {}
    for line in (ROOT / 'crates.txt').read_text(encoding='utf-8').splitlines():
        line, _, comment = line.partition('#')
        crate, colon, others = line.partition(':')
        if colon:
            crate = crate.split()[0]         # a word behind it says what is built: staticlib
            names[crate], about[crate] = others.split(), comment.strip()
    return {c: [o for o in others if o in names] for c, others in names.items()}, about


def below(names):
    """For each crate all that it names, and all that these name."""
    known = {}

    def walk(crate):
        if crate not in known:
            known[crate] = set(names[crate]).union(*(walk(o) for o in names[crate]))
        return known[crate]
    for crate in names:
        walk(crate)
    return known


def direct(names):
    """The names that do not follow from another one."""
    known = below(names)
    return {c: [o for o in others if not any(o in known[p] for p in others if p != o)] for c, others in names.items()}


def strangers(names):
    """Crates that name one of a layer that theirs must not know."""
    wrong = []
    for crate, others in names.items():
        layer = layer_of(crate)
        if layer not in LAYERS:
            wrong.append(f'crates.txt: {crate} is of no layer')
            continue
        allowed = LAYERS[layer][1].split() + [layer]
        wrong += [f'crates.txt: {crate} must not name {o}' for o in others if layer_of(o) not in allowed]
    return wrong


def rows_of(crates, arrows, columns):
    """The crates of a layer in rows, each right below the last row that points to it; a row that is too long is cut. An arrow that passes
    a row has a lane in it, the pair of its target and the row's number. Also gives the arrows, each as the crates and lanes on its way."""
    users = {c: [u for u in crates if c in arrows[u]] for c in crates}
    depth = {}

    def depth_of(crate):
        if crate not in depth:
            depth[crate] = 1 + max((depth_of(u) for u in users[crate]), default=-1)
        return depth[crate]
    rows = []
    for n in range(max(map(depth_of, crates)) + 1):
        row = [c for c in crates if depth[c] == n]
        size = -(-len(row) // -(-len(row) // columns))
        rows += [row[i:i + size] for i in range(0, len(row), size)]
    number = {c: i for i, row in enumerate(rows) for c in row}
    ways = [[c] + [(o, i) for i in range(number[c] + 1, number[o])] + [o] for c in crates for o in arrows[c]]
    down, up = {c: [] for c in crates}, {c: [] for c in crates}
    for way in ways:
        for a, b in zip(way, way[1:]):
            down.setdefault(a, []).append(b)
            up.setdefault(b, []).append(a)
        for lane in way[1:-1]:
            if lane not in rows[lane[1]]:
                rows[lane[1]].append(lane)
    place = {}

    def arrange(row, others):     # near the middle of what a crate or lane points to, or of what points to it
        row.sort(key=lambda c: sum(place[o] for o in others[c]) / len(others[c]) if others[c] else place[c])
        place.update({c: (i + 0.5) / len(row) for i, c in enumerate(row)})
    for row in rows:
        place.update({c: (i + 0.5) / len(row) for i, c in enumerate(row)})
    for _ in range(4):
        for row in rows[1:]:
            arrange(row, up)
        for row in reversed(rows[:-1]):
            arrange(row, down)
    return rows, ways


class Picture:
    def __init__(self):
        self.arrows, self.boxes = [], []

    def text(self, x, y, words, size, fill, weight='normal', anchor='start'):
        self.boxes.append(f'<text x="{x:.1f}" y="{y:.1f}" font-size="{size}" fill="{fill}" font-weight="{weight}" text-anchor="{anchor}">'
                          f'{html.escape(words)}</text>')

    def box(self, x, y, w, h, fill, stroke, where=None):
        (self.boxes if where is None else where).append(
            f'<rect x="{x:.1f}" y="{y:.1f}" width="{w:.1f}" height="{h:.1f}" rx="6" fill="{fill}" stroke="{stroke}"/>')

    def arrow(self, points, stroke):
        """Through the points, each pair of which is the bottom of a row and the top of the next."""
        for i in range(0, len(points), 2):
            (x1, y1), (x2, y2) = points[i], points[i + 1]
            last = i + 2 == len(points)
            bend, end = (y2 - y1) / 2, y2 - 5 if last else y2
            path = f'M{x1:.1f} {y1:.1f} C{x1:.1f} {y1 + bend:.1f} {x2:.1f} {y2 - bend:.1f} {x2:.1f} {end:.1f}'
            path += '' if last else f' V{points[i + 2][1]:.1f}'
            head = f' marker-end="url(#{stroke[1:]})"' if last else ''
            line = f'<path d="{path}" fill="none" stroke="{stroke}" stroke-width="1.1"{head}/>'
            if line not in self.arrows:
                self.arrows.append(line)


def wrapped(about, lower, width):
    """What stands below a crate's name: what it is, and the crates of lower layers that it names."""
    letters = int((width - 16) / LETTER)
    said = textwrap.wrap(about, letters, break_long_words=False)
    used = textwrap.wrap('↓ ' + ', '.join(lower), letters, break_long_words=False) if lower else []
    return [(line, '#333333') for line in said] + [(line, '#777777') for line in used]


def draw_layer(picture, layer, x, y, width, crates, near, about):
    """One layer from (x, y) on. Gives its height."""
    title, _, _, stroke = LAYERS[layer]
    picture.text(x + 12, y + 20, title, 13, stroke, 'bold')
    arrows = {c: [o for o in near[c] if o in crates] for c in crates}
    lower = {c: [o for o in near[c] if o not in crates and o != 'base'] for c in crates}
    if crates == [layer]:
        lines = wrapped(about[layer], lower[layer], width - 8)
        for i, (line, fill) in enumerate(lines):
            picture.text(x + 12, y + 38 + LINE * i, line, SMALL, fill)
        return 38 + LINE * len(lines)
    lines = {c: wrapped(about[c], lower[c], BOX) for c in crates}
    rows, ways = rows_of(crates, arrows, max(1, int((width - 8) // (BOX + 8))))
    places, top = {}, y + TITLE
    for row in rows:
        high = max(26 + LINE * len(lines[c]) for c in row if c in lines)
        wide = [BOX if c in lines else 0 for c in row]
        free = (width - sum(wide)) / (len(row) + 1)
        for i, crate in enumerate(row):
            places[crate] = (x + free * (i + 1) + sum(wide[:i]), top, high, x + free * (i + 1) + sum(wide[:i]) + wide[i] / 2)
        top += high + STEP
    for way in ways:
        ends = [(places[c][3], y) for c in way for y in (places[c][1], places[c][1] + places[c][2])]
        picture.arrow(ends[1:-1], stroke)
    for crate in lines:
        left, up, high, _ = places[crate]
        picture.box(left, up, BOX, high, '#ffffff', stroke)
        picture.text(left + 9, up + 17, crate, 12.5, stroke, 'bold')
        for i, (line, fill) in enumerate(lines[crate]):
            picture.text(left + 9, up + 32 + LINE * i, line, SMALL, fill)
    return top - STEP + GAP - y


def draw():
    names, about = read_crates()
    near, picture, y = direct(names), Picture(), EDGE
    panels = []
    for band in BANDS:
        band = [(layer, part, [c for c in names if layer_of(c) == layer]) for layer, part in band]
        band = [(layer, part, crates) for layer, part, crates in band if crates]
        space = WIDTH - 2 * EDGE - GAP * (len(band) - 1)
        x, tallest, drawn = EDGE, 0, []
        for layer, part, crates in band:
            width = space * part / sum(p for _, p, _ in band)
            tallest = max(tallest, draw_layer(picture, layer, x, y, width, crates, near, about))
            drawn.append((x, width, LAYERS[layer][2]))
            x += width + GAP
        for left, width, fill in drawn:
            picture.box(left, y, width, tallest, fill, 'none', panels)
        y += tallest + GAP
    note = ('An arrow: names a crate of its own layer. ↓: names crates of lower layers. What follows from another name is left out; '
            'base is below all. Made by scripts/layers.py.')
    picture.text(EDGE, y + 6, note, SMALL, '#777777')
    heads = ''.join(f'<marker id="{c[1:]}" viewBox="0 0 8 8" refX="4" refY="4" markerWidth="7" markerHeight="7" orient="auto">'
                    f'<path d="M0 0L8 4L0 8z" fill="{c}"/></marker>' for c in sorted({layer[3] for layer in LAYERS.values()}))
    return '\n'.join([f'<svg xmlns="http://www.w3.org/2000/svg" viewBox="0 0 {WIDTH} {y + EDGE:.0f}" font-family="DejaVu Sans, Verdana, sans-serif">',
                      '<title>The crates of Malquindo by layer</title>', f'<defs>{heads}</defs>',
                      f'<rect width="{WIDTH}" height="{y + EDGE:.0f}" fill="#ffffff"/>'] + panels + picture.arrows + picture.boxes + ['</svg>', ''])


def main():
    wrong, drawn = strangers(read_crates()[0]), draw()
    if '--check' not in sys.argv:
        PICTURE.write_text(drawn, encoding='utf-8')
    elif not PICTURE.exists() or PICTURE.read_text(encoding='utf-8') != drawn:
        wrong.append('docs/layers.svg is not current (scripts/layers.py)')
    print('\n'.join(wrong) if wrong else 'layers: nothing found')
    return 1 if wrong else 0


if __name__ == '__main__':
    sys.exit(main())
