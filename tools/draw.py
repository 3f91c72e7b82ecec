#!/usr/bin/env python3
"""draw.py [--by family|parent] [[TITLE=]FILE...] > picture.svg: draws the program's inputs and answers side by side; `-` or no file is
standard input.

Cells are coloured by family and pieces outlined, y upwards. Of an input the subject's cells are filled and the cutter's outlines
dashed; of an answer the new points are dots, and edges that a piece walks both ways, as a ditch that ends inside a cell, are heavy. Added
points that no piece names are rings, where the input stands before the answer: without it the listing doesn't tell them from lent nodes.
TITLE stands in the place of "before" or "after", and an answer with a title has the cells of the input before it as thin outlines, so that
what is missing shows. A text that is neither gives a message and exit status 1.

An input's survey grid, the third number of its first line, is drawn in it and in the answers behind it whose added points all lie on it, where
the lines have room. Of two answers to one input the second has a cross where an added point was in the first, and a stroke to where it is now.

Where the cells drawn have corners of more than one layer, each corner's layer stands in its cell, the cutter's in the colour of its lines. A text from
before W7, whose nodes have none, is of one layer.

With `--by parent` all pieces of one cell have one colour, its neighbours others, and its index stands in each piece that has room; pieces of
the cutter's cells are hatched. An answer may also be a listing of differential/oracle, with two counts and without parents, or one with
doubled cells, from before W14; these are drawn by family alone. A listing from before W5, which counts all added points as new,
is drawn rightly only behind its input.
"""
import argparse
import math
import os
import re
import struct
import sys
from html import escape
from typing import NamedTuple

COLOURS = '#e8cf92 #d49a74 #9ecbe0 #b9d38f #b09bc8 #e3a9ae #8fc1ab #c9c3b4 #a8b5dd #d8b0d0'.split()
LINE, DASH, DOT, TEXT, THIN = '#3a3a3a', '#1f5f9f', '#c8322b', '#222222', '#9a9a9a'
FAINT = f'stroke="{LINE}" stroke-width="0.6" stroke-opacity="0.35"'
RING = f'fill="#ffffff" stroke="{DOT}" stroke-width="1.2"'
WIDTH, HEIGHT, LEAST, GAP, HEAD, FOOT, ROOM, FINEST = 440, 340, 250, 28, 34, 40, 8, 10
MESHES = ('subject', 'cutter')
HATCH = f'<pattern id="hatch" width="6" height="6" patternUnits="userSpaceOnUse" patternTransform="rotate(45)"><path d="M0 0v6" stroke="{DASH}" stroke-width="1.4" stroke-opacity="0.6"/></pattern>'
NUMBER = r' (\d{1,10})'
INPUT = rf'\(overlay{NUMBER}{NUMBER}(?:{NUMBER})?'


class Malformed(Exception):
    pass


class Cell(NamedTuple):
    """A cell or a piece. The parent is a mesh, 0 or 1, and the index of a cell there; of an input's cell it is itself."""

    family: int
    parent: tuple
    corners: list


class Mesh:
    """Nodes as pairs of floats, and their layers; cells."""

    def __init__(self):
        self.nodes = []
        self.layers = []
        self.cells = []


class Panel(NamedTuple):
    """Cells to fill, outlines to dash, points to dot and to ring; thin outlines below them; the step of a grid, or 0; places before and after."""

    title: str
    filled: Mesh
    dashed: Mesh
    points: list
    rings: list
    thin: Mesh
    step: float
    moved: list


class Counts(NamedTuple):
    """The last line of an answer. The program's has three counts, the third 0, and its pieces have parents."""

    pieces: int
    points: int
    doubled: int
    parents: bool


class Reader:
    def __init__(self, name, text, title=''):
        self.name, self.lines, self.at, self.title = name, text.splitlines(), 0, title

    def fail(self, what):
        raise Malformed(f'{self.name}, line {self.at + 1}: {what}')

    def match(self, pattern):
        """The next line's groups where it fits, and then the line is past."""
        found = self.at < len(self.lines) and re.fullmatch(pattern, self.lines[self.at])
        self.at += bool(found)
        return found

    def need(self, pattern, what):
        return self.match(pattern) or self.fail(f'{what} is missing')

    def body(self, side=None):
        """The nodes and cells of a mesh, the subject (0) or the cutter (1); without a side an answer's, and its counts."""
        mesh, rows = Mesh(), []
        while m := self.match(rf'\(node ([0-9a-f]{{16}}) ([0-9a-f]{{16}})(?:{NUMBER})?\)'):
            x, y = (struct.unpack('>d', bytes.fromhex(h))[0] for h in m.groups()[:2])
            if not (abs(x) <= 2.0 ** 40 and abs(y) <= 2.0 ** 40):
                self.fail('a coordinate that no picture holds')
            mesh.nodes.append((x, y))
            mesh.layers.append(int(m[3] or 0))
        start = self.at
        while m := self.match(rf'\(cell{NUMBER}{NUMBER}((?:{NUMBER})*)\)'):
            rows.append([int(n) for n in f'{m[2]} {m[3]}'.split()])
        counts = self.counts() if side is None else None
        for i, (family, *corners) in enumerate(rows):
            parent = (side, i) if side is not None else None
            if counts and counts.parents:
                parent, corners = tuple(corners[:2]), corners[2:]
            if not corners or max(corners) >= len(mesh.nodes) or (parent or (0,))[0] > 1:
                self.at = start + i
                self.fail('a cell whose corners are no nodes, or a piece without a parent, as in listings from before W2')
            mesh.cells.append(Cell(family, parent, corners))
        return mesh, counts

    def counts(self):
        m = self.need(rf'\(count{NUMBER}{NUMBER}(?:{NUMBER})?\)', '`(count`')
        return Counts(int(m[1]), int(m[2]), int(m[3] or 0), m[3] == '0')

    def mesh(self, side):
        self.need(r'\(mesh', '`(mesh`')
        mesh, _ = self.body(side)
        self.need(r'\)', 'a mesh\'s `)`')
        return mesh

    def is_input(self):
        return bool(re.fullmatch(INPUT, self.lines[0]))

    def added(self, mesh, counts, before):
        """The numbers of an answer's added points, those that its pieces name and the others."""
        named = {c for cell in mesh.cells for c in cell.corners}
        lent = before.filled.nodes + before.dashed.nodes
        if lent and mesh.nodes[:len(lent)] == lent:
            added = range(len(lent), len(mesh.nodes))
        elif counts.parents:        # without the input: of the nodes that pieces name the last ones
            added = sorted(named)[max(len(named) - counts.points, 0):]
        else:
            added = range(max(len(mesh.nodes) - counts.points, 0), len(mesh.nodes))
        new, unnamed = [n for n in added if n in named], [n for n in added if n not in named]
        if counts.pieces != len(mesh.cells) or counts.points not in (len(new), len(added)):
            self.fail('the counts are not those of the listing')
        return new, unnamed

    def moved(self, mesh, before, earlier):
        """Where nodes were in another answer to the same input, and are now."""
        lent = before.filled.nodes + before.dashed.nodes
        same = lent and len(earlier.nodes) == len(mesh.nodes) and earlier.nodes[:len(lent)] == mesh.nodes[:len(lent)] == lent
        return [(p, q) for p, q in zip(earlier.nodes, mesh.nodes) if p != q] if same else []

    def panel(self, before, earlier, by):
        if not self.lines:
            self.fail('nothing to draw')
        if m := self.match(INPUT):
            step = 2.0 ** -int(m[3]) if m[3] and int(m[3]) <= FINEST else 0.0
            subject, cutter = self.mesh(0), self.mesh(1)
            title = f'{self.title or "before"}: {count(len(subject.cells), "cell")}, cut by {len(cutter.cells)}'
            panel = Panel(title, subject, cutter, [], [], Mesh(), step, [])
        elif self.match(r'\(overlay'):
            mesh, counts = self.body()
            new, unnamed = self.added(mesh, counts, before)
            if by == 'parent' and not counts.parents:
                self.fail('a listing without parents')
            title = f'{self.title or "after"}: {count(counts.pieces, "piece")}, {count(len(new), "new point")}'
            if unnamed:
                title += f' of {len(new) + len(unnamed)} added'
            if counts.doubled:      # a listing from before W14
                title += f', {count(counts.doubled, "doubled cell")}'
            points, rings = ([mesh.nodes[n] for n in numbers] for numbers in (new, unnamed))
            step = before.step if before.step and all(v % before.step == 0 for p in points + rings for v in p) else 0.0
            panel = Panel(title, mesh, Mesh(), points, rings, before.filled if self.title else Mesh(), step, self.moved(mesh, before, earlier.filled))
        else:
            self.fail(f'nothing to draw: {self.lines[0][:60]}')
        self.need(r'\)', 'the last `)`')
        if self.at < len(self.lines):
            self.fail('text after the end')
        return panel


def count(n, word):
    return f'{n} {word}' if n == 1 else f'{n} {word}s'


def used(panel):
    """The places that a panel draws."""
    meshes = panel.filled, panel.dashed, panel.thin
    return [m.nodes[c] for m in meshes for cell in m.cells for c in cell.corners] + panel.points + panel.rings + [p for p, _ in panel.moved]


def edges(mesh):
    """Each edge of a mesh once."""
    return sorted({tuple(sorted(e)) for cell in mesh.cells for e in ring(cell.corners)})


def ring(corners):
    return list(zip(corners, corners[1:] + corners[:1]))


def ditches(panel):
    """The edges that one piece walks both ways."""
    return sorted({(a, b) for cell in panel.filled.cells for a, b in ring(cell.corners) if a < b and (b, a) in ring(cell.corners)})


def by_family(panels):
    """A colour for each family."""
    families = sorted({cell.family for p in panels for cell in p.filled.cells})
    return {f: COLOURS[i % len(COLOURS)] for i, f in enumerate(families)}


def by_parent(panels):
    """A colour for each parent: of those that no parent beside it has the least used one, as far as there are enough."""
    beside = {}
    for p in panels:
        around = {}
        for cell in p.filled.cells:
            for c in cell.corners:
                around.setdefault(p.filled.nodes[c], set()).add(cell.parent)
        for parents in around.values():
            for parent in parents:
                beside.setdefault(parent, set()).update(parents)
    colour, used = {}, dict.fromkeys(COLOURS, 0)
    for parent in sorted(beside):
        taken = {colour.get(other) for other in beside[parent]}
        colour[parent] = min(COLOURS, key=lambda c: (c in taken, used[c]))
        used[colour[parent]] += 1
    return colour


def far(p, a, b):
    """How far a point is from a side."""
    (x, y), (u, v) = (p[0] - a[0], p[1] - a[1]), (b[0] - a[0], b[1] - a[1])
    t = min(max((x * u + y * v) / ((u * u + v * v) or 1.0), 0.0), 1.0)
    return math.hypot(x - t * u, y - t * v)


def roomiest(points, steps=24):
    """How far the sides of a polygon are from a place inside it, and the place: of those of a grid the one with the most room."""
    xs, ys = zip(*points)
    wide, high = max(xs) - min(xs), max(ys) - min(ys)
    best = (0.0, points[0])
    for k in range(steps * steps if min(wide, high) > ROOM else 0):
        p = min(xs) + wide * (k % steps + 0.5) / steps, min(ys) + high * (k // steps + 0.5) / steps
        sides = ring(points)
        left = sum((a[1] > p[1]) != (b[1] > p[1]) and p[0] < a[0] + (p[1] - a[1]) * (b[0] - a[0]) / (b[1] - a[1]) for a, b in sides)
        if left % 2:
            best = max(best, (min(far(p, a, b) for a, b in sides), p))
    return best


class Frame:
    """All panels have one scale."""

    def __init__(self, places):
        xs, ys = zip(*places) if places else ((0.0,), (0.0,))
        self.left, self.top = min(xs), max(ys)
        wide, high = max(xs) - self.left, self.top - min(ys)
        self.scale = min(WIDTH / wide if wide else math.inf, HEIGHT / high if high else math.inf)
        if not math.isfinite(self.scale):
            self.scale = 1.0
        self.width, self.height = max(wide * self.scale, LEAST), high * self.scale
        self.right, self.bottom = self.left + wide, self.top - high

    def on_page(self, p):
        return (p[0] - self.left) * self.scale, (self.top - p[1]) * self.scale

    def place(self, p):
        x, y = self.on_page(p)
        return f'{x:.2f},{y:.2f}'

    def line(self, mesh, edge):
        return self.stroke(mesh.nodes[edge[0]], mesh.nodes[edge[1]])

    def stroke(self, p, q):
        return f'M{self.place(p)}L{self.place(q)}'

    def has_room(self, step):
        return step * self.scale >= ROOM

    def grid(self, step):
        """The lines of a grid."""
        for i in range(math.ceil(self.left / step), math.floor(self.right / step) + 1):
            yield self.stroke((i * step, self.bottom), (i * step, self.top))
        for i in range(math.ceil(self.bottom / step), math.floor(self.top / step) + 1):
            yield self.stroke((self.left, i * step), (self.right, i * step))


def layered(panels):
    """Whether the corners drawn are of more than one layer."""
    return len({m.layers[c] for p in panels for m in (p.filled, p.dashed) for cell in m.cells for c in cell.corners}) > 1


def inwards(a, p, b):
    """From the corner p of an anticlockwise cell, y downwards, a way into it; a and b are the corners before and behind. None where they are too near."""
    (u, v), (x, y) = (a[0] - p[0], a[1] - p[1]), (b[0] - p[0], b[1] - p[1])
    before, behind = math.hypot(u, v), math.hypot(x, y)
    if min(before, behind) < 2 * ROOM:
        return None
    u, v, x, y = u / before, v / before, x / behind, y / behind
    # half the angle at p, to the left of the way to b, and so far that the number clears both sides
    half = (math.atan2(v, u) - math.atan2(y, x)) % (-2 * math.pi) / 2 or -math.pi / 2
    far = ROOM / max(math.sin(-half), 0.2)
    return far * (x * math.cos(half) - y * math.sin(half)), far * (x * math.sin(half) + y * math.cos(half))


def layers(mesh, frame, colour):
    """Each corner's layer, in its cell."""
    for cell in mesh.cells:
        places = [frame.on_page(mesh.nodes[c]) for c in cell.corners]
        for n, a, p, b in zip(cell.corners, places[-1:] + places, places, places[1:] + places):
            if way := inwards(a, p, b):
                yield f'<text x="{p[0] + way[0]:.2f}" y="{p[1] + way[1] + 3:.2f}" font-size="9" text-anchor="middle" fill="{colour}">{mesh.layers[n]}</text>'


def cross(x, y):
    return f'<path d="M{x - 3:.2f} {y - 3:.2f}l6 6m0 -6l-6 6" stroke="{DOT}" stroke-width="1.2"/>'


def drawn(panel, frame, colour, by, with_layers):
    title, filled, dashed, points, rings, thin, step, moved = panel
    yield f'<text x="0" y="-12">{escape(title)}</text>'
    for edge in edges(thin):
        yield f'<path d="{frame.line(thin, edge)}" stroke="{THIN}" stroke-width="0.8"/>'
    for cell in filled.cells:
        path = ' '.join(frame.place(filled.nodes[c]) for c in cell.corners)
        yield f'<polygon points="{path}" fill="{colour[getattr(cell, by)]}" stroke="{LINE}" stroke-width="1"/>'
        if by == 'parent' and cell.parent[0] == 1:
            yield f'<polygon points="{path}" fill="url(#hatch)"/>'
    if frame.has_room(step):
        yield f'<path d="{"".join(frame.grid(step))}" {FAINT}/>'
    for edge in ditches(panel):
        yield f'<path d="{frame.line(filled, edge)}" stroke="{DASH}" stroke-width="2.6"/>'
    for edge in edges(dashed):
        yield f'<path d="{frame.line(dashed, edge)}" stroke="{DASH}" stroke-width="1.3" stroke-dasharray="5 3"/>'
    for p, q in moved:
        yield f'<path d="{frame.stroke(p, q)}" stroke="{DOT}" stroke-width="1.2"/>' + cross(*frame.on_page(p))
    for p in points:
        x, y = frame.place(p).split(',')
        yield f'<circle cx="{x}" cy="{y}" r="2.6" fill="{DOT}"/>'
    for p in rings:
        x, y = frame.place(p).split(',')
        yield f'<circle cx="{x}" cy="{y}" r="2.6" {RING}/>'
    for cell in filled.cells if by == 'parent' else ():
        name = str(cell.parent[1])
        room, (x, y) = roomiest([frame.on_page(filled.nodes[c]) for c in cell.corners])
        if 2 * room > ROOM + 2 * len(name):
            yield f'<text x="{x:.2f}" y="{y + 3.5:.2f}" font-size="10" text-anchor="middle">{name}</text>'
    if with_layers:
        yield from layers(filled, frame, TEXT)
        yield from layers(dashed, frame, DASH)


def legend(colour, by, dashed, dots, rings, twice, step, moved, with_layers):
    """The lines of the legend, and how wide it is."""
    lines, x, keys = [], 0, sorted(colour)
    if len(keys) > 6:
        words = f'{len(keys)} families' if by == 'family' else f'{len(keys)} cells; a piece has its cell\'s colour and number'
        lines.append(f'<text x="0" y="11">{words}</text>')
        keys, x = [(1, '')] * (by == 'parent' and keys[-1][0]), max(110, 7 * len(words))
    for key in keys:
        name = f'family {key}' if by == 'family' else f'{MESHES[key[0]]} cell {key[1]}'
        lines.append(f'<rect x="{x}" y="0" width="13" height="13" fill="{colour.get(key, "#ffffff")}" stroke="{LINE}"/>')
        if by == 'parent' and key[0] == 1:
            lines.append(f'<rect x="{x}" y="0" width="13" height="13" fill="url(#hatch)"/>')
        lines.append(f'<text x="{x + 19}" y="11">{name}</text>')
        x += 34 + 7 * len(name)
    if dashed:
        lines.append(f'<path d="M{x} 7h26" stroke="{DASH}" stroke-width="1.2" stroke-dasharray="5 3"/><text x="{x + 32}" y="11">cutter</text>')
        x += 90
    if dots:
        lines.append(f'<circle cx="{x + 4}" cy="7" r="2.6" fill="{DOT}"/><text x="{x + 13}" y="11">new point</text>')
        x += 100
    if rings:
        lines.append(f'<circle cx="{x + 4}" cy="7" r="2.6" {RING}/><text x="{x + 13}" y="11">added, in no piece</text>')
        x += 150
    if twice:
        lines.append(f'<path d="M{x} 7h26" stroke="{DASH}" stroke-width="2.6"/><text x="{x + 32}" y="11">walked both ways</text>')
        x += 150
    if moved:
        lines.append(cross(x + 4, 7) + f'<text x="{x + 13}" y="11">as computed</text>')
        x += 110
    if step:
        words = f'grid of {f"1/{1 / step:g}" if step < 1 else 1} m'
        lines.append(f'<path d="M{x} 3.5h20m0 6h-20M{x + 6.5} 0v13m7 0v-13" {FAINT}/><text x="{x + 26}" y="11">{words}</text>')
        x += 40 + 7 * len(words)
    if with_layers:
        lines.append(f'<text x="{x}" y="10" font-size="9">1</text><text x="{x + 12}" y="11">a corner\'s layer</text>')
        x += 120
    return lines, x


def picture(panels, by):
    colour = by_parent(panels) if by == 'parent' else by_family(panels)
    frame = Frame([q for p in panels for q in used(p)])
    step = round(max(frame.width, *(7 * len(p.title) for p in panels))) + GAP
    lines, wide = legend(colour, by, any(p.dashed.cells for p in panels), any(p.points for p in panels), any(p.rings for p in panels),
                         any(map(ditches, panels)), max((p.step for p in panels if frame.has_room(p.step)), default=0.0), any(p.moved for p in panels),
                         layered(panels))
    width = max(len(panels) * step + GAP, GAP + wide, 330)
    height = HEAD + frame.height + FOOT + 10
    yield f'<svg xmlns="http://www.w3.org/2000/svg" width="{width}" height="{height:.0f}" viewBox="0 0 {width} {height:.0f}" font-family="sans-serif" font-size="13" fill="{TEXT}">'
    yield f'<rect width="{width}" height="{height:.0f}" fill="#ffffff"/>'
    if by == 'parent':
        yield HATCH
    for i, panel in enumerate(panels):
        yield f'<g transform="translate({GAP + i * step} {HEAD})" stroke-linejoin="round">'
        yield from drawn(panel, frame, colour, by, layered(panels))
        yield '</g>'
    yield f'<g transform="translate({GAP} {HEAD + frame.height + 22:.0f})">'
    yield from lines
    yield '</g>'
    yield '</svg>'


def read(argument):
    title, _, name = ('', '', argument) if os.path.exists(argument) else argument.rpartition('=')
    if name == '-':
        return Reader('standard input', sys.stdin.buffer.read().decode('ascii'), title)
    with open(name, 'rb') as f:
        return Reader(name, f.read().decode('ascii'), title)


def main():
    parser = argparse.ArgumentParser(description=__doc__, formatter_class=argparse.RawDescriptionHelpFormatter)
    parser.add_argument('--by', choices=('family', 'parent'), default='family', help='what has a colour')
    parser.add_argument('files', nargs='*', default=['-'], metavar='[TITLE=]FILE')
    options = parser.parse_args()
    none = Panel('', Mesh(), Mesh(), [], [], Mesh(), 0.0, [])
    panels, before = [], none
    try:
        for argument in options.files:
            reader = read(argument)
            panels.append(reader.panel(before, panels[-1] if panels else none, options.by))
            before = panels[-1] if reader.is_input() else before
    except (Malformed, OSError, UnicodeDecodeError) as e:
        sys.exit(f'draw.py: {e}')
    print('\n'.join(picture(panels, options.by)))


main()
