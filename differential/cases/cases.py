#!/usr/bin/env python3
"""cases.py OUT [LAW]: writes the inputs that crates/overlay_cases replays, and their right answers. No network.

OUT/data/NAME.in are the inputs, OUT/args their names in order, OUT/stdout each name and its answer. No answer comes from the
program under test. Those of overlays are what LAW lists (`oracle-law`, as differential/oracle-02.sh builds it, by default into
target/oracle-02: the published Rust with W1's turn back, W14's table, W6's grid and W7's weld by layers), with 0 as the third count, the parents of W2 and W5's
second count; how many cells the published table doubles must be as stands here. LAW is asked with each cell's number as its family, and what it
lists as a piece's family is its parent; the second count is of the new points that its pieces name. Refusals 8 and 9, and 19, 10 and 11 cell by cell, are what LAW's
counts and its stop give; where one stands here it must be that one. Other refusals, and text that can't be read, stand here, from the documents. The
stored inputs and right answers are taken over from crates/overlay_cases, where LAW must list each accepted one alike, with its parents and counts,
and give each refusal 8, 9, 10, 11 and 19. The smallest are the oracle's cases/: islands, unmerged neighbours, and the smallest inputs on which the
Rust and document 01's orders differ. Prints a table of what is made: name, answer, where it comes from.
"""
import math
import os
import re
import struct
import subprocess
import sys

HERE = os.path.dirname(os.path.abspath(__file__))
ROOT = os.path.dirname(os.path.dirname(HERE))
REPLAYED = os.path.join(ROOT, 'crates', 'overlay_cases')
SMALLEST = os.path.join(ROOT, 'differential', 'oracle', 'cases')
sys.path.insert(0, os.path.join(ROOT, 'differential', 'overlay'))
sys.dont_write_bytecode = True

from closing import named_points, numbered, parent


def bits(x):
    return struct.pack('>d', x).hex()


def mesh(points, cells, layers=None):
    """Points are pairs of floats; cells are (kind, family, node numbers); layers are one for each point, all 0 where none are given."""
    nodes = [f'(node {bits(x)} {bits(y)} {layer})' for (x, y), layer in zip(points, [0] * len(points) if layers is None else layers, strict=True)]
    lines = [f'(cell {" ".join(map(str, (k, f, *c)))})' for k, f, c in cells]
    return ['(mesh', *nodes, *lines, ')']


def overlay(op, m, subject, cutter, grid=None):
    text = '\n'.join([f'(overlay {op} {m}', *mesh(*subject), *mesh(*cutter), ')']) + '\n'
    return text if grid is None else on_grid(grid, text)


def on_grid(k, text):
    """The same with k behind the first line's numbers."""
    first, rest = text.split('\n', 1)
    return f'{first} {k}\n{rest}'


def box(a, b, c, d, family=0, kind=11):
    return [(a, b), (c, b), (c, d), (a, d)], [(kind, family, (0, 1, 2, 3))]


def refused(n):
    return f'(refused {n})\n'


UNREAD = '(unread)\n'
TURNING = 'W1, and the published Rust that turns back'
W14 = 'W14, document 02'
ONCE = 'W14, and the published Rust with its table'
CARRIED = 'W2, and the families of the published Rust'
NAMED = 'W5, and the pieces of the published Rust'
BOOKED = 'W6, and the published Rust on that grid'
W6 = 'W6, document 02'
LAYERED = 'W7, and the published Rust that welds by layers'
W7 = 'W7, document 02'
SQUARE = box(0., 0., 2., 2., 7, 8)
STRIP = box(1., -1., 3., 3.)
K1 = overlay(0, 9, SQUARE, STRIP)


class Listed:
    """An accepted overlay: the oracle lists it; so many cells are doubled in the published table."""

    def __init__(self, doubled=0):
        self.doubled = doubled


def ditch(*paths):
    """Lines from each point of a path to the next; a point that comes again is the same node."""
    points = list(dict.fromkeys(p for path in paths for p in path))
    return points, [(1, 0, (points.index(a), points.index(b))) for path in paths for a, b in zip(path, path[1:])]


def fan(corners, lines, op=5, m=None, whole=True):
    """A polygon between y = 0 and y = 1, and lines from one point below through both sides.

    The table has two slots for each part of an edge: the outline has a part for each corner and two more for each line, a
    line has three, two of them outside. So there are 2 corners + 10 lines of them."""
    n = len(corners)
    points = [(lines / 2, -1.)] + [(2. * i + 2 - lines / 2, 2.) for i in range(lines)]
    meshes = (corners, [(11, 7, range(n))]), (points, [(1, 0, (0, i + 1)) for i in range(lines)])
    return overlay(op, m or 2 * lines, *meshes) if whole else meshes


def wide(lines, extra=0):
    """Four corners around the fan's lines, and `extra` more on the right side."""
    w = 2. * lines
    right = [(w + (i + 1) / 8, (i + 1) / (extra + 1)) for i in range(extra)]
    return [(-w, 0.), (w, 0.), *right, (w, 1.), (-w, 1.)]


def repeated(cells, lines, kind, corners, more=(), whole=True):
    """The same cell many times, cut by the same lines across x = 0 to 1; `more` cells besides."""
    points = list(corners)
    first = []
    for k, p in more:
        c = (k, 9, range(len(points), len(points) + len(p)))
        points += p
        first.append(c)
    cs = [(kind, 7, range(len(corners)))] * cells
    cs = sorted(cs + first, key=lambda c: c[0])
    ends = [(-1., (i + 1) / (lines + 1)) for i in range(lines)], [(2., (i + 1) / (lines + 1)) for i in range(lines)]
    lp = [p for pair in zip(*ends) for p in pair]
    meshes = (points, cs), (lp, [(1, 0, (2 * i, 2 * i + 1)) for i in range(lines)])
    return overlay(5, 2 * lines * (1 + len(first)), *meshes) if whole else meshes


def ring(n):
    """A polygon of n corners around the origin."""
    return [(math.cos(2 * math.pi * i / n), math.sin(2 * math.pi * i / n)) for i in range(n)], [(11, 7, range(n))]


def along(k):
    """A triangle whose first edge 42 lines run along, six entries each under its key, and k lines across it, one each."""
    points = [(3., 3.), (4., 3.), (4., 4.), (0., 0.), (2., 0.), (0., 2.)]
    cells = [(5, 1, (0, 1, 2)), (5, 2, (3, 4, 5))]
    lines = [(1, 0, (0, 1))] * 42 + [(1, 0, (2, 3))] * k
    return overlay(5, 126 + k, (points, cells), ([(0., 0.), (2., 0.), (1., -1.), (1., .25)], lines))


def sized(total):
    """A well-formed input of so many bytes, too large for the working list."""
    def grid(cells, family):
        p = [(float(i % 32), float(i // 32)) for i in range(512)]
        c = [(8, family, (q, q + 1, q + 33, q + 32)) for q in (i // 31 * 32 + i % 31 for i in range(cells))]
        return p, c
    left = total - len(overlay(0, 9, grid(460, 1), grid(260, 1)))
    subject, cutter = grid(460, 1), grid(260, 1)
    cells = subject[1]
    for i, (k, f, c) in enumerate(cells):
        more = min(9, left)
        cells[i] = k, 10 ** more, c
        left -= more
    text = overlay(0, 9, subject, cutter)
    assert len(text) == total, (len(text), total)
    return text


def many(nodes=4, cells=1, entries=4):
    """A subject of so many nodes, cells and entries: polygons on the first three nodes, the last of them with what is left over."""
    p = [(float(i % 2), float(i // 2)) for i in range(nodes)]
    sizes = [3] * cells
    if entries != 3 * cells:
        sizes[-1] += entries - 3 * cells
    return overlay(0, 9, (p, [(11, 1, [i % nodes for i in range(n)]) for n in sizes]), STRIP)


def made():
    """(name, text, answer, where the answer comes from)"""
    oracle, doc = 'the published Rust', 'document 01'
    yield 'k1', K1, Listed(), doc + ' and ' + oracle
    start, low, end, left, right = (1., -1.), (1., .5), (1., 1.), (.5, 1.), (1.5, 1.)
    yield 'k10', overlay(5, 9, SQUARE, ditch([start, end])), Listed(), TURNING
    yield 'ditch-bent', overlay(5, 9, SQUARE, ditch([start, end, left])), Listed(), TURNING
    yield 'ditch-forked', overlay(5, 9, SQUARE, ditch([start, end, left], [end, right])), Listed(), TURNING
    yield 'ditch-two-ends', overlay(5, 9, SQUARE, ditch([left, end, start, (1.5, -1.), (1.5, .5)])), Listed(), TURNING
    yield 'ditch-ring', overlay(5, 9, SQUARE, ditch([start, low, right, left, low])), Listed(), oracle
    yield 'ditch-inside', overlay(5, 9, SQUARE, ditch([left, end])), Listed(), oracle
    # a node 2^-27 before the cutter's first, collected on its third edge: the cutter's outline as cut doesn't lead round
    corner = [(-2. ** -27, 0.), (1., 0.), (0., 1.)], [(5, 7, (0, 1, 2))]
    wedge = [(0., 0.), (2., 0.), (2., 2.)], [(5, 3, (0, 1, 2))]
    for op in 0, 1, 4:
        yield f'not-round-op{op}', overlay(op, 9, corner, wedge), Listed(), oracle if op == 0 else TURNING
    for op in 1, 2, 3, 4:
        yield f'k1-op{op}', overlay(op, 9, SQUARE, STRIP), Listed(), oracle
    # ---- limits of document 01
    yield 'limit-256-on-an-edge', along(4), Listed(1), oracle
    yield 'limit-257-on-an-edge', along(5), refused(9), doc
    yield 'limit-1024-slots', fan(wide(101, 3), 101), Listed(), oracle
    yield 'limit-1026-slots', fan(wide(101, 4), 101), refused(10), doc
    yield 'limit-256-corners', overlay(0, 9, ring(256), box(0., -2., 2., 2.)), Listed(), oracle
    yield 'limit-257-corners', overlay(0, 9, ring(257), box(0., -2., 2., 2.)), refused(4), doc
    yield 'limit-256-corners-cutter', overlay(0, 9, box(0., -2., 2., 2.), ring(256)), Listed(), oracle
    yield 'limit-257-corners-cutter', overlay(0, 9, box(0., -2., 2., 2.), ring(257)), refused(4), doc
    quad = [(0., 0.), (1., 0.), (1., 1.), (0., 1.)]
    tip = [(0., 0.), (1., 0.), (.5, 1.)]
    away = [(5., 5.), (6., 5.), (5., 6.)]
    yield 'limit-2048-pieces-8192-entries', repeated(64, 31, 8, quad), Listed(), oracle
    yield 'limit-8193-entries', repeated(63, 31, 8, quad, [(11, quad[:2] + [(1.5, .01)] + quad[2:])]), refused(12), doc
    yield 'limit-2048-pieces', repeated(64, 31, 5, tip), Listed(), oracle
    yield 'limit-2049-pieces', repeated(64, 31, 5, tip, [(5, away)]), refused(12), doc
    yield 'limit-working-list', overlay(0, 1004, SQUARE, STRIP), Listed(), oracle
    yield 'limit-working-list-short', overlay(0, 1005, SQUARE, STRIP), refused(7), doc
    yield 'limit-2-meetings', overlay(0, 2, SQUARE, STRIP), Listed(), oracle
    yield 'limit-1-meeting', overlay(0, 1, SQUARE, STRIP), refused(8), doc
    yield 'limit-2-to-40', overlay(0, 9, SQUARE, box(1., -1., 2. ** 40, 3.)), Listed(), oracle
    yield 'limit-above-2-to-40', overlay(0, 9, SQUARE, box(1., -1., 2. ** 40 + 2. ** -12, 3.)), refused(3), doc
    # ---- refusals because of the input; the lowest number wins, whichever mesh
    yield 'refused-1-operation', overlay(6, 9, SQUARE, STRIP), refused(1), doc
    yield 'refused-1-largest-operation', overlay(4294967295, 9, SQUARE, STRIP), refused(1), doc
    yield 'refused-1-no-meetings', overlay(0, 0, SQUARE, STRIP), refused(1), doc
    yield 'refused-1-meetings', overlay(0, 65537, SQUARE, STRIP), refused(1), doc
    yield 'refused-7-not-1', overlay(0, 65536, SQUARE, STRIP), refused(7), doc
    empty = SQUARE[0], [(8, 7, ())]
    yield 'refused-2', overlay(0, 9, SQUARE, empty), refused(2), doc
    yield 'refused-3-minus-zero', overlay(0, 9, box(-0., 0., 2., 2.), STRIP), refused(3), doc
    for name, kind, nodes in ('kind', 7, 4), ('line', 1, 2), ('triangle-of-4', 5, 4), ('quad-of-3', 8, 3), ('polygon-of-2', 11, 2):
        yield f'refused-4-{name}', overlay(0, 9, (SQUARE[0], [(kind, 7, range(nodes))]), STRIP), refused(4), doc
    yield 'refused-4-kinds-fall', overlay(0, 9, (SQUARE[0], [(8, 7, (0, 1, 2, 3)), (5, 7, (0, 1, 2))]), STRIP), refused(4), doc
    yield 'refused-4-cells-as-lines', overlay(5, 9, SQUARE, STRIP), refused(4), doc
    yield 'refused-5', overlay(0, 9, SQUARE, (STRIP[0], [(11, 0, (0, 1, 2, 4))])), refused(5), doc
    yield 'refused-6', overlay(0, 9, (SQUARE[0], [(8, 7, (0, 1, 2, 0))]), STRIP), refused(6), doc
    yield 'refused-3-before-5', overlay(0, 9, (SQUARE[0], [(8, 7, (0, 1, 2, 9))]), box(1., -1., math.inf, 3.)), refused(3), doc
    yield 'refused-2-before-3', overlay(0, 9, box(math.nan, 0., 2., 2.), empty), refused(2), doc
    yield 'refused-5-before-6', overlay(0, 9, (SQUARE[0], [(8, 7, (0, 1, 2, 0))]), (STRIP[0], [(11, 0, (0, 1, 9))])), refused(5), doc
    # ---- the text
    yield 'read-65536-bytes', sized(65536), refused(7), doc
    yield 'read-65537-bytes', sized(65537), UNREAD, doc
    yield 'read-512-nodes', many(nodes=512), Listed(), oracle
    yield 'read-513-nodes', many(nodes=513), UNREAD, doc
    yield 'read-512-cells', many(cells=512, entries=1536), refused(7), doc
    yield 'read-513-cells', many(cells=513, entries=1539), UNREAD, doc
    yield 'read-2048-entries', many(nodes=256, cells=512, entries=2048).replace('(overlay 0 9\n', '(overlay 9 9\n'), refused(1), doc
    yield 'read-2049-entries', many(nodes=256, cells=512, entries=2049).replace('(overlay 0 9\n', '(overlay 9 9\n'), UNREAD, doc
    yield 'read-largest-family', K1.replace('(cell 8 7', '(cell 8 4294967295'), Listed(), oracle
    yield 'read-family-too-large', K1.replace('(cell 8 7', '(cell 8 4294967296'), UNREAD, doc
    yield 'read-kind-255', K1.replace('(cell 8 7', '(cell 255 7'), refused(4), doc
    yield 'read-kind-256', K1.replace('(cell 8 7', '(cell 256 7'), UNREAD, doc
    yield 'read-leading-zero', K1.replace('(cell 8 7', '(cell 08 7'), UNREAD, doc
    yield 'read-capital', K1.replace('3ff', '3Ff', 1), UNREAD, doc
    yield 'read-two-spaces', K1.replace('(cell 8 7', '(cell 8  7'), UNREAD, doc
    yield 'read-15-digits', K1.replace('(node 0000000000000000', '(node 000000000000000', 1), UNREAD, doc
    yield 'read-17-digits', K1.replace('(node 0000000000000000', '(node 00000000000000000', 1), UNREAD, doc
    yield 'read-no-last-newline', K1[:-1], UNREAD, doc
    yield 'read-text-after-the-end', K1 + '\n', UNREAD, doc
    yield 'read-twice', K1 + K1, UNREAD, doc
    yield 'read-carriage-returns', K1.replace('\n', '\r\n'), UNREAD, doc
    yield 'read-nothing', '', UNREAD, doc
    yield 'read-no-cells', overlay(0, 9, ([], []), ([], [])), Listed(), oracle
    # ---- what made inputs rarely reach
    ell = [(0., 0.), (2., 0.), (2., 1.), (1., 1.), (1., 2.), (0., 2.)], [(11, 0, range(6))]
    for op in 2, 3:
        yield f'rare-reflex-corner-op{op}', overlay(op, 9, box(.75, .75, .875, .875, 7), ell), Listed(), oracle
        yield f'rare-reflex-corner-outside-op{op}', overlay(op, 9, box(1.125, 1.125, 1.25, 1.25, 7), ell), Listed(), oracle
    d = 2. ** -24
    # the triangle's corner is met by both cutter edges at (0, 0), and projects outside both: beyond (0, 0), whose number is
    # their keys' second node or first. The part from (0, 0) to it so enters the table twice.
    corner = [(-d, d), (-2., -2.), (2., -2.)], [(5, 7, (0, 1, 2))]
    last = [(0., -1.), (1., -1.), (1., 0.), (0., 0.)], [(11, 0, (0, 1, 2, 3))]
    first = [(0., 0.), (0., -1.), (1., -1.), (1., 0.)], [(11, 0, (0, 1, 2, 3))]
    for op in 0, 2:
        yield f'rare-behind-the-second-node-op{op}', overlay(op, 20, corner, last), Listed(1), oracle
        yield f'rare-before-the-first-node-op{op}', overlay(op, 20, corner, first), Listed(1), oracle
    # edges along a diagonal, one beside the other by e: |cross31| is eps, 2^-32, for e = 2^-39; the first two cells get a corner more
    half = [(0., 0.), (128., 0.), (128., 128.)], [(5, 7, (0, 1, 2))]
    for name, e in ('below', 2. ** -39 - 2. ** -45), ('is', 2. ** -39), ('above', 2. ** -39 + 2. ** -45):
        beside = [(64., 64 + e), (192., 192 + e), (64., 192.)], [(5, 0, (0, 1, 2))]
        yield f'rare-cross31-{name}-eps', overlay(0, 20, half, beside), Listed(), oracle
    # squared distances are 0, so every cutter node gets one number, and the table names it twice at itself
    t = 2. ** -600
    yield 'rare-tiny-same', overlay(0, 20, box(0., 0., t, t, 7), box(0., 0., t, t)), Listed(1), oracle
    yield 'rare-tiny-half', overlay(0, 20, box(0., 0., t, t, 7), box(0., 0., t, t / 2)), Listed(1), oracle
    # eps is 0, so edges that end at a common corner meet in a new point beside it; the part between belongs to two of the cell's edges
    t = 2. ** -520
    yield 'rare-no-eps-same', overlay(0, 40, box(0., 0., t, t, 7), box(0., 0., t, t)), refused(19), W14
    yield 'rare-no-eps-beside', overlay(0, 40, box(0., 0., t, t, 7), box(t, 0., 2 * t, t)), refused(19), W14
    yield 'rare-welded', overlay(0, 20, SQUARE, box(2. ** -42, 2. ** -42, 1., 1.)), Listed(), oracle
    yield 'rare-not-welded', overlay(0, 20, SQUARE, box(2. ** -39, 2. ** -39, 1., 1.)), Listed(), oracle


def cells(*polygons, kind=11):
    """Polygons with nodes of their own."""
    points = [p for polygon in polygons for p in polygon]
    ends = [sum(map(len, polygons[:i])) for i in range(len(polygons) + 1)]
    return points, [(kind, 0, range(a, b)) for a, b in zip(ends, ends[1:])]


def joined(*meshes):
    points, out = [], []
    for p, cs in meshes:
        out += [(k, f, [len(points) + i for i in c]) for k, f, c in cs]
        points = points + list(p)
    return points, out


def flat(kind):
    """A triangle that runs along the x-axis, back to its third corner, and back from there; the line pricks that corner. So its outline as
    cut passes twice between two of its nodes."""
    return cells([(1000., 0.), (1004., 0.), (1002., 0.)], kind=kind)


PRICK = cells([(1002., 0.), (1002., -1.)], kind=1)


def zigzag(n, spike, first=0):
    """A polygon of n corners up and down over a straight base, cut by two level lines: over 512 darts where n is above 170. A third line ends
    on the base; with the spike the base runs beyond that place and back to a corner there. `first`: which corner is named first."""
    corners = [(0., 0.), (float(n), 0.), *[(n - .5, 0.)] * spike, *((float(i), 8. if i % 2 else 1.) for i in reversed(range(n)))]
    corners = corners[first:] + corners[:first]
    lines = [(-1., 3.), (n + 1., 3.)], [(-1., 5.), (n + 1., 5.)], [(n - .5, 0.), (n - .5, -1.)]
    return overlay(5, 2 * n + 5, cells(corners), cells(*lines, kind=1))


def traced():
    """W14: boundaries traced twice, and outlines that repeat. (name, text, answer, where the answer comes from)"""
    # a cell with corners in the middle of two sides, 2 and 5; the edge between them is part of a long edge of one cutter cell and a side
    # of another. The long edge's parts lead from its smaller node number to its larger, here either way
    oracle, doc = 'the published Rust', 'document 01'
    six = [(0., 0.), (2., 0.), (2., 1.), (2., 2.), (0., 2.), (0., 1.)], [(11, 7, range(6))]
    upper = [(0., 1.), (2., 1.), (1., 1.5)]
    for name, lower in ('there', [(-1., 1.), (1., -1.), (3., 1.)]), ('back', [(3., 1.), (-1., 1.), (1., -1.)]):
        for order, cutter in ('after', cells(lower, upper)), ('before', cells(upper, lower)):
            yield f'traced-{name}-{order}', overlay(0, 20, six, cutter), Listed(1), ONCE
    yield 'traced-both', overlay(1, 30, six, cells([(-1., 1.), (1., -1.), (3., 1.)], upper)), Listed(1), ONCE
    # lines: once more by the same nodes, back, and by nodes of its own that weld onto the cell's
    across = [(0., 1.), (2., 1.)]
    for name, lines in ('again', [(0, 1), (0, 1)]), ('reversed', [(0, 1), (1, 0)]), ('own-nodes', [(0, 1), (2, 3)]), ('own-nodes-reversed', [(0, 1), (3, 2)]):
        yield f'traced-line-{name}', overlay(5, 20, six, (across + across, [(1, 0, c) for c in lines])), Listed(1), ONCE
    many_lines = [(1., -1.), (3., 1.)], [(1, 0, (0, 1))] * 255
    yield 'traced-line-255-times', overlay(5, 499, box(0., 0., 4., 4., 7, 8), many_lines), Listed(1), ONCE
    yield 'traced-line-in-part', overlay(5, 20, six, ditch([(-1., 1.), (2., 1.)], [(0., 1.), (3., 1.)])), Listed(1), ONCE
    # a ditch that is traced twice: walked there and back once
    yield 'traced-ditch', overlay(5, 20, six, ([(2., 1.), (1., 1.)], [(1, 0, (0, 1)), (1, 0, (1, 0))])), Listed(1), ONCE
    # a cutter's side of 2^-26 on the square's lower side: too short to meet it, so the whole edge is a candidate, and its ends are met by the
    # sides beside it, so it is an outline dart; its key has the dart's direction or the other
    short = [(1., 0.), (1 + 2. ** -26, 0.)]
    wings = [(1.5, -1.), (.5, -1.)]
    for name, polygon in ('there', short + wings), ('back', short[1:] + wings + short[:1]):
        yield f'traced-whole-edge-{name}', overlay(0, 20, SQUARE, cells(polygon)), Listed(1), ONCE
    # two corners that weld onto the square's corner: an edge from a node to itself, and the triangle's other two are one
    welded = cells([(2., 2.), (2 + 2. ** -42, 2.), (3., 4.)])
    for op in range(5):
        yield f'traced-loop-op{op}', overlay(op, 20, SQUARE, welded), refused(19) if op in (1, 4) else Listed(1), W14 if op in (1, 4) else ONCE
    yield 'traced-loop-line', overlay(5, 20, SQUARE, (welded[0][:2], [(1, 0, (0, 1))])), Listed(1), ONCE
    # corners that weld onto one, not next to each other: the outline there and back, twice
    there = cells([(2., 2.), (4., 2.), (2 + 2. ** -42, 2.), (3., 4.)])
    for op in 0, 1, 4:
        yield f'traced-welded-op{op}', overlay(op, 20, SQUARE, there), refused(19) if op else Listed(), W14 if op else oracle
    # welded onto a node that no cell names it isn't: the cutter's cell is copied
    unused = SQUARE[0] + [(9., 9.)], SQUARE[1]
    yield 'traced-copied', overlay(1, 20, unused, cells([(9., 9.), (9 + 2. ** -42, 9.), (9., 10.)])), Listed(), oracle
    # ---- 19 and where it stands
    spiked = cells([(0., 0.), (4., 0.), (2., 0.), (2., 4.)])
    yield 'refused-19', overlay(0, 20, spiked, cells([(2., 0.), (3., -1.), (1., -1.)])), refused(19), W14
    yield 'refused-19-not-cut-there', overlay(0, 20, spiked, cells([(3., 1.), (4., 1.), (4., 2.)])), Listed(), oracle
    yield 'refused-19-lines', overlay(5, 20, flat(5), PRICK), refused(19), W14
    # a cutter's corner 2^-30 beside the subject's isn't welded, but the subject's is met on both of its edges: there and back
    for op in 0, 1, 4:
        near = cells([(0., 2. ** -30), (-2., 0.), (0., -2.)], kind=5)
        text = overlay(op, 20, cells([(0., 0.), (2., 0.), (0., 2.)], kind=5), near)
        yield f'refused-19-near-corner-op{op}', text, refused(19) if op else Listed(), W14 if op else oracle
    yield 'limit-over-512-darts', zigzag(200, False), refused(10), doc
    yield 'limit-over-512-darts-repeats', zigzag(200, True), refused(19), W14
    yield 'limit-over-512-darts-repeats-late', zigzag(200, True, 3), refused(19), W14
    # 10 and 12 of an earlier cell come before 19 of a later one, and 19 comes before them in its own cell
    tall, lines = fan(wide(101, 4), 101, whole=False)
    low, _ = fan(wide(101, 3), 101, whole=False)
    cut = joined(lines, PRICK)
    yield 'refused-10-before-19', overlay(5, 205, joined(tall, flat(11)), cut), refused(10), doc
    yield 'refused-19-before-10', overlay(5, 205, joined(flat(11), tall), cut), refused(19), W14
    yield 'refused-19-after-a-cell', overlay(5, 205, joined(low, flat(11)), cut), refused(19), W14
    spike = [(-202., 0.), (202., 0.), (201., 0.), (202., 1.), (-202., 1.)]
    _, more = fan(wide(102), 102, whole=False)
    yield 'refused-19-not-10', overlay(5, 207, cells(spike), joined(more, cells([(201., 0.), (201., -1.)], kind=1))), refused(19), W14
    tips, lines = repeated(64, 31, 5, [(0., 0.), (1., 0.), (.5, 1.)], whole=False)
    cut, away = joined(lines, PRICK), cells([(5., 5.), (6., 5.), (5., 6.)], kind=5)
    yield 'refused-12-before-19', overlay(5, 65, joined(tips, away, flat(5)), cut), refused(12), doc
    yield 'refused-19-before-12', overlay(5, 65, joined(tips, flat(5), away), cut), refused(19), W14
    # 11 of the cutter's wedge (see not-round), and a cell with two corners welded onto one
    corner = cells([(-2. ** -27, 0.), (1., 0.), (0., 1.)], [(20., 20.), (22., 20.), (20., 22.)], kind=5)
    wedge, folded = [(0., 0.), (2., 0.), (2., 2.)], [(20., 20.), (20 + 2. ** -42, 20.), (19., 18.)]
    for op in 1, 4:
        yield f'refused-11-before-19-op{op}', overlay(op, 20, corner, cells(wedge, folded, kind=5)), refused(11), TURNING
        yield f'refused-19-before-11-op{op}', overlay(op, 20, corner, cells(folded, wedge, kind=5)), refused(19), W14


def bars(n):
    """Flat cells side by side across x = 0 to 1 between y = 0 and y = 1, with nodes of their own."""
    steps = [(i + 1) / (2 * n + 1) for i in range(2 * n)]
    return cells(*([(-1., low), (2., low), (2., high), (-1., high)] for low, high in zip(steps[::2], steps[1::2])))


def descended():
    """W2: which cell a piece was cut from. (name, text, answer, where the answer comes from)"""
    doc = 'document 01'
    # cells of all kinds, all of family 0: one away, one inside the cutter's second cell, two cut by it. The cutter's first is away
    triangles = cells([(0., 0.), (2., 0.), (2., 2.)], [(40., 40.), (41., 40.), (40., 41.)], kind=5)
    squares = cells([(2., 1.5), (3., 1.5), (3., 2.), (2., 2.)], kind=8)
    rest = cells([(4., 0.), (6., 0.), (6., 2.), (5., 3.), (4., 2.)])
    cutter = joined(cells([(20., 20.), (21., 20.), (21., 21.), (20., 21.)], kind=8), cells([(-1., 1.), (9., 1.), (9., 9.), (-1., 9.)]))
    for op in range(5):
        yield f'parents-op{op}', overlay(op, 30, joined(triangles, squares, rest), cutter), Listed(), CARRIED
    ditches = cells([(-1., 1.), (9., 1.)], [(2.5, 1.25), (2.5, 1.75)], kind=1)
    yield 'parents-lines', overlay(5, 30, joined(triangles, squares, rest), ditches), Listed(), CARRIED
    # the cutter's cells by themselves, and an index of three digits
    many = [(0., 0.), (1., 0.), (0., 1.)], [(5, 7, (0, 1, 2))] * 300
    far = cells([(5., 5.), (6., 5.), (5., 6.)])
    yield 'parents-300-cells', overlay(0, 9, many, far), Listed(), CARRIED
    yield 'parents-300-cells-of-the-cutter', overlay(4, 9, far, many), Listed(), CARRIED
    # the last places are for pieces of the cutter: 61 triangles of 33 pieces each, some away, and two of each bar
    tip, away = cells([(0., 0.), (1., 0.), (.5, 1.)], kind=5), cells([(5., 5.), (6., 5.), (5., 6.)], kind=5)
    tips = tip[0], tip[1] * 61
    yield 'limit-2048-pieces-of-both', overlay(1, 200, joined(tips, away, away, away), bars(16)), Listed(), CARRIED
    yield 'limit-2049-pieces-of-both', overlay(1, 200, joined(tips, away, away, away, away), bars(16)), refused(12), doc


def strips(places, low, high, across=False):
    """Cells side by side between lines at these places, with common nodes; `across`: the lines run along x."""
    ends = [(p, e) for p in places for e in (low, high)]
    # each counterclockwise
    turn = (0, 1, 3, 2) if across else (0, 2, 3, 1)
    return [(y, x) if across else (x, y) for x, y in ends], [(11, 0, [2 * i + k for k in turn]) for i in range(len(places) - 1)]


def pointed():
    """W5: which new points a piece names. (name, text, answer, where the answer comes from)"""
    # a cutter of two cells whose common side cuts the subject: a square that it covers in part, or two cells with a common side that it covers whole
    part, whole = strips([-1., 1., 1.5], -1., 3.), strips([-1., 1., 3.], -1., 3.)
    for name, subject, cutter in ('side', SQUARE, part), ('cross', strips([0., 1., 2.], 0., 2., across=True), whole):
        for op in range(5):
            yield f'points-{name}-op{op}', overlay(op, 20, subject, cutter), Listed(), NAMED
    yield 'points-side-lines', overlay(5, 20, SQUARE, cells([(1., -1.), (1., 3.)], [(1.5, -1.), (1.5, 3.)], kind=1)), Listed(), NAMED
    # the common side twice, by nodes of its own: new points twice
    apart = joined(strips([-1., 1.], -1., 3.), strips([1., 3.], -1., 3.))
    for op in 2, 3:
        yield f'points-apart-op{op}', overlay(op, 20, SQUARE, apart), Listed(), NAMED
    # the pieces also name the cutter's corner, which is no new point
    for op in 2, 3, 4:
        yield f'points-corner-op{op}', overlay(op, 20, SQUARE, box(1., 1., 3., 3.)), Listed(), NAMED
    # a hair across: no point that is inside it is found between its sides
    hair = cells([(-1., 1.), (3., 1.), (3., 1 + 2. ** -52)])
    for op in 2, 3:
        yield f'points-hair-op{op}', overlay(op, 20, SQUARE, hair), Listed(), NAMED
    beside = joined(hair, box(5., -1., 7., 3.))
    yield 'points-hair-beside-op2', overlay(2, 20, joined(SQUARE, box(4., 0., 6., 2., 7, 8)), beside), Listed(), NAMED
    # upright cells and one above them; the cutter's lie across and reach beyond all but that one. The working list is exactly full
    nodes, upright = strips([float(i) for i in range(20)], 0., 1.)
    subject = nodes + [(18., 3.), (19., 3.)], upright + [(11, 9, (37, 39, 41, 40))]
    level = strips([-1., *(i / 22 for i in range(1, 22)), 2.], -1., 20., across=True)
    for op in 3, 4:
        yield f'limit-points-op{op}', overlay(op, 764, subject, level), Listed(), NAMED


def gridded():
    """W6: new points on a grid. (name, text, answer, where the answer comes from)"""
    # sides at a third of the square's width: onto its corners with k 0, which stay two nodes each
    third = box(1 / 3, -1., 3., 3.)
    yield 'grid-third-none', overlay(0, 9, SQUARE, third), Listed(), 'the published Rust'
    for k in 0, 1, 10:
        yield f'grid-third-k{k}', overlay(0, 9, SQUARE, third, k), Listed(), BOOKED
    for op in 2, 3, 4:
        yield f'grid-third-k0-op{op}', overlay(op, 9, SQUARE, third, 0), Listed(), BOOKED
    yield 'grid-k1', on_grid(0, K1), Listed(), BOOKED
    # halfway, to the even multiple, up and down; a float beside
    about = box(-4., -4., 4., 4., 7, 8)
    for name, k, x in [('down', 0, 2.5), ('up', 0, 1.5), ('down-below-0', 0, -2.5), ('up-below-0', 0, -1.5),
                       ('down-k10', 10, 1 + 2. ** -11), ('up-k10', 10, 1 + 3 * 2. ** -11)]:
        yield f'grid-halfway-{name}', overlay(0, 9, about, box(x, -5., 5., 5.), k), Listed(), BOOKED
    for name, x in ('less', math.nextafter(1.5, 1.)), ('more', math.nextafter(2.5, 3.)):
        yield f'grid-halfway-{name}', overlay(5, 9, box(0., 0., 4., 4., 7, 8), ditch([(x, -1.), (x, 2.)]), 0), Listed(), BOOKED
    # zero is +0, from below and from halfway
    for name, x in ('below', -.25), ('halfway', -.5):
        yield f'grid-zero-{name}', overlay(0, 9, about, box(x, -5., 5., 5.), 0), Listed(), BOOKED
    tiny, side = 2. ** -20, -2. ** -21
    yield 'grid-zero-tiny', overlay(0, 9, box(-tiny, -tiny, tiny, tiny, 7, 8), box(side, -1., 1., 1.), 10), Listed(), BOOKED
    # the largest coordinates, where a step is eight floats
    far = 2. ** 40 - 8
    yield 'grid-far-k10', overlay(0, 9, box(far, far, far + 4, far + 4, 7, 8), box(far + 1 + 2. ** -11, far - 1, far + 8, far + 8), 10), Listed(), BOOKED
    # two sides that come to one place: a piece of no area, which has no inner point
    thin = box(.625, -1., .875, 3.)
    for op in range(5):
        yield f'grid-thin-op{op}', overlay(op, 9, SQUARE, thin, 0), Listed(), BOOKED
    # as lines: at one place they go as they were met
    low, high = [(.625, -1.), (.625, 3.)], [(.875, -1.), (.875, 3.)]
    for name, *lines in ('there', low, high), ('back', high, low):
        yield f'grid-thin-lines-{name}', overlay(5, 9, SQUARE, ditch(*lines), 0), Listed(), BOOKED
    # corners off the grid: a new point comes to stand before an edge's first node, or behind its second; lines from these corners collect them
    off = box(.375, .375, 2.625, 2.625, 7, 8)
    before, behind = [(.4375, 0.), (.4375, 3.)], [(2.5625, 0.), (2.5625, 3.)]
    first, second = [(.375, .375), (0., -1.)], [(2.625, .375), (3., -1.)]
    for name, *lines in ('before', before), ('behind', behind), ('before-first', before, first), ('behind-second', behind, second), ('both', before, first, behind, second):
        yield f'grid-{name}', overlay(5, 20, off, ditch(*lines), 0), Listed(), BOOKED
    for op in 0, 1:
        yield f'grid-behind-op{op}', overlay(op, 20, off, box(2.5625, 0., 4., 3.), 0), Listed(), BOOKED
    # no node before an edge's first: what is 11 without a grid
    corner = [(-2. ** -27, 0.), (1., 0.), (0., 1.)], [(5, 7, (0, 1, 2))]
    wedge = [(0., 0.), (2., 0.), (2., 2.)], [(5, 3, (0, 1, 2))]
    for op in 0, 1:
        yield f'grid-not-round-op{op}', overlay(op, 9, corner, wedge, 10), Listed(), BOOKED
    # sides on each other in part, and a corner on a side: ends and old nodes are met, a new point is beside them
    yield 'grid-colinear', overlay(0, 20, SQUARE, cells([(-1., 0.), (1., 0.), (1.3, 3.)]), 1), Listed(), BOOKED
    yield 'grid-colinear-lines', overlay(5, 20, off, ditch([(0., .375), (1., .375)], [(1., .375), (4., .375)], [(1.3, 0.), (1.6, 3.)]), 0), Listed(), BOOKED
    yield 'grid-shared-side', overlay(1, 20, off, box(2.625, .5, 4., 2.25), 0), Listed(), BOOKED
    # a line three times
    yield 'grid-traced', overlay(5, 20, off, ([(1.3, 0.), (1.3, 4.)], [(1, 0, (0, 1)), (1, 0, (0, 1)), (1, 0, (1, 0))]), 2), Listed(1), BOOKED
    # two lines from one node on a side, and a third that crosses the side beside it: its point projects as the node does and stands between that node's two entries
    between = [(2., 0.), (1., 3.), (2.25, 1.), (2.25, -1.), (3., 3.)], [(1, 0, (0, 1)), (1, 0, (2, 3)), (1, 0, (0, 4))]
    yield 'grid-between-none', overlay(5, 50, box(0., 0., 4., 4., 7, 8), between), Listed(), 'the published Rust'
    yield 'grid-between', overlay(5, 50, box(0., 0., 4., 4., 7, 8), between, 0), refused(19), W6
    # the limits of the state are those without a grid: ends count
    yield 'grid-limit-256-on-an-edge', on_grid(5, along(4)), Listed(1), BOOKED
    yield 'grid-limit-257-on-an-edge', on_grid(5, along(5)), refused(9), W6
    yield 'grid-limit-1-meeting', on_grid(0, overlay(0, 1, SQUARE, third)), refused(8), W6
    yield 'grid-limit-1026-slots', on_grid(3, fan(wide(101, 4), 101)), refused(10), W6
    yield from beyond_grids()


def beyond_grids():
    """13, directly after 1, and first lines that can't be read."""
    empty = SQUARE[0], [(8, 7, ())]
    for k in 11, 4294967295:
        yield f'refused-13-k{k}', on_grid(k, K1), refused(13), W6
    for name, op, m in ('operation', 6, 9), ('no-meetings', 0, 0), ('meetings', 0, 65537):
        yield f'refused-1-{name}-before-13', overlay(op, m, SQUARE, STRIP, 11), refused(1), W6
    for n, text in [(2, overlay(0, 9, SQUARE, empty)), (3, overlay(0, 9, box(-0., 0., 2., 2.), STRIP)), (4, overlay(5, 9, SQUARE, STRIP)),
                    (5, overlay(0, 9, SQUARE, (STRIP[0], [(11, 0, (0, 1, 2, 4))]))), (6, overlay(0, 9, (SQUARE[0], [(8, 7, (0, 1, 2, 0))]), STRIP)),
                    (7, overlay(0, 1005, SQUARE, STRIP)), (8, overlay(0, 1, SQUARE, STRIP))]:
        yield f'refused-13-before-{n}', on_grid(11, text), refused(13), W6
    yield 'refused-2-with-a-grid', overlay(0, 9, SQUARE, empty, 10), refused(2), W6
    yield 'refused-7-with-a-grid', overlay(0, 1005, SQUARE, STRIP, 0), refused(7), W6
    for name, k in [('too-large', '4294967296'), ('leading-zero', '00'), ('sign', '-1'), ('two-spaces', ' 1'), ('four-numbers', '1 1'), ('space', ''), ('space-after', '1 ')]:
        yield f'read-grid-{name}', on_grid(k, K1), UNREAD, W6


def of(layers, made):
    """A mesh with these layers, one for each node or one for all."""
    points, cs = made
    return points, cs, [layers] * len(points) if isinstance(layers, int) else layers


LAST_LAYER = 2 ** 32 - 1


def layered():
    """W7: layers of nodes. (name, text, answer, where the answer comes from)"""
    for layer in 7, LAST_LAYER:
        yield f'layers-one-{layer}', overlay(0, 9, of(layer, SQUARE), of(layer, STRIP)), Listed(), LAYERED
    # every node has another: the new points have those of the square's nodes 0 and 2, whichever mesh is cut
    for op in range(5):
        yield f'layers-k1-op{op}', overlay(op, 9, of([4, 3, 2, 1], SQUARE), of([9, 8, 7, 6], STRIP)), Listed(), LAYERED
    yield 'layers-ditch', overlay(5, 9, of([4, 3, 2, 1], SQUARE), of([9, LAST_LAYER], ditch([(1., -1.), (1., 1.)]))), Listed(), LAYERED
    yield 'layers-lines', overlay(5, 9, of([4, 3, 2, 1], SQUARE), of(0, ditch([(1., -1.), (1., 3.)], [(-1., 1.), (3., 1.)]))), Listed(), LAYERED
    yield from above()
    yield from along_sides()
    # on a grid: new points at corners of the square, and at one place, stay apart with their layers
    third, thin = box(1 / 3, -1., 3., 3.), box(.625, -1., .875, 3.)
    for name, op, cutter in ('third-op0', 0, third), ('third-op2', 2, third), ('thin-op0', 0, thin), ('thin-op1', 1, thin):
        yield f'layers-grid-{name}', overlay(op, 9, of([4, 3, 2, 1], SQUARE), of(5, cutter), 0), Listed(), LAYERED
    yield 'refused-13-with-layers', on_grid(11, overlay(0, 9, of(1, SQUARE), of(2, STRIP))), refused(13), W6
    yield 'refused-8-with-layers', overlay(0, 1, of(1, SQUARE), of(2, STRIP)), refused(8), W7
    yield from layers_read()


def above():
    """Corners of the subject's cells a hair, or nothing, from a triangle's corner, which takes the number of the nearest of its layer. Its sides meet none
    of theirs, so that it is copied under that number."""
    d, e = 2. ** -41, 2. ** -41
    two = joined(box(0., 0., 2., 2., 7, 8), box(0., 2 + d, 2., 4., 8, 8))

    def triangle(y):
        return cells([(2 + e, y), (4., 1.), (4., 3.)], kind=5)
    nearer, halfway = triangle(2 + d / 4), triangle(2 + d / 2)
    for low, high, layer in (1, 1, 1), (1, 2, 1), (1, 2, 2), (2, 1, 2), (2, 2, 1), (1, 2, 3), (1, LAST_LAYER, LAST_LAYER):
        text = overlay(1, 20, of([low] * 4 + [high] * 4, two), of([layer, 9, 9], nearer))
        yield f'layers-nearer-{low}-{high}-{layer}', text, Listed(), LAYERED
    for low, high, layer in (1, 1, 1), (2, 1, 1):
        text = overlay(1, 20, of([low] * 4 + [high] * 4, two), of([layer, 9, 9], halfway))
        yield f'layers-halfway-{low}-{high}-{layer}', text, Listed(), LAYERED
    yield 'layers-nearer-op4', overlay(4, 20, of([1] * 4 + [2] * 4, two), of([2, 9, 9], nearer)), Listed(), LAYERED
    # three corners, and a node that no cell names
    three = cells([(2., 2.), (0., 2.), (0., 0.)], [(2., 2 + d), (0., 4.), (0., 3.)], [(2., 2 + 2 * d), (0., 6.), (0., 5.)], kind=5)
    three = three[0] + [(2., 2 + d)], three[1]
    for layer in 1, 2, 3, 4, 5:
        text = overlay(1, 20, of([1] * 3 + [2] * 3 + [3] * 3 + [4], three), of([layer, 9, 9], triangle(2 + d)))
        yield f'layers-three-{layer}', text, Listed(), LAYERED
    # touching, the sides meet: of another layer the corner stays, and the outline goes to the square's and back
    touching = cells([(2., 2.), (4., 1.), (3., 4.)], kind=5)
    for op in 0, 1, 4:
        yield f'layers-touching-same-op{op}', overlay(op, 20, of(1, SQUARE), of([1, 2, 2], touching)), Listed(), LAYERED
        text = overlay(op, 20, of(1, SQUARE), of([2, 1, 1], touching))
        yield f'layers-touching-other-op{op}', text, refused(19) if op else Listed(1), W7 if op else LAYERED


def along_sides():
    """Which node of a side is its first, and sides and lines from one place in two layers."""
    # a common side from node 1 to node 4 in the left cell, back in the right one; the first cell's direction stays
    points = [(0., 0.), (2., 0.), (4., 0.), (0., 2.), (2., 2.), (4., 2.)]
    left, right = (8, 1, (0, 1, 4, 3)), (8, 2, (1, 2, 5, 4))
    for name, both in ('left', [left, right]), ('right', [right, left]), ('turned', [(8, 1, (1, 4, 3, 0)), right]):
        subject = of([0, 5, 1, 2, 6, 3], (points, both))
        yield f'layers-first-{name}-lines', overlay(5, 20, subject, of(9, ditch([(-1., 1.), (5., 1.)]))), Listed(), LAYERED
        yield f'layers-first-{name}-op0', overlay(0, 20, subject, of(9, box(1., .5, 3., 1.5))), Listed(), LAYERED
    # a diagonal and a side as lines, of the square's layer or another
    for name, a, b in ('diagonal', (2., 2.), (0., 0.)), ('side', (2., 0.), (2., 2.)):
        for layer in 1, 2:
            yield f'layers-{name}-{layer}', overlay(5, 20, of(1, SQUARE), of(layer, ditch([a, b]))), Listed(), LAYERED
    six = [(0., 0.), (2., 0.), (2., 1.), (2., 2.), (0., 2.), (0., 1.)], [(11, 7, range(6))]
    twice = [(0., 1.), (2., 1.)] * 2, [(1, 0, (0, 1)), (1, 0, (2, 3))]
    yield 'layers-line-twice', overlay(5, 20, of(1, six), of([1, 1, 2, 2], twice)), Listed(1), LAYERED
    # examples/layers.in in one layer, with a wedge of the other layer, and united
    upper, lower = ([(x, y) for y in (0., 1., 2.) for x in places] for places in ((0., 2.), (2., 4.)))
    step = upper + lower, [(8, 1 + i, (a, a + 1, a + 3, a + 2)) for i, a in enumerate((0, 2, 6, 8))]
    wedge = cells([(2., 1.), (5., 0.), (5., 2.)], kind=5)
    for name, op, upper, lower, layer in ('one', 0, 0, 0, 0), ('lower', 2, 1, 2, 2), ('upper', 0, 1, 2, 1), ('outside', 3, 1, 2, 2):
        yield f'layers-step-{name}', overlay(op, 20, of([upper] * 6 + [lower] * 6, step), of(layer, wedge)), Listed(4), LAYERED
    yield 'layers-step-united', overlay(1, 20, of([1] * 6 + [2] * 6, step), of(2, wedge)), refused(19), W7


def layers_read():
    """Node lines, and which can't be read."""
    line = f'(node {bits(2.)} {bits(0.)} '
    assert K1.count(line) == 1
    yield 'read-layer-largest', K1.replace(line + '0', f'{line}{LAST_LAYER}'), Listed(), LAYERED
    for name, layer in [('too-large', '4294967296'), ('of-many-digits', '1' * 40), ('leading-zero', '00'), ('leading-zero-before-1', '01'), ('sign', '-1'), ('two-spaces', ' 0'),
                        ('space-after', '0 '), ('two', '0 0'), ('letter', 'a'), ('point', '0.0'), ('space', '')]:
        yield f'read-layer-{name}', K1.replace(line + '0', line + layer), UNREAD, W7
    yield 'read-no-layer', K1.replace(line + '0', line[:-1]), UNREAD, W7
    cutter = f'(node {bits(3.)} {bits(-1.)}'
    yield 'read-no-layer-in-the-cutter', K1.replace(cutter + ' 0', cutter), UNREAD, W7
    yield 'read-no-layers', re.sub(r'^(\(node .*) 0\)$', r'\1)', K1, flags=re.M), UNREAD, W7


CELL = re.compile(r'^(?:copied )?cell (\d+)( doubled)?( repeats)?$', re.M)
PIECE = re.compile(r'^\(cell (\d+) (\d+)', re.M)


def ordered(text, listing):
    """What is listed for the text with its cells' numbers as families: pieces in the cells' order, under the cells' own families, with the mesh
    and the index of the cell that the number is of (W2); the count is of the new points that these pieces name (W5), the nodes are all."""
    families = {n: old for (_, old), (_, n) in zip(PIECE.findall(text), PIECE.findall(numbered(text, text[len('(overlay ')])))}
    lines = listing.splitlines(keepends=True)
    pieces = sorted((line for line in lines if line.startswith('(cell ')), key=lambda line: int(line.split()[2]))
    pieces = [PIECE.sub(lambda m: '(cell {} {} {} {}'.format(m[1], families[m[2]], *parent(int(m[2]))), line) for line in pieces]
    nodes = [line for line in lines if line.startswith('(node ')]
    assert lines[-2] == f'(count {len(pieces)} {len(nodes) - text.count("(node ")})\n'
    return ''.join(['(overlay\n', *nodes, *pieces, f'(count {len(pieces)} {len(named_points(text, listing))} 0)\n', lines[-1]])


def told(law, name, text):
    """What the oracle lists, or the refusal that its counts and its stop give; and how many cells the published table doubles."""
    run = subprocess.run([law, 'count'], input=numbered(text, text[len('(overlay ')]), capture_output=True, text=True, check=True)
    cells = CELL.findall(run.stderr)
    doubled = sum(bool(c[1]) for c in cells)
    meetings, collected = map(int, re.search(r'^meetings (\d+) collected (\d+)$', run.stderr, re.M).groups())
    if meetings > int(text.split()[2]):
        return refused(8), doubled
    if collected > 256:
        return refused(9), doubled
    for slots, _, repeats in cells:
        if repeats or int(slots) > 1024:
            return refused(19 if repeats else 10), doubled
    if run.stdout == '(panic no next dart)\n':
        return refused(11), doubled
    if not re.search(r'^\(count \d+ \d+\)\n\)\n\Z', run.stdout, re.M):
        sys.exit(f'{name}: the oracle says {run.stdout.strip()[:200]}')
    return ordered(text, run.stdout), doubled


def listed(law, name, text, doubled, source):
    """The oracle's answer, which must be an accepted one, or a refusal 11, with so many doubled cells; and where it comes from."""
    answer, n = told(law, name, text)
    if answer.startswith('(refused') and answer != refused(11):
        sys.exit(f'{name}: the oracle says {answer.strip()}')
    if answer != refused(11) and n != doubled:
        sys.exit(f'{name}: the published table doubles {n} cells, not {doubled}')
    return answer, ONCE if n and source not in (BOOKED, LAYERED) else source


TOLD = [refused(n) for n in (8, 9, 10, 11, 19)]


def stored(law):
    """(name, text, answer) of the stored ones, 001-... to 355-..., w2-..., w5-..., w6-... and w7-..."""
    names = read(f'{REPLAYED}/args').decode().split()
    answers = re.split('^(' + '|'.join(map(re.escape, names)) + ')\n', read(f'{REPLAYED}/stdout').decode(), flags=re.M)[1:]
    assert answers[::2] == names
    for name, answer in zip(names, answers[1::2]):
        if re.match(r'(w[2567]-)?\d{3}-', name):
            text = read(f'{REPLAYED}/data/{name}')
            if answer.startswith('(overlay') or answer in TOLD:
                if told(law, name, text.decode())[0] != answer:
                    sys.exit(f'{name}: the oracle lists something else')
            yield name, text, answer.encode()


def read(path):
    with open(path, 'rb') as f:
        return f.read()


# of the smallest inputs and the examples: the same line twice doubles a cell, a border that two sheets have two, a corner beside another layer's all four around it; an
# edge of no length that another's part runs back over is an outline's
DOUBLED = {'map-order-panic-op5.in': 1, 'traced.in': 2, 'layers.in': 4}
REPEATS = ['rounded-angles-op5.in']


def answers(law):
    """(name, text, answer, where the answer comes from)"""
    for name, text, answer in stored(law):
        yield name, text, answer, None
    rows = [(f, f'{SMALLEST}/{f}', 'the published Rust') for f in sorted(os.listdir(SMALLEST))]
    rows += [(f, f'{ROOT}/examples/{f}', source) for f, source in (('soil.in', 'the published Rust'), ('model.in', 'the published Rust'), ('ditch.in', TURNING), ('traced.in', ONCE),
                                                    ('layers.in', LAYERED))]
    rows = [(f, read(path), refused(19) if f in REPEATS else Listed(DOUBLED.get(f, 0)), source) for f, path, source in rows]
    rows += [(f'{name}.in', text.encode(), answer, source) for name, text, answer, source in [*made(), *traced(), *descended(), *pointed(), *gridded(), *layered()]]
    for name, text, answer, source in rows:
        if isinstance(answer, Listed):
            answer, source = listed(law, name, text.decode(), answer.doubled, source)
        elif answer in TOLD and told(law, name, text.decode())[0] != answer:
            sys.exit(f'{name}: the oracle says something else')
        yield name, text, answer.encode(), W14 if answer == refused(19) else source


def main():
    out = sys.argv[1]
    if len(sys.argv) > 2:
        law = sys.argv[2]
    else:
        built = f'{ROOT}/target/oracle-02'
        subprocess.run(['sh', f'{ROOT}/differential/oracle-02.sh', built], check=True)
        law = f'{built}/release/oracle-law'
    os.makedirs(f'{out}/data', exist_ok=True)
    with open(f'{out}/args', 'w') as args, open(f'{out}/stdout', 'wb') as stdout:
        for name, text, answer, source in answers(law):
            with open(f'{out}/data/{name}', 'wb') as f:
                f.write(text)
            args.write(name + '\n')
            stdout.write(name.encode() + b'\n' + answer)
            if source:
                last = answer.decode().split('\n')
                print(f'| {name[:-3]} | {last[0] if len(last) < 4 else last[-3]} | {source} |')


main()
