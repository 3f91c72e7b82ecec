"""Inputs with a refusal that is known beforehand: limits of the state (8, 9, 10) on both sides, outlines that repeat (19), bad inputs (1 to 6)
and grids (13)."""
from made import LINE, PGON, QUAD, TRI, Mesh, text


def square(kind=QUAD, side=2.0, at=(0.0, 0.0)):
    m = Mesh()
    x, y = at
    m.polygon([(x, y), (x + side, y), (x + side, y + side), (x, y + side)], kind)
    return m


def crossings(n):
    """n upright lines over the square [0, 1024]: 2 n meetings, n nodes on its lower and n on its upper side; its table has the 2 n + 4
    edges of the outline and 3 of each line, two slots each."""
    s = square(side=1024.0)
    c = Mesh()
    for i in range(n):
        x = 1.0 + 3.5 * i
        c.cell(LINE, [c.node(x, -1.0), c.node(x, 1025.0)])
    return s, c


def fan(n):
    """n lines from one node on the square's lower side outwards: n times the same node collected there."""
    s, c = square(side=1024.0), Mesh()
    at = c.node(512.0, 0.0)
    for i in range(n):
        c.cell(LINE, [at, c.node(3.0 * i + 100.0, -100.0)])
    return s, c


def zigzag(n, spike):
    """n corners (an even number) up and down over a straight base, two level lines through them all, and a line that ends on the base; with the
    spike the base runs beyond that place and back to a corner there. Without it the table has 3 n + 3 darts of the outline and 2 n + 3 parts of
    the lines, two slots each."""
    s, c = Mesh(), Mesh()
    s.polygon([(0.0, 0.0), (float(n), 0.0)] + [(n - 0.5, 0.0)] * spike + [(float(i), 8.0 if i % 2 else 1.0) for i in reversed(range(n))], PGON)
    for a, b in [((-1.0, 3.0), (n + 1.0, 3.0)), ((-1.0, 5.0), (n + 1.0, 5.0)), ((n - 0.5, 0.0), (n - 0.5, -1.0))]:
        c.cell(LINE, [c.node(*a), c.node(*b)])
    return s, c


def two_cells(first, second):
    """Cells over each other, as one mesh of polygons."""
    m = Mesh()
    for part in first, second:
        base = len(m.nodes)
        m.nodes += part.nodes
        m.cells += [(PGON, f, [base + i for i in c]) for _, f, c in part.cells]
    return m


def repeats():
    for n in (2, 50, 100, 102, 168, 170, 172, 250):
        s, c = zigzag(n, False)
        yield 'outline of many darts', text(5, 4000, s, c), 10 if 2 * (5 * n + 6) > 1024 else 0
        s, c = zigzag(n, True)
        yield 'outline that repeats', text(5, 4000, s, c), 19
    # cell by cell
    (many, c), (spiked, _) = zigzag(102, False), zigzag(102, True)
    yield '10 of an earlier cell', text(5, 4000, two_cells(many, spiked), c), 10
    yield '19 of an earlier cell', text(5, 4000, two_cells(spiked, many), c), 19
    # 9 is looked at before any cell, 8 before that
    for _ in range(260):
        c.cell(LINE, [4, 5])
    yield '9 before 19', text(5, 4000, spiked, c), 9
    yield '8 before 9', text(5, 100, spiked, c), 8


def limits():
    """Name, text, the refusal or 0."""
    for n, m, want in [(100, 200, 0), (100, 199, 8), (1, 2, 0), (1, 1, 8), (101, 202, 0)]:
        s, c = crossings(n)
        yield 'limit of meetings', text(5, m, s, c), want
    for n in (99, 100, 101, 102, 103, 200, 256):
        s, c = crossings(n)
        yield 'limit of slots', text(5, 4000, s, c), 10 if 2 * (2 * n + 4 + 3 * n) > 1024 else 0
    for n in (257, 258, 280):
        s, c = crossings(n)
        yield 'limit of nodes on an edge', text(5, 4000, s, c), 9
    # repeats count
    for n, want in [(255, 0), (256, 0), (257, 9)]:
        s, c = fan(n)
        yield 'limit of nodes on an edge', text(5, 4000, s, c), want


def bad():
    s, c = square(), square(PGON, at=(1.0, -1.0))
    yield 'bad limit', text(0, 0, s, c), 1
    yield 'bad limit', text(0, 65537, s, c), 1
    for x in (float('nan'), float('inf'), -float('inf'), 2.0 ** 40 * (1 + 2.0 ** -52), -2.0 ** 41):
        for k in (0, 1):
            m = [square(), square(PGON, at=(1.0, -1.0))]
            m[k].nodes[2] = (x, 2.0)
            yield 'bad coordinate', text(0, 9, *m), 3
    yield 'minus zero', text(0, 9, s, c).replace('0' * 16, '8' + '0' * 15, 1), 3
    for k in (0, 1, 4, 6, 9, 12, 255):
        m = square()
        m.cells[0] = (k,) + m.cells[0][1:]
        yield 'bad kind', text(0, 9, m, c), 4
    m = square()
    m.cells[0] = (TRI,) + m.cells[0][1:]
    yield 'bad count', text(0, 9, m, c), 4
    yield 'lines as cells', text(5, 9, s, c), 4
    m = square(PGON)
    m.polygon([(5.0, 5.0), (6.0, 5.0), (5.0, 6.0)], TRI)
    yield 'kinds that fall', text(0, 9, m, c), 4
    m = Mesh()
    m.polygon([(float(i), float(i * i)) for i in range(257)], PGON)
    yield 'polygon of 257', text(0, 9, m, c), 4
    m = square()
    m.cells[0] = (QUAD, 0, [0, 1, 2, 4])
    yield 'bad node', text(0, 9, m, c), 5
    yield 'bad node', text(0, 9, c, m), 5
    m = square()
    m.cells[0] = (QUAD, 0, [0, 1, 2, 0])
    yield 'repeated node', text(0, 9, m, c), 6
    m = Mesh()
    for i in range(16385):
        m.node(float(i), 0.0)
    yield 'many nodes', text(0, 9, m, c), 2
    # the lowest number wins
    m = square()
    m.cells[0] = (QUAD, 0, [0, 1, 9, 0])
    yield 'two at once', text(0, 9, m, c), 5
    yield 'two at once', text(0, 65537, m, c), 1


def corner_fan(n):
    """n lines from the square's corner outwards: the corner, which they are welded onto, is collected as often under its two edges."""
    s, c = square(side=1024.0), Mesh()
    at = c.node(0.0, 0.0)
    for i in range(n):
        c.cell(LINE, [at, c.node(-100.0, -3.0 * i - 100.0)])
    return s, c


def grids():
    s, c = square(), square(PGON, at=(1.0, -1.0))
    for k, want in [(0, 0), (10, 0), (11, 13), (65536, 13), (4294967295, 13)]:
        yield 'limit of grids', text(0, 9, s, c, grid=k), want
    for m in (0, 65537):
        yield '1 before 13', text(0, m, s, c, grid=11), 1
    for name, form, _ in bad():
        if name != 'bad limit' and not form.startswith('(overlay 0 65537'):
            first, rest = form.split('\n', 1)
            yield '13 before ' + name, first + ' 11\n' + rest, 13
    yield '13 before 8', text(0, 1, s, c, grid=11), 13
    # the state's limits are those without a grid: ends that are met count, though their entries are dropped
    for k in (None, 0, 5, 10):
        for m, want in [(200, 0), (199, 8)]:
            yield 'limit of meetings', text(5, m, *crossings(100), grid=k), want
        for n, want in [(101, 0), (102, 10), (256, 10), (257, 9)]:
            yield 'limit of slots', text(5, 4000, *crossings(n), grid=k), want
        for way in (fan, corner_fan):
            for n, want in [(128, 0), (256, 0), (257, 9)]:
                yield 'limit of nodes on an edge', text(5, 4000, *way(n), grid=k), want
        for spike, want in [(False, 0), (True, 19)]:
            yield 'outline that repeats', text(5, 4000, *zigzag(100, spike), grid=k), want


def known():
    yield from limits()
    yield from repeats()
    yield from bad()
    yield from grids()
