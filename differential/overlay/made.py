"""Made inputs for the differential run: pairs of meshes in many families, from a seed.

A mesh is a list of nodes and a list of cells (kind, family, node numbers). Each family is a method that answers an operation (or None:
any of 0 to 4), a subject and a cutter; `one` then scales and renumbers them, gives some a grid and each node its layer, `text` prints them."""
import math
import random
import struct

LINE, TRI, QUAD, PGON = 1, 5, 8, 11
# Distances at which a cutter's node stands beside a subject's: under, at and over 1e-12, up to 1.2e-7 x scale, where ends are met.
NEAR = [0.0, 1e-16, 3e-13, 7e-13, 9.9e-13, 1e-12, 1.01e-12, 2e-12, 1e-11, 1e-10, 1e-9, 1e-8, 5e-8, 1e-7, 1.2e-7, 2e-7, 1e-6]
SCALES = [(1.0, 'unit'), (2.0 ** -1060, 'subnormal'), (2.0 ** -1030, 'subnormal'), (2.0 ** -520, 'underflow'), (2.0 ** -300, 'tiny'),
          (2.0 ** -40, 'tiny'), (1e-9, 'tiny'), (1e-3, 'milli'), (1e6, 'far'), (2.0 ** 30, 'huge'), (2.0 ** 36, 'huge')]
LARGEST = 2.0 ** 40
LAST_LAYER = 2 ** 32 - 1
# How far copies of cells are moved where there are layers, by both coordinates: at one place, under 1e-12 apart, and just over it.
ABOVE = [(0.0, 0.0), (0.0, 0.0), (2e-13, 0.0), (0.0, -4e-13), (6e-13, 6e-13), (-9.5e-13, 0.0), (1.5e-12, 0.0)]


def bits(x):
    return struct.pack('>d', x + 0.0).hex()


class Mesh:
    def __init__(self):
        self.nodes = []
        self.cells = []
        # of each node, once given
        self.layers = []

    def node(self, x, y):
        self.nodes.append((x, y))
        return len(self.nodes) - 1

    def cell(self, kind, corners, family=0):
        self.cells.append((kind, family, list(corners)))

    def polygon(self, points, kind=None):
        k = kind or {3: TRI, 4: QUAD}.get(len(points), PGON)
        self.cell(k, [self.node(x, y) for x, y in points])


def text(op, limit, *meshes, grid=None):
    out = ['(overlay %d %d' % (op, limit) + ('' if grid is None else ' %d' % grid)]
    for m in meshes:
        out.append('(mesh')
        out += ['(node %s %s %d)' % (bits(x), bits(y), layer) for (x, y), layer in zip(m.nodes, m.layers or [0] * len(m.nodes))]
        out += ['(cell %d %d %s)' % (k, f, ' '.join(map(str, c))) for k, f, c in m.cells]
        out.append(')')
    out.append(')\n')
    return '\n'.join(out)


class Made:
    def __init__(self, seed, only='', on_grid=False, layered=False):
        """`only`: the families whose names start so. `on_grid`: each overlay has a grid. `layered`: nodes of 2 to 4 layers, and every fifth overlay has a
        grid; else each overlay has one layer, of which the rest of it doesn't depend."""
        self.r = random.Random('layers %d' % seed if layered else 'grids %d' % seed if on_grid else seed)
        self.one_layer = random.Random('one layer %d' % seed)
        self.on_grid, self.layered = on_grid, layered
        families = [
            (self.grids, 12), (self.turned_grids, 10), (self.lattice, 14), (self.near_nodes, 14), (self.t_junctions, 8), (self.colinear, 8),
            (self.concave, 7), (self.touching, 6), (self.twice, 6), (self.collapsing, 5), (self.islands, 4), (self.unmerged, 8),
            (self.lines, 16), (self.ditches, 8), (self.repeated_lines, 6), (self.fans, 5), (self.mixed, 5), (self.empty, 1),
            (self.large, 1), (self.crowded, 1), (self.traced_banks, 4), (self.traced_lines, 4), (self.traced_cells, 3), (self.traced_hair, 3),
            (self.traced_sides, 2), (self.traced_folds, 2)]
        more = {'near_nodes': 3, 'unmerged': 2, 'collapsing': 2} if layered else {}
        self.families = [(f, w * more.get(f.__name__, 1)) for f, w in families if f.__name__.startswith(only)]

    # ---- parts

    def kind(self, n):
        return {3: self.r.choice([TRI, PGON]), 4: self.r.choice([QUAD, QUAD, PGON])}.get(n, PGON)

    def grid(self, nx, ny, side=1.0, at=(0.0, 0.0), angle=0.0, kinds=(QUAD, PGON, TRI)):
        """Cells of one kind; TRI: each square as two."""
        m = Mesh()
        s, c = math.sin(angle), math.cos(angle)
        if angle == 0.0:
            s, c = 0.0, 1.0
        for j in range(ny + 1):
            for i in range(nx + 1):
                x, y = i * side, j * side
                m.node(at[0] + (c * x - s * y), at[1] + (s * x + c * y))
        k = self.r.choice(kinds)
        for j in range(ny):
            for i in range(nx):
                a = j * (nx + 1) + i
                b, d, e = a + 1, a + nx + 2, a + nx + 1
                if k == TRI:
                    m.cell(TRI, [a, b, d])
                    m.cell(TRI, [a, d, e])
                else:
                    m.cell(k, [a, b, d, e])
        return m

    def some_cells(self, m):
        """A mesh with a few cells left out: their nodes stay, unused."""
        if len(m.cells) > 1 and self.r.random() < 0.3:
            m.cells = self.r.sample(m.cells, self.r.randint(1, len(m.cells)))
        return m

    def star(self, n, at, lo=0.3, hi=1.0, snap=0):
        turn = self.r.random() * math.tau
        out = []
        for i in range(n):
            a = turn + math.tau * i / n
            d = self.r.uniform(lo, hi)
            x, y = at[0] + d * math.cos(a), at[1] + d * math.sin(a)
            if snap:
                x, y = round(x * snap) / snap, round(y * snap) / snap
            out.append((x, y))
        return out

    def merged(self, polygons):
        """Polygons with nodes in common where coordinates are equal; those that name a node twice are left out."""
        m, at = Mesh(), {}
        for p in polygons:
            c = []
            for v in p:
                if v not in at:
                    at[v] = m.node(*v)
                c.append(at[v])
            if len(set(c)) == len(c) >= 3:
                m.cell(self.kind(len(c)), c)
        return m

    # ---- families

    def grids(self):
        n, k = self.r.randint(1, 4), self.r.randint(1, 4)
        shift = [self.r.choice([0.0, 0.0, 0.5, 0.25, 1.0, -1.0, 1 / 3, self.r.random(), -0.3]) for _ in range(2)]
        side = self.r.choice([1.0, 1.0, 0.5, 2.0, 0.75, 1 / 3, self.r.uniform(0.3, 1.7)])
        return None, self.some_cells(self.grid(n, self.r.randint(1, 4))), self.some_cells(self.grid(k, self.r.randint(1, 4), side, shift))

    def turned_grids(self):
        n, k = self.r.randint(1, 5), self.r.randint(1, 5)
        angle = self.r.choice([0.3, math.pi / 4, math.pi / 2, math.pi / 6, math.pi, 1e-9, 1e-7, 1e-13, self.r.uniform(0, math.tau)])
        at = [self.r.choice([0.0, 0.5, 1.0, 2.0, self.r.uniform(-1, 3)]) for _ in range(2)]
        side = self.r.choice([1.0, 0.9, 0.5, math.sqrt(0.5), math.sqrt(2), self.r.uniform(0.4, 2)])
        return None, self.grid(n, self.r.randint(1, 5)), self.some_cells(self.grid(k, self.r.randint(1, 5), side, at, angle))

    def lattice(self):
        """Small polygons on few places: corners, edges and directions coincide in every way."""
        size = self.r.choice([2, 3, 4, 6])

        def some(most):
            out = []
            for _ in range(self.r.randint(1, most)):
                n = self.r.choice([3, 3, 4, 4, 5, 6])
                p = [(float(self.r.randint(0, size)), float(self.r.randint(0, size))) for _ in range(n)]
                if self.r.random() < 0.7:
                    x, y = sum(v[0] for v in p) / n, sum(v[1] for v in p) / n
                    p.sort(key=lambda v: math.atan2(v[1] - y, v[0] - x))
                out.append(p)
            return out
        s, c = some(3), some(3)
        if self.r.random() < 0.3:
            c = [[(x + 0.5, y) for x, y in p] for p in c]
        make = self.merged if self.r.random() < 0.6 else self.apart
        return None, make(s), make(c)

    def apart(self, polygons):
        m = Mesh()
        for p in polygons:
            m.polygon(p, self.kind(len(p)))
        return m

    def near_nodes(self):
        """The cutter's nodes at, or a tiny step beside, those of the subject or points of its edges."""
        s = self.grid(self.r.randint(1, 3), self.r.randint(1, 3))
        size = self.r.choice(NEAR)
        places = list(s.nodes)
        for _, _, c in s.cells:
            for i in range(len(c)):
                (x, y), (u, v) = s.nodes[c[i]], s.nodes[c[i - 1]]
                t = self.r.choice([0.5, 0.25, 1 / 3, self.r.random(), 1e-12, 5e-8, 1 - 5e-8])
                places.append((x + t * (u - x), y + t * (v - y)))

        def beside(p):
            d = size if self.r.random() < 0.7 else self.r.choice(NEAR)
            a = self.r.choice([self.r.random() * math.tau, 0.0, math.pi / 2, math.pi, -math.pi / 2])
            if d == 1e-16:
                return tuple(math.nextafter(v, self.r.choice([-9, 9])) for v in p)
            return (p[0] + d * math.cos(a), p[1] + d * math.sin(a)) if d else p
        if self.r.random() < 0.5:
            dx, dy = self.r.choice([(0, 0), (1, 0), (0, 1), (0.5, 0), (0.5, 0.5), (-1, 1)])
            c = self.grid(self.r.randint(1, 3), self.r.randint(1, 3), at=(float(dx), float(dy)))
            c.nodes = [beside(p) for p in c.nodes]
        else:
            c = Mesh()
            for _ in range(self.r.randint(1, 3)):
                p = self.r.sample(places, min(len(places), self.r.choice([3, 4, 5])))
                x, y = sum(v[0] for v in p) / len(p), sum(v[1] for v in p) / len(p)
                p.sort(key=lambda v: math.atan2(v[1] - y, v[0] - x))
                c.polygon([beside(v) for v in p], self.kind(len(p)))
        return None, s, c

    def t_junctions(self):
        """Corners of the cutter on edges of the subject, and the other way round."""
        nx, ny = self.r.randint(1, 3), self.r.randint(1, 3)
        s = self.grid(nx, ny)
        c = Mesh()
        for _ in range(self.r.randint(1, 3)):
            p = []
            for _ in range(self.r.choice([3, 4, 4, 5])):
                t = self.r.choice([0.5, 0.25, 0.75, 1 / 3, self.r.random()])
                if self.r.random() < 0.5:
                    p.append((self.r.randint(0, nx) + t, float(self.r.randint(-1, ny + 1))))
                else:
                    p.append((float(self.r.randint(-1, nx + 1)), self.r.randint(0, ny) + t))
            x, y = sum(v[0] for v in p) / len(p), sum(v[1] for v in p) / len(p)
            p.sort(key=lambda v: math.atan2(v[1] - y, v[0] - x))
            c.polygon(p, self.kind(len(p)))
        return (None, s, c) if self.r.random() < 0.7 else (None, c, s)

    def colinear(self):
        """Edges that lie on each other in part, level, upright or slanting."""
        slope = self.r.choice([0.0, 1.0, 0.5, 1 / 3, self.r.uniform(-2, 2)])

        def strip(lo, hi, up, cuts):
            below = [(lo + (hi - lo) * t, slope * (lo + (hi - lo) * t)) for t in cuts]
            above = [(x, y + up) for x, y in reversed(below)]
            return below + above

        def cuts():
            return [0.0] + sorted({self.r.choice([0.25, 0.5, 0.75, self.r.random()]) for _ in range(self.r.randint(0, 3))}) + [1.0]
        s, c = Mesh(), Mesh()
        for m in (s, c):
            for _ in range(self.r.randint(1, 2)):
                lo = float(self.r.randint(0, 3)) if self.r.random() < 0.7 else self.r.uniform(0, 3)
                hi = lo + self.r.choice([1.0, 2.0, 0.5, self.r.uniform(0.2, 3)])
                p = strip(lo, hi, self.r.choice([1.0, -1.0, 0.5]), cuts())
                m.polygon(p, self.kind(len(p)))
        return None, s, c

    def concave(self):
        s, c = Mesh(), Mesh()
        snap = self.r.choice([0, 0, 4, 2])
        for m in (s, c):
            for _ in range(self.r.randint(1, 2)):
                if self.r.random() < 0.7:
                    p = self.star(self.r.randint(4, 14), (self.r.uniform(0, 1), self.r.uniform(0, 1)), 0.2, 2.0, snap)
                else:
                    # a comb
                    n = self.r.randint(2, 5)
                    y = self.r.choice([0.0, 0.5, self.r.random()])
                    p = [(0.0, y)] + [(i + 0.5 * t, y + (2.0 if t else 1.0)) for i in range(n) for t in (0, 1)] + [(float(n), y)]
                if len(set(p)) == len(p) or self.r.random() < 0.5:
                    m.polygon(p, PGON)
        return None, s, c

    def touching(self):
        """Cells whose outline touches or crosses itself: two nodes at one place, a corner on another edge, a bow tie."""
        way = self.r.randint(0, 3)
        if way == 0:
            p = [(0.0, 0.0), (2.0, 0.0), (2.0, 2.0), (1.0, 1.0), (0.0, 2.0), (0.0, 1.0), (1.0, 1.0), (0.5, 0.0)]
            p = p[:self.r.randint(6, 8)]
        elif way == 1:
            p = [(0.0, 0.0), (2.0, 2.0), (2.0, 0.0), (0.0, 2.0)]
        elif way == 2:
            p = [(0.0, 0.0), (3.0, 0.0), (3.0, 3.0), (1.5, self.r.choice([0.0, 1e-13, 1e-9])), (0.0, 3.0)]
        else:
            p = [(float(self.r.randint(0, 3)), float(self.r.randint(0, 3))) for _ in range(self.r.randint(5, 9))]
        s = Mesh()
        s.polygon(p, PGON)
        if self.r.random() < 0.5:
            c = self.grid(self.r.randint(1, 2), self.r.randint(1, 2), self.r.choice([1.0, 1.5, 0.7]), (self.r.choice([0.0, 0.5, 1.0]), self.r.choice([-0.5, 0.0, 1.0])))
        else:
            c = Mesh()
            c.polygon([(float(self.r.randint(0, 3)), self.r.randint(0, 6) / 2) for _ in range(self.r.randint(3, 7))], PGON)
        return (None, s, c) if self.r.random() < 0.6 else (None, c, s)

    def twice(self):
        """An outline traced twice or there and back, by nodes of its own that stand, exactly or nearly, on those of the first round."""
        base = self.r.choice([
            [(0.0, 0.0), (2.0, 0.0), (2.0, 2.0), (0.0, 2.0)], [(0.0, 0.0), (2.0, 0.0), (0.0, 2.0)], self.star(self.r.randint(4, 6), (1.0, 1.0), 0.5, 1.5)])
        d = self.r.choice([0.0, 0.0, 1e-13, 1e-10, 1e-8])
        again = base if self.r.random() < 0.7 else base[::-1]
        p = base + [(x + d, y) for x, y in again]
        c = Mesh()
        c.polygon(p, PGON)
        s = Mesh()
        if self.r.random() < 0.6:
            s.polygon(base, self.kind(len(base)))
            if self.r.random() < 0.5:
                s.polygon([(x + self.r.choice([0.5, 1.0, 2.0]), y) for x, y in base], self.kind(len(base)))
        else:
            s = self.grid(self.r.randint(1, 2), self.r.randint(1, 2), self.r.choice([1.0, 2.0, 1.5]))
        return (None, s, c) if self.r.random() < 0.6 else (None, c, s)

    def collapsing(self):
        """Cutter cells some of whose corners weld onto one subject node."""
        s = self.grid(2, 2)
        c = Mesh()
        for _ in range(self.r.randint(1, 3)):
            p = []
            for _ in range(self.r.randint(2, 4)):
                x, y = float(self.r.randint(0, 2)), float(self.r.randint(0, 2))
                p += [(x + k * self.r.choice([2e-13, 6e-13, 1.5e-12]), y) for k in range(self.r.randint(1, 2))]
            if len(p) < 3:
                p.append((self.r.uniform(-1, 3), self.r.uniform(-1, 3)))
            c.polygon(p, self.kind(len(p)))
        return None, s, c

    def islands(self):
        s = self.grid(self.r.randint(1, 2), 1, 4.0)
        c = Mesh()
        for k in range(self.r.randint(1, 3)):
            at, d = self.r.choice([(2.0, 2.0), (1.0, 1.0), (2.5, 2.0), (6.0, 2.0)]), self.r.choice([0.5, 1.0, 0.25, 1.9])
            if self.r.random() < 0.5:
                c.polygon([(at[0] - d, at[1] - d), (at[0] + d, at[1] - d), (at[0] + d, at[1] + d), (at[0] - d, at[1] + d)])
            else:
                c.polygon(self.star(self.r.randint(3, 7), at, 0.3, d + 0.4), PGON)
        return (None, s, c) if self.r.random() < 0.7 else (None, c, s)

    def unmerged(self):
        """Neighbours with nodes of their own on a common side."""
        op, s, c = self.r.choice([self.grids, self.lattice, self.turned_grids, self.t_junctions])()
        for m in (s, c):
            if m is s or self.r.random() < 0.5:
                nodes, cells, m.nodes, m.cells = m.nodes, m.cells, [], []
                d = self.r.choice([0.0, 0.0, 0.0, 1e-13, 1e-9])
                for k, f, corners in cells[:6]:
                    m.cells.append((k, f, [m.node(nodes[i][0] + d * self.r.randint(-1, 1), nodes[i][1]) for i in corners]))
        return op, s, c

    def line_mesh(self, points):
        c = Mesh()
        for a, b in points:
            if a == b and self.r.random() < 0.9:
                continue
            c.cell(LINE, [c.node(*a), c.node(*b)])
        return c

    def lines(self):
        """Lines that cross, end inside a cell, on an edge or at a corner, share ends, or run along edges."""
        way = self.r.random()
        s = self.grid(self.r.randint(1, 3), self.r.randint(1, 3)) if way < 0.6 else self.r.choice([self.concave, self.lattice, self.touching])()[1]

        def end():
            k = self.r.random()
            if k < 0.35:
                return (float(self.r.randint(-1, 4)), float(self.r.randint(-1, 4)))
            if k < 0.6:
                return (self.r.randint(-2, 8) / 2, self.r.randint(-2, 8) / 2)
            if k < 0.75:
                return (float(self.r.choice([-1, 4])), self.r.uniform(-1, 4))
            if k < 0.85 and s.nodes:
                x, y = self.r.choice(s.nodes)
                return (x + self.r.choice(NEAR), y)
            return (self.r.uniform(-1, 4), self.r.uniform(-1, 4))
        if self.r.random() < 0.5:
            return 5, s, self.line_mesh([(end(), end()) for _ in range(self.r.randint(1, 5))])
        # one path over the whole mesh, with nodes in common
        c = Mesh()
        path = [(-1.0, self.r.uniform(-1, 4))] + [end() for _ in range(self.r.randint(0, 3))] + [(5.0, self.r.uniform(-1, 4))]
        ids = [c.node(*p) for p in path]
        for a, b in zip(ids, ids[1:]):
            c.cell(LINE, [a, b])
        return 5, s, c

    def ditches(self):
        """Paths of lines that come in over a side and end inside a cell, with bends, forks and rings; some lie wholly inside."""
        s = self.grid(self.r.randint(1, 3), self.r.randint(1, 3), self.r.choice([1.0, 2.0])) if self.r.random() < 0.7 else self.concave()[1]
        steps = self.r.choice([0.25, 0.3, 0.5])
        c = Mesh()
        for _ in range(self.r.randint(1, 3)):
            start = (self.r.uniform(0, 2), -1.0) if self.r.random() < 0.8 else (self.r.uniform(0.1, 0.9), self.r.uniform(0.1, 0.9))
            ids = [c.node(*start)]
            for k in range(self.r.randint(1, 6)):
                # on from the last node, or a fork at an earlier one
                a = ids[-1] if self.r.random() < 0.7 else self.r.choice(ids)
                x, y = c.nodes[a]
                if k > 1 and self.r.random() < 0.15:
                    b = self.r.choice(ids)
                else:
                    d = 1.25 if a == ids[0] and start[1] < 0 else steps
                    b = c.node(x + d * self.r.choice([-0.5, 0.0, 0.0, 0.5, 1.0]), y + d * self.r.choice([1.0, 1.0, 0.5, -0.5, 0.0]))
                    ids.append(b)
                if a != b:
                    c.cell(LINE, [a, b] if self.r.random() < 0.7 else [b, a])
        return 5, s, c

    def repeated_lines(self):
        """The same line more than once, either way round, by the same or by new nodes."""
        s = self.grid(self.r.randint(1, 3), self.r.randint(1, 2))
        c = Mesh()
        for _ in range(self.r.randint(1, 3)):
            a, b = (-1.0, self.r.choice([0.5, 1.0, self.r.uniform(0, 2)])), (4.0, self.r.choice([0.5, 1.0, self.r.uniform(0, 2)]))
            if self.r.random() < 0.3:
                a, b = (0.5, -1.0), (0.5, 3.0)
            i, j = c.node(*a), c.node(*b)
            for _ in range(self.r.randint(1, 3)):
                if self.r.random() < 0.4:
                    i, j = c.node(*a), c.node(*b)
                c.cell(LINE, [i, j] if self.r.random() < 0.5 else [j, i])
        return 5, s, c

    def fans(self):
        """Many directions around one node, some of them a step apart: rounded angles."""
        op = self.r.choice([5, 5, None])
        at = (self.r.choice([0.0, 1.0, 0.5]), self.r.choice([0.0, 1.0, 0.5]))
        s = Mesh()
        s.polygon([(-3.0, -3.0), (3.0, -3.0), (3.0, 3.0), (-3.0, 3.0)])
        c = Mesh()
        a = self.r.choice([math.pi, math.pi / 2, 0.0, self.r.random() * math.tau])
        step = self.r.choice([1e-16, 1e-15, 1e-13, 1e-9, 0.1])
        ends = []
        for k in range(self.r.randint(2, 4)):
            t = a + k * step
            ends.append((at[0] + 9 * math.cos(t), at[1] + 9 * math.sin(t) + (k * 1e-15 if self.r.random() < 0.5 else 0)))
        ends += [(at[0] + 9 * math.cos(t), at[1] + 9 * math.sin(t)) for t in (a + 2, a + 4)]
        if op == 5:
            i = c.node(*at)
            for e in ends:
                c.cell(LINE, [i, c.node(*e)])
        else:
            i, ids = c.node(*at), [c.node(*e) for e in ends]
            for u, v in zip(ids, ids[1:]):
                c.cell(self.kind(3), [i, u, v])
        return op, s, c

    def mixed(self):
        """Cells of two families in one mesh."""
        parts = [self.r.choice([self.grids, self.concave, self.lattice, self.islands, self.touching])() for _ in range(2)]
        out = []
        for k in (1, 2):
            m = Mesh()
            for p in parts:
                base = len(m.nodes)
                m.nodes += p[k].nodes
                m.cells += [(kind, f, [i + base for i in c]) for kind, f, c in p[k].cells]
            out.append(m)
        return None, out[0], out[1]

    def large(self):
        """Grids of some hundred cells, and outlines of many corners over them."""
        n, k = self.r.randint(6, 16), self.r.randint(6, 16)
        s = self.grid(n, self.r.randint(6, 16))
        if self.r.random() < 0.7:
            side = self.r.choice([n / k, 1.0, 0.5, 0.9])
            return None, s, self.grid(k, k, side, (self.r.choice([0.0, 0.5, n / 4]), 0.0173), self.r.choice([0.3, 0.0, math.pi / 4, 1e-8]))
        c = Mesh()
        for _ in range(self.r.randint(1, 3)):
            c.polygon(self.star(self.r.randint(20, 60), (self.r.uniform(0, n), self.r.uniform(0, n)), n / 6, n / 2), PGON)
        # an outline cut by the whole grid may have over 1,024 slots
        return None, s, c

    def crowded(self):
        """About as many slots in a table, or nodes under a key, as are allowed."""
        s, c, way = Mesh(), Mesh(), self.r.randint(0, 2)
        if way == 0:
            # a star over a whole grid, both cut
            n = self.r.randint(10, 15)
            c.polygon(self.star(self.r.randint(8, 40), (n / 2 + 0.1, n / 2), n / 4, n / 1.5), PGON)
            return self.r.choice([1, 4]), self.grid(n, n, kinds=(QUAD, PGON)), c
        s.polygon([(0.0, 0.0), (1024.0, 0.0), (1024.0, 1024.0), (0.0, 1024.0)], self.kind(4))
        if way == 1:
            # lines from side to side
            n = self.r.randint(98, 105)
            ends = [[self.r.uniform(0, 1024) for _ in range(n)] for _ in range(2)]
            if self.r.random() < 0.7:
                ends = list(map(sorted, ends))
            for a, b in zip(*ends):
                c.cell(LINE, [c.node(a, -1.0), c.node(b, 1025.0)])
        else:
            # lines that end on one node of a side, and some that cross it
            at = c.node(512.0, 0.0)
            for i in range(self.r.randint(250, 262)):
                x = 3.5 * i + 10.0
                if self.r.random() < 0.01:
                    c.cell(LINE, [c.node(x, -100.0), c.node(x, 1025.0)])
                else:
                    c.cell(LINE, [at, c.node(x, -100.0)])
        return 5, s, c

    def empty(self):
        op, s, c = self.r.choice([self.grids, self.lattice, self.lines])()
        return (op, Mesh(), c) if self.r.random() < 0.5 else (op, s, Mesh())

    # ---- boundaries traced twice

    def boundary(self, nx, ny):
        """A path over a grid's nodes from its left to its right side, or from outside to outside; straight runs are likely."""
        y, step = float(self.r.randint(0, ny)), 0.0
        out = [(-1.0, y)] if self.r.random() < 0.4 else []
        for x in range(nx + 1):
            out.append((float(x), y))
            step = step if self.r.random() < 0.6 else self.r.choice([-1.0, 0.0, 0.0, 1.0])
            y = min(float(ny), max(0.0, y + step))
        return out + ([(nx + 1.0, out[-1][1])] if self.r.random() < 0.4 else [])

    def traced(self, path):
        """The path once more: some nodes left out, most of them in straight runs, or some put in between."""
        out = list(path)
        for i in reversed(range(1, len(out) - 1)):
            (a, b), (x, y), (u, v) = out[i - 1:i + 2]
            straight = (x - a) * (v - y) == (y - b) * (u - x)
            if self.r.random() < (0.5 if straight else 0.05):
                del out[i]
        if self.r.random() < 0.2:
            i = self.r.randrange(1, len(out))
            t = self.r.choice([0.5, 0.25, self.r.random()])
            out.insert(i, tuple(a + t * (b - a) for a, b in zip(out[i - 1], out[i])))
        return out

    def shaken(self, points, size):
        """Each point moved by about this much, some of them not."""
        def moved(p):
            if size == 0.0 or self.r.random() < 0.3:
                return p
            a = self.r.choice([self.r.random() * math.tau, 0.0, math.pi / 2, math.pi, -math.pi / 2])
            return (p[0] + size * math.cos(a), p[1] + size * math.sin(a))
        return [moved(p) for p in points]

    def under(self, nx, ny):
        """What a boundary runs over: a grid, the grid's cells with nodes of their own, or its rim as one cell with all of the rim's nodes."""
        m = self.grid(nx, ny)
        way = self.r.random()
        if way < 0.5:
            return self.some_cells(m)
        if way < 0.7:
            return self.apart([[m.nodes[i] for i in c] for _, _, c in m.cells])
        rim = [(float(i), 0.0) for i in range(nx)] + [(float(nx), float(j)) for j in range(ny)]
        return self.apart([rim + [(nx - x, ny - y) for x, y in rim]])

    def either(self, s, c):
        return (None, s, c) if self.r.random() < 0.7 else (None, c, s)

    def traced_banks(self):
        """Two soils on both sides of a boundary that runs over the subject's nodes, each with the boundary as traced for it."""
        nx, ny = self.r.randint(1, 4), self.r.randint(1, 3)
        path = self.boundary(nx, ny)
        size = self.r.choice([0.0, 0.0, 0.0, 1e-13, 3e-13, 1e-12, 1e-9, 1e-8])
        low, high = (self.shaken(self.traced(path), size) for _ in range(2))
        low = [(-1.0, -1.0), (nx + 1.0, -1.0)] + low[::-1]
        high = high + [(nx + 1.0, ny + 1.0), (-1.0, ny + 1.0)]
        make = self.merged if self.r.random() < 0.4 else self.apart
        return self.either(self.under(nx, ny), make(self.r.sample([low, high], 2)))

    def traced_lines(self):
        """A boundary as lines, more than once: whole or in part, either way round, by the same nodes, by new ones there or beside them."""
        nx, ny = self.r.randint(1, 4), self.r.randint(1, 3)
        path = self.boundary(nx, ny)
        size = self.r.choice([0.0, 0.0, 1e-13, 1e-12, 1e-9])
        c, at = Mesh(), {}
        for _ in range(self.r.randint(2, 4)):
            p = self.traced(path)
            if self.r.random() < 0.3:
                i = self.r.randrange(len(p) - 1)
                p = p[i:self.r.randint(i + 2, len(p))]
            own = self.r.random() < 0.5
            if own:
                ids = [c.node(*v) for v in self.shaken(p, size)]
            else:
                at.update((v, c.node(*v)) for v in p if v not in at)
                ids = [at[v] for v in p]
            back = self.r.random() < 0.5
            for a, b in zip(ids, ids[1:]):
                c.cell(LINE, [b, a] if back else [a, b])
        return 5, self.under(nx, ny), c

    def traced_cells(self):
        """The same cell more than once, by the same nodes or its own, turned round or started elsewhere; its corners are mostly the subject's nodes."""
        nx, ny = self.r.randint(1, 3), self.r.randint(1, 3)
        places = [(float(i), float(j)) for i in range(-1, nx + 2) for j in range(-1, ny + 2)]
        c = Mesh()
        for _ in range(self.r.randint(1, 2)):
            p = self.r.sample(places, self.r.randint(3, 6))
            x, y = sum(v[0] for v in p) / len(p), sum(v[1] for v in p) / len(p)
            p.sort(key=lambda v: math.atan2(v[1] - y, v[0] - x))
            if self.r.random() < 0.3:
                p = [(a + self.r.choice([0.0, 0.5]), b) for a, b in p]
            size = self.r.choice([0.0, 0.0, 0.0, 1e-13, 1e-12, 1e-10])
            ids = [c.node(*v) for v in p]
            for k in range(self.r.randint(2, 3)):
                if k and self.r.random() < 0.5:
                    ids = [c.node(*v) for v in self.shaken(p, size)]
                i = self.r.randrange(len(ids)) if k else 0
                again = ids[i:] + ids[:i]
                c.cell(self.kind(len(again)), again[::-1] if k and self.r.random() < 0.2 else again)
        return self.either(self.under(nx, ny), c)

    def traced_hair(self):
        """Two outlines of a boundary that leave each other by a hair, cross, and come together at the subject's nodes."""
        nx, ny = self.r.randint(1, 3), self.r.randint(1, 2)
        path = self.boundary(nx, ny)
        size = self.r.choice([2e-12, 1e-11, 1e-10, 1e-9, 1e-8, 5e-8, 1e-7, 2e-7, 1e-6])

        def side():
            out = []
            for a, b in zip(path, path[1:]):
                out.append(a)
                for t in sorted(self.r.choice([0.5, 0.25, self.r.random()]) for _ in range(self.r.randint(0, 2))):
                    out.append((a[0] + t * (b[0] - a[0]), a[1] + t * (b[1] - a[1]) + size * self.r.choice([-1.0, 0.0, 1.0])))
            return out + path[-1:]
        low = [(-1.0, -1.0), (nx + 1.0, -1.0)] + side()[::-1]
        return self.either(self.under(nx, ny), self.apart([low, side() + [(nx + 1.0, ny + 1.0), (-1.0, ny + 1.0)]]))

    def traced_sides(self):
        """Cutter cells with a side on the subject's edges, some too short to meet them, others from node to node, in part or beyond."""
        nx, ny = self.r.randint(1, 3), self.r.randint(1, 3)
        polygons = []
        for _ in range(self.r.randint(1, 4)):
            y, x = float(self.r.randint(0, ny)), self.r.randint(0, nx) + self.r.choice([0.0, 0.0, 0.5, self.r.random()])
            d = self.r.choice([2.0 ** -26, 1e-9, 1e-8, 3e-8, 1e-7, 0.5, 1.0, 2.0, self.r.uniform(0.1, 3)])
            up = self.r.choice([-1.0, -0.5, 0.25, 1.0])
            p = [(x, y), (x + d, y), (x + d + self.r.choice([0.0, 0.5]), y + up), (x - self.r.choice([0.0, 0.5]), y + up)]
            p = p if up > 0 else p[::-1]
            polygons.append(p if self.r.random() < 0.5 else [(v, u) for u, v in p[::-1]])
        polygons += [list(p) for p in self.r.sample(polygons, self.r.randint(0, 1))]
        make = self.merged if self.r.random() < 0.5 else self.apart
        return self.either(self.under(nx, ny), make(polygons))

    def traced_folds(self):
        """Outlines that may repeat: corners that weld onto one, sides that run back over others, there and back by nodes of their own."""
        nx, ny = self.r.randint(1, 3), self.r.randint(1, 2)
        polygons = []
        for _ in range(self.r.randint(1, 2)):
            places = [(float(self.r.randint(0, nx)), float(self.r.randint(0, ny))) for _ in range(self.r.randint(2, 5))]
            way = self.r.random()
            if way < 0.4:
                # some corners come again, a little beside
                p = [v for v in places for _ in range(self.r.choice([1, 1, 1, 2]))] + self.r.sample(places, self.r.randint(0, 2))
                p = self.shaken(p, self.r.choice([2e-13, 6e-13, 1.5e-12]))
            elif way < 0.7:
                # along a side, and back in part
                y, x = float(self.r.randint(0, ny)), float(self.r.randint(1, 2))
                p = [(0.0, y), (x + 1.0, y), (x, y), (self.r.choice([x, x / 2, x + 1.0]), y + self.r.choice([1.0, 2.0, 0.5]))]
            else:
                p = self.boundary(nx, ny)
                p = p + self.shaken(p[::-1][self.r.randint(0, 1):], self.r.choice([0.0, 1e-13, 1e-12]))
            if len(p) > 2:
                polygons.append(p)
        s = self.under(nx, ny)
        return (None, s, self.apart(polygons)) if self.r.random() < 0.6 else (None, self.apart(polygons), s)

    # ---- the form

    def renumbered(self, m):
        order = list(range(len(m.nodes)))
        self.r.shuffle(order)
        new = {old: i for i, old in enumerate(order)}
        m.nodes = [m.nodes[i] for i in order]
        m.cells = [(k, f, [new[i] for i in c]) for k, f, c in m.cells]

    def finished(self, m):
        if self.r.random() < 0.5:
            self.renumbered(m)
        # in a clockwise cell that is cut the Rust's walk stops more often than not
        backwards = self.r.random() < 0.08
        cells = []
        for k, f, c in m.cells:
            if k != LINE and backwards and self.r.random() < 0.5:
                c = c[::-1]
            if k != LINE and self.r.random() < 0.3:
                i = self.r.randrange(len(c))
                c = c[i:] + c[:i]
            cells.append((k, self.r.randint(0, 9) if self.r.random() < 0.99 else 4294967295, c))
        m.cells = sorted(cells, key=lambda t: t[0])

    def scaled(self, s, c):
        scale, name = (1.0, 'unit') if self.r.random() < 0.6 else self.r.choice(SCALES)
        sx, sy = scale, scale
        dx = dy = 0.0
        k = self.r.random()
        if k < 0.04:
            # what reaches beyond 2^40 is cut off and falls on one line, so tables may be crowded
            sy, name = scale * self.r.choice([1e-6, 2.0 ** -20, 1e3]), name + ', stretched'
        elif k < 0.08 and name == 'unit':
            dx, dy, name = self.r.choice([1e3, 1e6, 12345.678]), self.r.choice([0.0, -1e6, 1e3]), 'moved'
        if (sx, sy, dx, dy) != (1.0, 1.0, 0.0, 0.0):
            for m in (s, c):
                m.nodes = [(x * sx + dx, y * sy + dy) for x, y in m.nodes]
        for m in (s, c):
            if any(not (abs(x) <= LARGEST and abs(y) <= LARGEST) for x, y in m.nodes):
                m.nodes = [(max(-LARGEST, min(LARGEST, x)), max(-LARGEST, min(LARGEST, y))) for x, y in m.nodes]
        return name

    def by_steps(self, s, c, k):
        """The meshes about 0, what is 1 in them so many steps of the grid; their own nodes are mostly on it, or halfway."""
        dx, dy = (self.r.choice([0.0, 0.0, -1.0, -0.5, -1.5, -2.0, 0.25]) for _ in range(2))
        side = 2.0 ** (self.r.choice([-2, -1, 0, 0, 1, 1, 2, 3, 4, 6, 9]) - k)
        for m in (s, c):
            m.nodes = [((x + dx) * side, (y + dy) * side) for x, y in m.nodes]
        return 'by steps'

    # ---- layers

    def stacked(self, m):
        """Some of the mesh's cells once or twice more, with nodes of their own above or beside theirs."""
        cells = self.r.sample(m.cells, min(len(m.cells), self.r.randint(1, 4)))
        for _ in range(self.r.randint(1, 2)):
            dx, dy = self.r.choice(ABOVE)
            new = {}
            for k, f, c in cells:
                for n in c:
                    if n not in new:
                        x, y = m.nodes[n]
                        new[n] = m.node(x + dx, y + dy)
                m.cells.append((k, f, [new[n] for n in c]))

    def brought(self, s, c):
        """The cutter moved so that one of its nodes stands at or beside one of the subject's."""
        (x, y), (u, v), (dx, dy) = self.r.choice(s.nodes), self.r.choice(c.nodes), self.r.choice(ABOVE)
        c.nodes = [(a + (x - u) + dx, b + (y - v) + dy) for a, b in c.nodes]

    def nearest(self, s, p):
        """The subject's node nearest to a place, if it is about as near as welding wants."""
        d, n = min((max(abs(x - p[0]), abs(y - p[1])), n) for n, (x, y) in enumerate(s.nodes)) if s.nodes else (1.0, 0)
        return n if d < 1e-11 else None

    def layers_of(self, m, names, s):
        """A layer for each node: each its own, a cell's nodes one, nearly all one, or that of the subject's node there."""
        way = self.r.choice(['nodes', 'nodes', 'cells', 'cells', 'mostly', 'there'])
        if way == 'mostly':
            return [names[0] if self.r.random() < 0.85 else self.r.choice(names) for _ in m.nodes]
        out = [self.r.choice(names) for _ in m.nodes]
        if way == 'cells':
            for _, _, c in m.cells:
                layer = self.r.choice(names)
                for n in c:
                    out[n] = layer
        if way == 'there' and s is not m and len(s.nodes) * len(m.nodes) < 10000:
            for n, p in enumerate(m.nodes):
                there = self.nearest(s, p)
                if there is not None and self.r.random() < 0.8:
                    out[n] = s.layers[there]
        return out

    def on_layers(self, s, c):
        if not self.layered:
            layer = self.one_layer.choice([0, 1, LAST_LAYER, self.one_layer.randint(0, LAST_LAYER)])
            s.layers, c.layers = ([layer] * len(m.nodes) for m in (s, c))
            return
        names = self.r.sample([0, 1, 2, 3, 7, 4294967294, LAST_LAYER, self.r.randint(8, 2 ** 31)], self.r.randint(2, 4))
        for m in (s, c):
            m.layers = self.layers_of(m, names, s)

    def one(self):
        """Family, scale, operation, limit, grid, subject, cutter."""
        way = self.r.choices([f for f, _ in self.families], [w for _, w in self.families])[0]
        op, s, c = way()
        if op is None:
            op = self.r.choice([0, 0, 1, 2, 3, 4])
        grid = self.r.randint(0, 10) if self.on_grid or self.layered and self.r.random() < 0.2 else None
        if self.layered:
            if s.nodes and c.nodes and self.r.random() < 0.5:
                self.brought(s, c)
            for m in (s, c):
                if self.r.random() < 0.3:
                    self.stacked(m)
        if grid is not None and self.r.random() < 0.7:
            scale = self.by_steps(s, c, grid)
        else:
            # welding goes by a distance that doesn't scale
            scale = 'unit' if self.layered and self.r.random() < 0.7 else self.scaled(s, c)
        for m in (s, c):
            self.finished(m)
        self.on_layers(s, c)
        # refusal 8 now and then; otherwise no made pair meets so often
        limit = self.r.randint(1, 12) if self.r.random() < 0.01 else 4000
        return way.__name__, scale, op, limit, grid, s, c
