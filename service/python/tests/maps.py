"""Models and soil maps for the tests, made up, and areas by shapely alone."""
import numpy as np
from scipy.spatial import Delaunay, Voronoi
from shapely.geometry import Point, Polygon, box

from daqwimay import Mesh, Model, SoilMap

X0, Y0 = 155_000.0, 463_000.0


def grid(columns, rows, side, turn=0.0, x0=X0, y0=Y0):
    """Nodes and corners of a grid, turned by degrees."""
    x, y = (a.ravel() for a in np.meshgrid(np.arange(columns + 1) * side, np.arange(rows + 1) * side))
    c, s = np.cos(np.radians(turn)), np.sin(np.radians(turn))
    first = (np.arange(rows)[:, None] * (columns + 1) + np.arange(columns)).ravel()
    corners = np.column_stack([first, first + 1, first + columns + 2, first + columns + 1])
    return np.column_stack([x0 + c * x - s * y, y0 + s * x + c * y]), corners


def model(columns=20, rows=15, side=50.0, turn=7.0):
    return Model(Mesh.from_cells(*grid(columns, rows, side, turn)))


def soil_map(shapes):
    return SoilMap([f'soil {i}' for i in range(len(shapes))], list(shapes), list(range(len(shapes))))


def moved(shape, x=X0, y=Y0):
    def ring(r):
        return np.asarray(r.coords)[:-1] + [x, y]
    return Polygon(ring(shape.exterior), [ring(h) for h in shape.interiors])


def voronoi(seed, count=60, wide=1600.0, high=1400.0):
    """Soils that neighbours agree on: corners are shared, bit for bit. The places are mirrored, so that every soil ends at the rim."""
    p = np.random.default_rng(seed).random((count, 2)) * [wide, high]
    around = np.vstack([p, p * [-1, 1], p * [1, -1], [2 * wide, 0] + p * [-1, 1], [0, 2 * high] + p * [1, -1]])
    found = Voronoi(around)
    corners = found.vertices + [X0 - 300, Y0 - 200]
    return [Polygon(corners[found.regions[found.point_region[i]]]) for i in range(count)]


def along(seed, shapes):
    """A model of triangles with nodes along the soils' sides, as meshes built around soils or rivers have them."""
    rng, places = np.random.default_rng(seed), []
    for shape in shapes:
        ring = np.asarray(shape.exterior.coords)
        for a, b in zip(ring, ring[1:]):
            places.append(a + (b - a) * np.linspace(0, 1, max(1, int(np.hypot(*(b - a)) // 20)), endpoint=False)[:, None])
    xy = np.concatenate([*places, rng.random((400, 2)) * [1000, 800] + [X0, Y0]])
    xy = xy[((xy > [X0, Y0]) & (xy < [X0 + 1000, Y0 + 800])).all(axis=1)]
    xy = xy[sorted({tuple(k): i for i, k in enumerate(np.round(xy).tolist())}.values())]         # a metre apart, about
    cells = Delaunay(xy - [X0, Y0]).simplices
    mesh = Mesh.from_cells(xy, cells)
    return Model(Mesh.from_cells(xy, cells[mesh.order][mesh.areas() > 0.05]))


def bands(seed):
    """Soils in columns, cut into bands at heights of their own: T-junctions."""
    rng = np.random.default_rng(seed)
    xs = np.sort([-260.0, *(rng.random(6) * 1000), 1200.0])
    columns = [(a, b, np.sort([-60.0, *(rng.random(5) * 800), 1100.0])) for a, b in zip(xs, xs[1:])]
    return [moved(box(a, low, b, high)) for a, b, ys in columns for low, high in zip(ys, ys[1:])]


def lenses(seed):
    """Soils that touch nothing."""
    rng, found = np.random.default_rng(seed), []
    while len(found) < 30:
        lens = Point(*(rng.random(2) * [800, 600] + [0, 60])).buffer(4 + 20 * rng.random(), 4)
        if all(lens.distance(f) > 1 for f in found):
            found.append(lens)
    return [moved(f) for f in found]


def holes(seed):
    """A soil with ponds in it."""
    ponds = lenses(seed)[:8]
    around = box(X0 - 300, Y0 - 100, X0 + 1200, Y0 + 1100)
    for pond in ponds:
        around = around.difference(pond)
    return [around, *ponds]


def traced_twice(seed, jitter):
    """Neighbours drawn apart, each with corners of its own, a little beside each other's."""
    rng = np.random.default_rng(1000 + seed)
    rings = [np.asarray(p.exterior.coords)[:-1] for p in voronoi(seed, 12)]
    return [Polygon(r + jitter * (rng.random(r.shape) - 0.5)) for r in rings]


def areas_by_shapely(made, shapes, least=1e-9):
    """The area of each cell in each polygon, where polygons do not overlap."""
    cells = [Polygon(made.mesh.xy[c]) for c in made.mesh.cells()]
    found = {}
    for i, shape in enumerate(shapes):
        x0, y0, x1, y1 = shape.bounds
        for family, cell in zip(made.mesh.families, cells):
            a0, b0, a1, b1 = cell.bounds
            if a0 < x1 and a1 > x0 and b0 < y1 and b1 > y0:
                area = cell.intersection(shape).area
                if area > least:
                    found[int(family), f'soil {i}'] = area
    return found


def areas_by_strips(strips):
    table = strips.table()
    return {(int(c), s): a for c, s, a in zip(table['cell'], table['soil'], table['area'])}


def worst(mine, theirs):
    return max(abs(mine.get(k, 0.0) - theirs.get(k, 0.0)) for k in mine.keys() | theirs.keys())
