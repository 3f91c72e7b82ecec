"""How far new points may be off (docs/TOLERANCE.md): the bound as a float, and the library's own points held to it in exact fractions."""
import csv
import io
import math
import random
from fractions import Fraction

import numpy as np
import pytest

from daqwimay import Kind, Mesh, Refused, overlay, overlay_in_chunks, tolerance, tolerance_said, write_stakes

GRIDS = (None, *range(11))


def exact(m, k=None):
    """M x 2^-50 + 2^-1074, and half a step."""
    return Fraction(m) / 2 ** 50 + Fraction(1, 2 ** 1074) + (0 if k is None else Fraction(1, 2 ** (k + 1)))


# ---- the bound as a float

@pytest.mark.parametrize('k', GRIDS)
def test_the_least_float_that_is_not_below_the_bound(k):
    rng = random.Random(0 if k is None else k + 1)
    sizes = [0.0, 5e-324, 2.0 ** -1030, 2.0 ** -1022, 1.0, 5.8e6, 2.0 ** 39 + 2.0 ** -13, math.nextafter(2.0 ** 40, 0), 2.0 ** 40]
    sizes += [rng.random() * 2.0 ** rng.randint(-1074, 40) for _ in range(2000)]
    for m in sizes:
        found = tolerance(m, k)
        assert Fraction(found) >= exact(m, k) > Fraction(math.nextafter(found, 0)), (m, k)
        assert tolerance(-m, k) == found


def test_figures():
    assert tolerance(0) == 5e-324 and tolerance(0, 0) == math.nextafter(0.5, 1)
    assert tolerance(2 ** 40) == math.nextafter(2.0 ** -10, 1) and tolerance(1) == math.nextafter(2.0 ** -50, 1)
    assert [tolerance_said(tolerance(5.8e6, k)) for k in (None, 10, 3, 0)] == ['5.16e-9 m', '0.489 mm', '62.6 mm', '0.501 m']
    assert [tolerance_said(x) for x in (0.1, math.nextafter(0.1, 0), 1e-5, 1e-6, 0.25)] == ['0.101 m', '100 mm', '0.0101 mm', '1.00e-6 m', '0.25 m']


def test_of_a_mesh_it_goes_by_the_corners_of_its_cells():
    """A node that no cell names counts for nothing; the cutter's coordinates don't, nor does a sign."""
    mesh = Mesh([[0, 0], [2, 0], [-3, 2], [9, 9]], [0, 1, 2], [3], [Kind.TRI3], [7])
    far = Mesh.from_cells([[1, -1000], [1, 1000]], [[0, 1]])
    for k in GRIDS:
        assert tolerance(mesh, k) == tolerance(3, k) == tolerance(np.float32(-3), k) == overlay(mesh, far, 'lines', survey_grid=k).tolerance
        assert overlay_in_chunks(mesh, far, 'lines', survey_grid=k).tolerance == tolerance(3, k)


def test_without_a_cell():
    none = Mesh(np.zeros((0, 2)), [], [], [], [])
    assert tolerance(none) == overlay(none, none).tolerance == overlay_in_chunks(none, none).tolerance == 5e-324
    assert tolerance(none, 0) == overlay(none, none, survey_grid=0).tolerance == math.nextafter(0.5, 1)
    assert len(overlay(none, none).stakes()) == 0


@pytest.mark.parametrize('size', [math.nextafter(2.0 ** 40, math.inf), -1e300, math.inf, math.nan])
def test_what_refusal_3_forbids_has_none(size):
    with pytest.raises(Refused, match='refused 3 '):
        tolerance(size)
    with pytest.raises(Refused, match='refused 3 '):
        tolerance(Mesh([[0, 0], [size, 0], [0, 1]], [0, 1, 2], [3], [Kind.TRI3], [7]), 3)


def test_a_number_that_is_no_float_is_too_large():
    with pytest.raises(Refused, match='refused 3 '):
        tolerance(10 ** 400)


def test_a_grid_that_there_is_not_and_a_list_that_is_none():
    for k in (-1, 11):
        with pytest.raises(Refused, match=f'refused 13 .*\n  K is {k}\n'):
            tolerance(1, k)
    with pytest.raises(TypeError):
        tolerance(1, 0.5)
    with pytest.raises(Refused, match='refused 5 '):
        tolerance(Mesh([[0, 0], [1, 0]], [0, 1, 2], [3], [Kind.TRI3], [7]))


# ---- the library's points

def met(p1, p2, p3, p4):
    """t and the new point of two segments as document 01 computes them, or nothing."""
    def between(p, q):
        return q[0] - p[0], q[1] - p[1]

    def cross(v, w):
        return v[0] * w[1] - v[1] * w[0]

    def dot(v):
        return v[0] * v[0] + v[1] * v[1]
    v1, v2, v3 = between(p1, p2), between(p3, p4), between(p1, p3)
    scale = max(map(abs, (*v1, *v2)))
    eps = 64.0 * (scale * scale) * 2.0 ** -52
    if dot(v1) < eps or dot(v2) < eps or abs(cross(v1, v2)) < eps:
        return None
    t, u = cross(v3, v2) / cross(v1, v2), cross(v3, v1) / cross(v1, v2)
    if not (0 <= t <= 1 and 0 <= u <= 1):
        return None
    x, y = p1[0] + t * v1[0], p1[1] + t * v1[1]
    return None if any(dot(between((x, y), p)) < eps for p in (p1, p2, p3, p4)) else (t, (x, y))


def booked(x, k):
    return x if k is None else float(Fraction(round(Fraction(x) * 2 ** k), 2 ** k))


def off(p, q, t, x):
    return abs(Fraction(x) - (Fraction(p) + Fraction(t) * (Fraction(q) - Fraction(p))))


def made(rng, kind):
    """A quadrilateral and some lines over it."""
    side, at = {'national grid': (200.0, 5.8e6), 'local': (200.0, 0.0), 'huge': (2.0 ** 39, 2.0 ** 39), 'tiny': (2.0 ** -20, 0.0)}[kind]
    places = [(side * (i + 0.6 * rng.random()), side * (j + 0.6 * rng.random())) for i, j in ((0, 0), (1, 0), (1, 1), (0, 1))]
    if kind == 'huge':
        places = [(min(x, 2 * side) - side, min(y, 2 * side) - side) for x, y in places]
    cell = [(x + at * 0.4, y + at) for x, y in places] if kind == 'national grid' else places
    middle = [sum(c) / 4 for c in zip(*cell)]

    def near():
        return tuple(min(max(m + 1.4 * side * (rng.random() - 0.5), -2.0 ** 40), 2.0 ** 40) for m in middle)
    return cell, [(near(), near()) for _ in range(6)]


@pytest.mark.parametrize('kind, k', [(kind, k) for kind in ('national grid', 'local', 'huge') for k in (None, 0, 3, 10)] + [('tiny', None)])
def test_the_librarys_new_points_are_within(kind, k):
    """Each in exact fractions, from its own subject edge at the t of the floats.

    The bound isn't idle: the worst is off by a sixteenth of it, on a grid by a fourth.
    """
    rng, seen, worst = random.Random(f'{kind} {k}'), 0, Fraction(0)
    for _ in range(150):
        cell, lines = made(rng, kind)
        pieces = overlay(Mesh.from_cells(cell, [range(4)]), Mesh.from_cells([p for line in lines for p in line], np.arange(12).reshape(-1, 2)),
                         'lines', limit=24, survey_grid=k)
        found = [((p, q), m) for p, q in zip(cell, cell[1:] + cell[:1]) for line in lines if (m := met(p, q, *line))]
        points = pieces.xy[len(pieces.xy) - pieces.added_points:].tolist()
        assert sorted(points) == sorted([booked(x, k), booked(y, k)] for _, (_, (x, y)) in found)
        for (p, q), (t, point) in found:
            for i in (0, 1):
                far, edge = off(p[i], q[i], t, booked(point[i], k)), tolerance(max(map(abs, (*p, *q))), k)
                assert far <= Fraction(edge) <= Fraction(pieces.tolerance)
                worst = max(worst, far / Fraction(edge))
            seen += 1
    assert seen > 400 and worst > Fraction(1, 16 if k is None else 4)


def test_stakes_are_the_new_points_with_their_tolerance():
    square, soils = Mesh.from_cells([[0, 0], [2, 0], [2, 2], [0, 2]], [range(4)]), [[-1, -1], [1, -1], [1.3, -1], [1.3, 3], [1, 3], [-1, 3]]
    pieces = overlay(square, Mesh.from_cells(soils, [[0, 1, 4, 5], [1, 2, 3, 4]]), 'difference', survey_grid=10)
    assert (pieces.new_points, pieces.added_points) == (2, 4) and pieces.stakes().tolist() == [11, 13]
    file = io.StringIO()
    assert write_stakes(file, pieces) == 2
    rows = list(csv.DictReader(io.StringIO(file.getvalue())))
    assert [(float(r['x']), float(r['y']), float(r['tolerance'])) for r in rows] == [(1331 / 1024, y, tolerance(2, 10)) for y in (0, 2)]
    part, _ = pieces.take(np.array([0]))
    assert part.tolerance == pieces.tolerance and part.xy[part.stakes()].tolist() == pieces.xy[pieces.stakes()].tolist()


def test_of_a_cell_cut_in_triangles_it_goes_by_their_sides():
    """The middle of a side at 10.6 is booked at 11: the triangles' M is larger than the cell's."""
    model = Mesh.from_cells([[0, 0], [10.6, 0], [10.6, 10.6], [0, 10.6]], [range(4)])
    turns = np.linspace(0, 2 * np.pi, 2000, endpoint=False)
    disc = np.vstack([np.column_stack([5.2 + 4 * np.cos(turns), 5.1 + 4 * np.sin(turns)]), [[5.25, 5.2]]])
    wedges = Mesh.from_cells(disc, [[2000, *((125 * i + np.arange(126)) % 2000)] for i in range(16)], kinds=Kind.PGON)
    for k, largest in ((None, 10.6), (0, 11.0)):
        pieces = overlay_in_chunks(model, wedges, parts=True, survey_grid=k)
        assert pieces.parted.tolist() == [0] and pieces.tolerance == tolerance(largest, k)
    assert tolerance(11.0, 0) > tolerance(10.6, 0)
