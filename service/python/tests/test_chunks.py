"""Models in chunks: the same pieces as one call, bit for bit."""
import numpy as np
import pytest
from shapely.geometry import Polygon

import maps
from daqwimay import Mesh, Model, Refused, cut, overlay, overlay_in_chunks
from daqwimay.geos import why_invalid
from daqwimay.soils import faces_mesh


def places(pieces):
    """The corners of all pieces as bits, with their layers, cell by cell, and what is told of each piece."""
    told = (pieces.layers[pieces.nodes], pieces.ends, pieces.kinds, pieces.families, pieces.parent_meshes, pieces.parent_cells)
    return pieces.xy[pieces.nodes].tobytes(), *(a.tobytes() for a in told)


@pytest.fixture(scope='module')
def meshes():
    """Near the origin, where a point that is worked out from the other end of a side mostly has other bits."""
    shapes = [maps.moved(s, -maps.X0, -maps.Y0) for s in maps.voronoi(5, 150)]
    return Mesh.from_cells(*maps.grid(60, 50, 16.0, 3.0, 0.0, 0.0)), faces_mesh(shapes, range(len(shapes)))


@pytest.mark.parametrize('chunk', [7, 100, 1000, 5000])
@pytest.mark.parametrize('operation', ['imprint', 'intersection', 'difference'])
def test_the_same_pieces_as_one_call(meshes, operation, chunk):
    model, soils = meshes
    soils, _ = soils.take(np.flatnonzero(soils.families % 3 > 0))
    one, many = overlay(model, soils, operation), overlay_in_chunks(model, soils, operation, chunk=chunk)
    assert places(one) == places(many) and len(one) > 1000
    assert len(np.unique(one.nodes)) == len(np.unique(many.nodes))
    assert one.new_points == many.new_points == many.added_points == len(many.xy) - len(model.xy) - len(soils.xy)
    assert (one.new_points < one.added_points) == (operation == 'difference')


@pytest.mark.parametrize('chunk', [7, 333])
def test_layers_in_chunks(meshes, chunk):
    """A layer for each column of nodes, so that the two ends of a side differ; the soils' corners are of another one."""
    model, soils = meshes
    model = Mesh(model.xy, model.nodes, model.ends, model.kinds, model.families, 1 + np.arange(len(model.xy)) % 61)
    soils = Mesh(soils.xy, soils.nodes, soils.ends, soils.kinds, soils.families, 2 ** 32 - 1)
    one, many = overlay(model, soils), overlay_in_chunks(model, soils, chunk=chunk)
    assert places(one) == places(many) and len(np.unique(one.layers)) == 62
    assert many.layers.tolist()[:len(model.xy) + len(soils.xy)] == [*model.layers.tolist(), *soils.layers.tolist()]
    assert len(many.layers) == len(many.xy)


@pytest.mark.parametrize('layers, points', [([1] * 4 + [2] * 4, 4), ([0] * 8, 3)])
def test_points_above_one_another_stay_apart(layers, points):
    """Cells with nodes of their own along x = 2, cut by a line across it: a new point for each in its layer, in one layer one."""
    model = Mesh.from_cells([[0, 0], [2, 0], [2, 2], [0, 2], [2, 0], [4, 0], [4, 2], [2, 2]], [[0, 1, 2, 3], [4, 5, 6, 7]], layers=layers)
    line = Mesh.from_cells([[-1, 1], [5, 1]], [[0, 1]])
    pieces = overlay_in_chunks(model, line, 'lines', chunk=1)
    assert (len(pieces), pieces.new_points) == (4, points) and pieces.areas().tolist() == [2] * 4
    assert [{*pieces.layers[c].tolist()} for c in pieces.cells()] == [{layers[0]}] * 2 + [{layers[-1]}] * 2


@pytest.mark.parametrize('chunk', [7, 333])
@pytest.mark.parametrize('k, wrong', [(10, False), (5, False), (1, True), (0, True)])
def test_the_same_pieces_on_a_survey_grid(meshes, k, wrong, chunk):
    """All of them where the grid is fine; otherwise all that are simple polygons."""
    model, soils = meshes
    one, many = overlay(model, soils, survey_grid=k), overlay_in_chunks(model, soils, chunk=chunk, survey_grid=k)
    rings = [(one.xy[a], many.xy[b]) for a, b in zip(one.cells(), many.cells())]
    assert len(one) == len(many) and all(a.tobytes() == b.tobytes() for a, b in rings if not (why_invalid(a) and why_invalid(b)))
    assert any(why_invalid(a) for a, _ in rings) == wrong
    added = many.xy[-many.added_points:] * 2 ** k
    assert np.array_equal(added, np.round(added)) and many.new_points <= one.new_points == one.added_points


@pytest.mark.parametrize('operation, new', [('imprint', 4), ('intersection', 4), ('difference', 2)])
def test_points_that_no_piece_names_are_left_out(operation, new):
    """Two soils side by side over two squares: outside of both soils no piece has a point of their common side."""
    squares = Mesh.from_cells([[0, 0], [2, 0], [2, 2], [0, 2], [4, 0], [4, 2]], [[0, 1, 2, 3], [1, 4, 5, 2]])
    soils = Mesh.from_cells([[-1, -1], [1, -1], [1.5, -1], [1.5, 3], [1, 3], [-1, 3]], [[0, 1, 4, 5], [1, 2, 3, 4]])
    one, many = overlay(squares, soils, operation), overlay_in_chunks(squares, soils, operation, chunk=1)
    assert places(one) == places(many) and (one.new_points, one.added_points) == (new, 4)
    assert (many.new_points, many.added_points, len(many.xy)) == (new, new, 12 + new)


def test_seams_between_chunks_share_their_nodes(meshes):
    """Every inner edge of the pieces is walked once each way: no chunk has points of its own on its rim."""
    model, soils = meshes
    pieces = overlay_in_chunks(model, soils, chunk=50)
    ways = {}
    for corners in pieces.cells():
        for a, b in zip(corners.tolist(), np.roll(corners, -1).tolist()):
            ways[a, b] = ways.get((a, b), 0) + 1
    lone = [e for e in ways if e[::-1] not in ways]
    around = Polygon(pieces.xy[[0, 60, 61 * 51 - 1, 61 * 50]])
    assert set(ways.values()) == {1}
    assert sum(np.hypot(*(pieces.xy[a] - pieces.xy[b])) for a, b in lone) == pytest.approx(around.length)


def test_parents_are_cells_of_the_whole_mesh(meshes):
    """Families that repeat, so that they don't tell the cells apart; each piece lies in its parent, and all of a parent's fill it."""
    model, soils = meshes
    model = Mesh(model.xy, model.nodes, model.ends, model.kinds, np.arange(len(model)) % 3)
    pieces = overlay_in_chunks(model, soils, chunk=170)
    assert not pieces.parent_meshes.any() and np.array_equal(pieces.families, model.families[pieces.parent_cells])
    assert np.allclose(np.bincount(pieces.parent_cells, pieces.areas(), len(model)), model.areas())
    low, high = np.split(model.boxes()[pieces.parent_cells], 2, axis=1)
    boxes = pieces.boxes()
    assert (boxes[:, :2] >= low).all() and (boxes[:, 2:] <= high).all()


def test_lines_in_chunks(meshes):
    model, _ = meshes
    lines = Mesh.from_cells([[-50, 100], [1100, 130], [300, -50], [340, 900]], [[0, 1], [2, 3]])
    assert places(overlay(model, lines, 'lines')) == places(overlay_in_chunks(model, lines, 'lines', chunk=300))


def test_above_16384_cells_with_progress():
    """20,000 cells; areas of soils against shapely."""
    made = Model(Mesh.from_cells(*maps.grid(200, 100, 5.0, 3.0)))
    assert len(made.mesh) > 16_384
    with pytest.raises(Refused, match='refused 2'):
        overlay(made.mesh, made.mesh)
    shapes, told = maps.voronoi(2, 40), []
    strips = cut(made, maps.soil_map(shapes), progress=lambda *words: told.append(words))
    whole = Polygon(made.mesh.xy[[0, 200, 201 * 101 - 1, 201 * 100]])
    theirs = np.array([s.intersection(whole).area for s in shapes] + [0.0])
    assert np.abs(strips.by_soil() - theirs).max() < 1e-6
    done = [n for what, n, of in told if what == 'cells cut']
    assert done == sorted(done) and len(done) > 4 and done[-1] == 20_000


def test_a_map_beyond_the_limits_is_cut_too():
    """18,000 soils, 18,291 nodes: only those near a chunk are lent."""
    xy, corners = maps.grid(150, 120, 3.0, 0.0)
    soils = Mesh.from_cells(xy, corners, kinds=11)
    model = Mesh.from_cells(*maps.grid(20, 20, 10.0, 10.0, maps.X0 + 60, maps.Y0 + 60))
    pieces = overlay_in_chunks(model, soils)
    assert abs(pieces.areas().sum() - 40_000) < 1e-6 and pieces.areas().min() > 0 and len(pieces) > 6000


def test_a_long_side_over_many_cells():
    """Over 256 nodes on one side of a soil: refused in one call, cut in chunks."""
    model = Mesh.from_cells(*maps.grid(300, 1, 10.0, 0.0))
    soil = Mesh.from_cells(np.array([[-5, -5], [3005, -5], [3005, 4], [-5, 6.0]]) + [maps.X0, maps.Y0], [[0, 1, 2, 3]], kinds=11)
    with pytest.raises(Refused, match='refused 9'):
        overlay(model, soil)
    pieces = overlay_in_chunks(model, soil)
    assert len(pieces) == 600 and pieces.areas().sum() == pytest.approx(30_000) and pieces.areas().min() > 0


def test_a_refused_cell_is_named():
    """A cell with over 1,024 slots among others."""
    model = Mesh.from_cells(*maps.grid(4, 1, 10.0, 0.0, 0.0, 0.0))
    ys = np.linspace(0.1, 9.9, 250)
    lines = Mesh.from_cells([[x, y] for y in ys for x in (20.0, 30.0)], np.arange(500).reshape(-1, 2))
    with pytest.raises(Refused, match=r'of family 2, around \(25, 5\)') as e:
        overlay_in_chunks(model, lines, 'lines')
    assert e.value.number == 10


def test_a_crowded_cell_in_parts():
    """A disc of 2,000 corners in 16 wedges inside one cell. The pieces of its triangles fill it; its neighbours are as they were."""
    model = Mesh.from_cells(*maps.grid(4, 1, 10.0, 0.0, 0.0, 0.0))
    a = np.linspace(0, 2 * np.pi, 2000, endpoint=False)
    xy = np.vstack([np.column_stack([25 + 4 * np.cos(a), 5 + 4 * np.sin(a)]), [[25.1, 5.2]]])
    disc = Mesh.from_cells(xy, [[2000, *((125 * i + np.arange(126)) % 2000)] for i in range(16)], kinds=11)
    with pytest.raises(Refused, match='refused 10'):
        overlay_in_chunks(model, disc)
    pieces = overlay_in_chunks(model, disc, parts=True)
    assert pieces.parted.tolist() == [2] and pieces.areas().min() > 0 and pieces.parent_cells.tolist() == pieces.families.tolist()
    assert np.allclose(np.bincount(pieces.families, pieces.areas()), 100) and [(pieces.families == f).sum() for f in (0, 1, 3)] == [1, 1, 1]
    inside = overlay_in_chunks(model, disc, 'intersection', parts=True)
    assert inside.areas().sum() == pytest.approx(Polygon(xy[:2000]).area)
    booked = overlay_in_chunks(model, disc, parts=True, survey_grid=10)
    layered = Mesh(model.xy, model.nodes, model.ends, model.kinds, model.families, 5)
    of_layers = overlay_in_chunks(layered, Mesh(disc.xy, disc.nodes, disc.ends, disc.kinds, disc.families, 6), parts=True)
    assert places(of_layers)[0] == places(pieces)[0] and {*of_layers.layers[len(model.xy) + len(xy):].tolist()} == {5}
    added = booked.xy[len(model.xy) + len(xy):] * 1024
    assert np.array_equal(added, np.round(added)) and len(booked) == len(pieces) and np.allclose(booked.areas(), pieces.areas(), atol=0.02)


def test_operations_that_cut_both_are_an_error(meshes):
    with pytest.raises(ValueError, match='cut both'):
        overlay_in_chunks(*meshes, 'union')


@pytest.mark.parametrize('changed, number', [({'ends': [3]}, 2), ({'kinds': [8, 8]}, 2), ({'nodes': [0, 1, 2, 9]}, 5), ({'ends': [0, 4]}, 2)])
def test_what_is_no_mesh_is_refused(changed, number):
    lists = dict(xy=[[0, 0], [1, 0], [1, 1], [0, 1]], nodes=[0, 1, 2, 3], ends=[4], kinds=[8], families=[0])
    with pytest.raises(Refused) as e:
        overlay_in_chunks(Mesh(**{**lists, **changed}), Mesh(**lists))
    assert e.value.number == number


def test_a_chunk_has_cells(meshes):
    with pytest.raises(ValueError, match='1 is the least'):
        overlay_in_chunks(*meshes, chunk=0)


def test_nothing_in_chunks():
    nothing = Mesh.from_cells([], [])
    assert len(overlay_in_chunks(nothing, nothing)) == 0
