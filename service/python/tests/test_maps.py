"""Strips of made-up maps against shapely; maps that are not clean, as they are and cleaned."""
import numpy as np
import pytest
from shapely.geometry import Point, Polygon, box
from shapely.ops import unary_union

import maps
from daqwimay import InputError, Kind, Mesh, Model, NotClean, Refused, cut, mesh_of_rings, overlay
from daqwimay.checks import checked
from daqwimay.cleaning import clean, step_of
from daqwimay.soils import faces_mesh
from daqwimay.strips import window_of

GRID = 0.001


@pytest.mark.parametrize('seed', range(100))
def test_random_maps_agree_with_shapely(seed):
    """Soils that neighbours agree on, 6 to 60 of them, over 4 to 300 cells, turned by any angle; areas of every cell in every soil."""
    rng = np.random.default_rng(seed)
    columns = rng.integers(2, 21)
    rows = rng.integers(2, min(columns, 15) + 1)
    made = maps.model(columns, rows, 1000 / columns, rng.uniform(0, 15))
    shapes = maps.voronoi(seed, rng.integers(6, 61))
    strips = cut(made, maps.soil_map(shapes))
    assert maps.worst(maps.areas_by_strips(strips), maps.areas_by_shapely(made, shapes)) < 1e-6
    assert np.allclose(strips.by_soil(), strips.by_geos, atol=1e-6)
    assert np.allclose(np.bincount(strips.table()['cell'], strips.table()['share']), 1, atol=1e-12)
    assert np.allclose(np.bincount(strips.cells(), strips.areas()), made.mesh.areas())
    assert strips.pieces.doubled_cells == 0


@pytest.mark.parametrize('seed', range(10))
@pytest.mark.parametrize('k, grid', [(10, None), (3, 0.25)])
def test_strips_on_a_survey_grid(seed, k, grid):
    """All new points are on it, and each area is off by what that moves at most; a finer grid's checks find that too much."""
    made, shapes = maps.model(12, 10, 60.0, 9.0), maps.voronoi(seed, 30)
    strips = cut(made, maps.soil_map(shapes), grid=grid, survey_grid=k)
    pieces, far = strips.pieces, 2.0 ** -(k + 0.5)
    added = pieces.xy[-pieces.added_points:] * 2 ** k
    assert pieces.new_points > 50 and np.array_equal(added, np.round(added)) and (pieces.xy[:len(made.mesh.xy)] == made.mesh.xy).all()
    off = maps.worst(maps.areas_by_strips(strips), maps.areas_by_shapely(made, shapes))
    assert far / 10 < off < 400 * (far + (grid or 0.0))
    assert abs(strips.areas().sum() - made.mesh.areas().sum()) < 240 * far
    soils = faces_mesh(shapes, range(len(shapes))) if grid is None else clean(maps.soil_map(shapes), grid, window_of(made), made.mesh.xy).mesh
    told = [checked(made, pieces, soils, strips.names, lambda *_: None, other)[2] for other in (k, k + 5, None)]
    assert not told[0] and told[1] and len(told[2]) >= len(told[1])


def test_strips_thinner_than_a_step_are_told():
    made, soils = maps.model(20, 15, 50.0, 3.0), maps.soil_map(maps.voronoi(0, 60))
    with pytest.raises(NotClean, match='no simple polygon') as e:
        cut(made, soils, survey_grid=0)
    assert 'a larger K' in str(e.value) and all(0 <= p.cell < 300 for p in e.value.problems)
    assert cut(made, soils, survey_grid=5).pieces.new_points > 100
    with pytest.raises(NotClean):               # the model's nodes stay where they are, since it isn't for them
        cut(made, soils, survey_grid=0, grid=1.0)
    with pytest.raises(Refused, match='refused 13'):
        cut(made, soils, survey_grid=11)


UNCLEAN = {
    'bands with T-junctions': maps.bands,
    'lenses': maps.lenses,
    'holes': maps.holes,
    'traced twice, 1e-9 apart': lambda seed: maps.traced_twice(seed, 1e-9),
    'traced twice, 1e-6 apart': lambda seed: maps.traced_twice(seed, 1e-6),
    'traced twice, 1 mm apart': lambda seed: maps.traced_twice(seed, 1e-3),
}


@pytest.mark.parametrize('seed', range(5))
@pytest.mark.parametrize('name', UNCLEAN)
def test_a_map_that_is_not_clean_is_told_by_places(name, seed):
    made = maps.model()
    with pytest.raises((NotClean, Refused)) as e:
        cut(made, maps.soil_map(UNCLEAN[name](seed)))
    if isinstance(e.value, NotClean):
        low, high = made.mesh.xy.min(axis=0), made.mesh.xy.max(axis=0)
        assert e.value.problems and '--grid' in str(e.value)
        assert name == 'holes' or all((low - 1 <= (p.x, p.y)).all() and ((p.x, p.y) <= high + 1).all() and p.cell >= 0 for p in e.value.problems)


@pytest.mark.parametrize('seed', range(10))
@pytest.mark.parametrize('name', UNCLEAN)
def test_a_cleaned_map_is_right(name, seed):
    """Against the map as drawn: each area is off by the grid at most."""
    made, shapes = maps.model(), UNCLEAN[name](seed)
    strips = cut(made, maps.soil_map(shapes), grid=GRID)
    mine = {k: a for k, a in maps.areas_by_strips(strips).items() if k[1] != '(no soil)'}
    assert maps.worst(mine, maps.areas_by_shapely(made, shapes)) < 0.5
    assert abs(strips.areas().sum() - made.mesh.areas().sum()) < 1e-6


@pytest.mark.parametrize('turn', [0, 7, 30])
@pytest.mark.parametrize('jitter', [0, 1e-12, 1e-11, 1e-9, 1e-6, 1e-4])
def test_soils_along_the_models_own_cells(turn, jitter):
    """Soils made of quarters of cells: every corner lies on a node or a side, or a hair beside it."""
    made = maps.model(8, 8, 50.0, turn)
    xy, corners = maps.grid(20, 20, 25.0, turn, maps.X0, maps.Y0)
    rng = np.random.default_rng(int(turn))
    soil = rng.integers(0, 4, len(corners))
    xy = xy + jitter * (rng.random(xy.shape) - 0.5)
    shapes = [unary_union([Polygon(xy[c]) for c in corners[soil == s]]) for s in range(4)]
    parts = [p for s in shapes for p in getattr(s, 'geoms', [s])]
    strips = cut(made, maps.soil_map(parts), grid=GRID)
    assert maps.worst(maps.areas_by_strips(strips), maps.areas_by_shapely(made, parts, 0.2)) < 0.5


@pytest.mark.parametrize('seed', range(8))
def test_a_model_built_along_the_soils(seed):
    """Its nodes lie on the soils' sides but for rounding."""
    shapes = maps.voronoi(seed, 25)
    strips = cut(maps.along(seed, shapes), maps.soil_map(shapes), grid=GRID)
    mine = {k: a for k, a in maps.areas_by_strips(strips).items() if k[1] != '(no soil)'}
    assert maps.worst(mine, maps.areas_by_shapely(strips.model, shapes)) < 0.1
    moved = np.hypot(*(strips.model.mesh.xy - maps.along(seed, shapes).mesh.xy).T).max()
    assert moved <= GRID and (moved > 0) == any('nodes are put on the grid' in c for c in strips.changes)


def test_the_grid_is_a_power_of_two():
    assert [step_of(g) for g in (0.001, 1 / 1024, 0.3, 1.0, 3.0)] == [2.0 ** -10, 2.0 ** -10, 0.25, 1.0, 2.0]
    done = clean(maps.soil_map(maps.bands(1)), GRID, window_of(maps.model()))
    assert np.array_equal(done.mesh.xy * 1024, np.round(done.mesh.xy * 1024))


SQUARE = [[0, 0], [2, 0], [2, 2], [0, 2]]
E = 2.0 ** -10
# What the library accepts and a user would not, in maps of one cell.
SILENT = {
    'clockwise cell': (Mesh(SQUARE, [3, 2, 1, 0], [4], [8], [0]), [[[1, -1], [3, -1], [3, 3], [1, 3]]]),
    'T-junction': (Mesh(SQUARE, [0, 1, 2, 3], [4], [8], [0]),
                   [[[-1, -1], [1, -1], [1, 3], [-1, 3]], [[1, -1], [3, -1], [3, 1.5], [1, 1.5]], [[1, 1.5], [3, 1.5], [3, 3], [1, 3]]]),
    'traced twice': (Mesh(SQUARE, [0, 1, 2, 3], [4], [8], [0]),
                     [[[-1, -1], [1 - E, -1], [1 + E, 3], [-1, 3]], [[1 + E, -1], [3, -1], [3, 3], [1 - E, 3]]]),
    'lens': (Mesh(SQUARE, [0, 1, 2, 3], [4], [8], [0]), [[[0.5, 0.5], [1.5, 0.5], [1.5, 1.5], [0.5, 1.5]]]),
}


@pytest.mark.parametrize('name', SILENT)
def test_the_checks_name_what_the_library_accepts(name):
    cell, outlines = SILENT[name]
    soils = mesh_of_rings([np.array(o, float) for o in outlines], range(len(outlines)), Kind.PGON)
    pieces = overlay(cell, soils)
    assert pieces.doubled_cells == 0
    _, _, problems = checked(Model(cell, first=1), pieces, soils, [*'abcd'][:len(outlines)] + ['none'], lambda *_: None)
    assert problems and all(p.cell == 1 and -1 <= p.x <= 3 and -1 <= p.y <= 3 for p in problems)


def lens_in_a_square():
    cell, outlines = SILENT['lens']
    return Model(cell), mesh_of_rings([np.array(o, float) for o in outlines], [0], Kind.PGON)


def test_a_piece_in_two_soils_is_told_at_its_place():
    made, soils = lens_in_a_square()
    _, _, problems = checked(made, overlay(made.mesh, soils), soils, ['lens', 'none'], lambda *_: None)
    assert len(problems) == 1 and 'a piece in two soils' in problems[0].what


def test_a_soil_that_no_piece_has_is_told():
    """Pieces that are right one by one, but the lens has none."""
    made, soils = lens_in_a_square()
    ring = overlay(made.mesh, Mesh.from_cells([[0, 0.5], [2, 0.5], [0, 1.5], [2, 1.5]], [[0, 1], [2, 3]]), 'lines')
    outer, _ = ring.take(np.flatnonzero(ring.areas() < 1.5))
    soil, by_geos, problems = checked(made, outer, soils, ['lens', 'none'], lambda *_: None)
    assert soil.tolist() == [1, 1] and by_geos.tolist() == [1, 3]
    assert [p.what for p in problems] == ['"none" has an area of 2 by the pieces, 3 by GEOS']


def test_soil_lines_run_through_nodes_that_they_pass():
    """A boundary 0.4 mm beside a node of the model, and one 2 mm beside another."""
    made = maps.model(2, 2, 50.0, 7.0)
    (x, y), (x2, y2) = made.mesh.xy[4], made.mesh.xy[5]
    upper = Polygon([(x - 200, y + 0.0004), (x + 20, y + 0.0004), (x2 + 200, y2 + 0.002), (x, y + 200)])
    done = clean(maps.soil_map([upper]), GRID, window_of(made), made.mesh.xy)
    corners = {tuple(p) for p in done.mesh.xy.tolist()}
    assert (x, y) in corners and (x2, y2) not in corners


def test_cleaning_says_what_it_changed():
    made = maps.model(4, 4, 50.0, 0.0)
    disc = maps.moved(Point(100, 100).buffer(60, 80).difference(Point(100, 100).buffer(20)))
    over = maps.moved(box(90, 150, 130, 190))
    bow = Polygon([(maps.X0 + x, maps.Y0 + y) for x, y in ((10, 10), (30, 30), (30, 10), (10, 30))])
    strips = cut(made, maps.soil_map([disc, over, bow]), grid=GRID)
    said = '\n'.join(strips.changes)
    assert all(words in said for words in ('lie in two soils', 'soil 0 before soil 1', 'lie in no soil', 'cross themselves were repaired', 'seams', 'put on the grid'))
    ours = dict(zip(strips.names, strips.by_soil()))
    assert abs(ours['soil 0'] - disc.area) < 0.1 and abs(ours['soil 1'] - over.difference(disc).area) < 0.1
    assert abs(ours['soil 2'] - 200) < 0.1 and abs(sum(ours.values()) - 40_000) < 1e-6


def test_cleaned_faces_tile_the_window():
    made, shapes = maps.model(), maps.holes(3)
    done = clean(maps.soil_map(shapes), GRID, window_of(made), made.mesh.xy)
    faces = [Polygon(done.mesh.xy[c]) for c in done.mesh.cells()]
    assert all(f.is_valid and f.area > 0 for f in faces) and done.mesh.counts().max() <= 256
    assert abs(sum(f.area for f in faces) - box(*window_of(made)).area) < 1
    assert abs(unary_union(faces).area - sum(f.area for f in faces)) < 1e-3


def test_long_outlines_are_cut():
    """A soil of 2,000 corners."""
    made = maps.model(10, 10, 50.0, 3.0)
    lake = maps.moved(Point(250, 250).buffer(180, 500))
    assert len(lake.exterior.coords) == 2001
    strips = cut(made, maps.soil_map([lake]), grid=GRID)
    assert abs(strips.by_soil()[0] - lake.area) < 1


@pytest.mark.parametrize('grid', [0, -1, float('nan'), float('inf')])
def test_a_grid_has_a_step(grid):
    with pytest.raises(InputError, match='above 0'):
        cut(maps.model(), maps.soil_map(maps.voronoi(1)), grid=grid)


def test_a_grid_that_makes_nodes_one():
    with pytest.raises(InputError, match='smaller step'):
        cut(maps.model(), maps.soil_map(maps.voronoi(1)), grid=200.0)


def test_cells_with_very_many_soil_sides():
    """An outline far finer than the model: over 1,024 entries in a cell's table."""
    made = maps.model(2, 2, 100.0, 5.0)
    lake = maps.moved(Point(95, 105).buffer(80, 1000))
    with pytest.raises(Refused, match='refused 10'):
        overlay(made.mesh, clean(maps.soil_map([lake]), GRID, window_of(made), made.mesh.xy).mesh)
    strips = cut(made, maps.soil_map([lake]), grid=GRID)
    mine = {k: a for k, a in maps.areas_by_strips(strips).items() if k[1] != '(no soil)'}
    assert maps.worst(mine, maps.areas_by_shapely(made, [lake])) < 0.1
    assert any('cut in triangles first: 0, 1, 2, 3' in c for c in strips.changes)


def test_a_refused_cell_is_named_as_in_the_file():
    """The same in a cell whose middle lies outside it."""
    bend = np.array([[0, 0], [100, 0], [100, 100], [70, 100], [70, 30], [30, 30], [30, 100], [0, 100.0]]) + [maps.X0, maps.Y0]
    made = Model(Mesh.from_cells(bend, [range(8)]), first=1)
    lake = maps.moved(Point(50, 50).buffer(45, 1000))
    with pytest.raises(Refused, match=r'cell 1, around \(155050, 463050\)') as e:
        cut(made, maps.soil_map([lake]), grid=GRID)
    assert e.value.number == 10


def test_no_soil_where_the_model_lies():
    with pytest.raises(InputError, match='no soil where the model lies'):
        cut(maps.model(2, 2), maps.soil_map([box(0, 0, 1, 1)]), grid=GRID)


def test_a_model_that_crosses_itself_is_told():
    made = Model(Mesh.from_cells(np.array([[0, 0], [100, 100], [100, 0], [0, 90.0]]) + [maps.X0, maps.Y0], [[0, 1, 2, 3]]))
    with pytest.raises(NotClean, match='cell 0, at'):
        cut(made, maps.soil_map([maps.moved(box(-100, -100, 300, 300))]), grid=GRID)


def test_rates_of_cells():
    made = maps.model(2, 1, 100.0, 0.0)
    left = maps.moved(box(-100, -100, 50, 300))
    right = maps.moved(box(50, -100, 400, 300))
    strips = cut(made, maps.soil_map([left, right]))
    assert np.allclose(strips.per_cell({'soil 0': 100, 'soil 1': 300}), [200, 300])
    with pytest.raises(InputError, match='no rate for soil 1'):
        strips.per_cell({'soil 0': 100})


def test_what_no_soil_covers_stays_in_the_table():
    made = maps.model(1, 1, 100.0, 0.0)
    strips = cut(made, maps.soil_map([maps.moved(box(-100, -100, 50, 300))]), background='bare')
    assert maps.areas_by_strips(strips) == {(0, 'bare'): 5000.0, (0, 'soil 0'): 5000.0}
    with pytest.raises(InputError, match='choose another name'):
        cut(made, maps.soil_map([maps.moved(box(-100, -100, 50, 300))]), background='soil 0')
