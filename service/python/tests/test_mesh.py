"""Meshes as they are lent."""
import numpy as np
import pytest

from daqwimay import Kind, Mesh, Refused, mesh_of_rings, overlay

SQUARE = [[0, 0], [2, 0], [2, 2], [0, 2]]


def test_arrays_of_the_right_type_are_lent_as_they_are():
    lists = (np.array(SQUARE, float), np.arange(4, dtype=np.uint32), np.array([4], np.uint32), np.array([8], np.uint8), np.array([7], np.uint32))
    layers = np.array([3, 3, 4, 4], np.uint32)
    mesh = Mesh(*lists, layers)
    assert all(a is b for a, b in zip((lists[0], layers, *lists[1:]), mesh.lists()))


def test_layers_are_given_one_by_one_or_for_all():
    lists = (SQUARE, [0, 1, 2, 3], [4], [8], [7])
    cells = SQUARE, [[0, 1, 2, 3]]
    for mesh, want in ((Mesh(*lists), [0] * 4), (Mesh(*lists, layers=2 ** 32 - 1), [2 ** 32 - 1] * 4), (Mesh(*lists, [1, 2, 3, 4]), [1, 2, 3, 4]),
                       (Mesh.from_cells(*cells), [0] * 4), (Mesh.from_cells(*cells, layers=[1, 2, 3, 4]), [1, 2, 3, 4]), (Mesh([], [], [], [], [], 5), [])):
        assert mesh.layers.dtype == np.uint32 and mesh.layers.tolist() == want
    taken, nodes = Mesh.from_cells([*SQUARE, [3, 1]], [[0, 1, 2, 3], [1, 4, 2]], layers=[1, 2, 3, 4, 5]).take(np.array([0]))
    assert nodes.tolist() == [1, 2, 4] and taken.layers.tolist() == [2, 3, 5]


def test_arrays_at_odd_addresses_are_copied():
    xy = np.zeros(8 * 8 + 1, np.uint8)[1:].view(float).reshape(4, 2)
    xy[:] = SQUARE
    mesh = Mesh(xy, [0, 1, 2, 3], [4], [8], [7])
    assert not xy.flags.aligned and mesh.xy.flags.aligned and np.array_equal(mesh.xy, SQUARE)


def test_from_cells_keeps_coordinates_that_need_no_change():
    xy = np.array(SQUARE, float)
    assert Mesh.from_cells(xy, [[0, 1, 2, 3]]).xy is xy


def test_answers_are_parts_of_the_lists_that_were_written():
    pieces = overlay(Mesh.from_cells(SQUARE, [[0, 1, 2, 3]]), Mesh.from_cells([], []))
    assert pieces.xy.base is not None and pieces.nodes.base is not None


@pytest.mark.parametrize('field, value', [('nodes', [0, 1, 2, -1]), ('nodes', [0, 1, 2, 2.5]), ('families', [2 ** 32]), ('kinds', [256]),
                                          ('families', [-1]), ('nodes', [0, 1, 2, float('nan')]), ('layers', -1), ('layers', [0, 1, 2, 2 ** 32])])
def test_numbers_that_would_change_are_an_error(field, value):
    lists = dict(xy=SQUARE, nodes=[0, 1, 2, 3], ends=[4], kinds=[8], families=[0])
    with pytest.raises(ValueError, match=field):
        Mesh(**{**lists, field: value})


def test_lists_of_corners_may_have_rows():
    mesh = Mesh(SQUARE, np.array([[0, 1, 2, 3]], np.uint32), [4], [8], [7])
    assert [c.tolist() for c in mesh.cells()] == [[0, 1, 2, 3]]


@pytest.mark.parametrize('xy', [[0.0, 1.0], [[0, 0, 0]], 3.0])
def test_coordinates_are_pairs(xy):
    with pytest.raises(ValueError, match='n x 2'):
        Mesh(xy, [], [], [], [])
    with pytest.raises(ValueError, match='n x 2'):
        Mesh.from_cells(xy, [[0, 1, 2]])


def test_cells_are_sorted_by_kind_with_the_way_back():
    xy = [*SQUARE, [3, 1], [1, 3]]
    cells = [[0, 1, 4, 2, 3], [0, 1, 2, 3], [1, 4, 2], [3, 2, 5]]
    mesh = Mesh.from_cells(xy, cells)
    assert mesh.kinds.tolist() == [Kind.TRI3, Kind.TRI3, Kind.QUAD4, Kind.PGON]
    assert mesh.order.tolist() == mesh.families.tolist() == [2, 3, 1, 0]
    assert [c.tolist() for c in mesh.cells()] == [cells[i] for i in mesh.order]


def test_clockwise_cells_are_turned_and_said():
    mesh = Mesh.from_cells(SQUARE, [[3, 2, 1, 0], [0, 1, 2]])
    assert mesh.turned.tolist() == [False, True]
    assert [c.tolist() for c in mesh.cells()] == [[0, 1, 2], [0, 1, 2, 3]]
    assert (mesh.areas() > 0).all()


def test_closing_corners_are_dropped():
    assert Mesh.from_cells(SQUARE, [[0, 1, 2, 3, 0]]).nodes.tolist() == [0, 1, 2, 3]


def test_negative_zeros_are_taken():
    mesh = Mesh.from_cells([[-0.0, 0], [2, -0.0], [2, 2]], [[0, 1, 2]])
    assert not np.signbit(mesh.xy).any()
    assert len(overlay(mesh, Mesh.from_cells([], []))) == 1


def test_an_array_of_cells_is_the_same_as_their_lists():
    cells = np.array([[0, 1, 2], [0, 3, 2]])
    a, b = Mesh.from_cells(SQUARE, cells), Mesh.from_cells(SQUARE, cells.tolist())
    assert all(np.array_equal(x, y) for x, y in zip(a.lists(), b.lists()))


@pytest.mark.parametrize('cells', [[[0, 1, 4]], [[0, 1, -1]]])
def test_a_node_that_is_not_there_is_refused_with_its_cell(cells):
    with pytest.raises(Refused, match='cell 1 names node') as e:
        Mesh.from_cells(SQUARE, [[0, 1, 2], *cells])
    assert e.value.number == 5


def test_one_family_for_each_cell():
    with pytest.raises(ValueError, match='1 are needed'):
        Mesh.from_cells(SQUARE, [[0, 1, 2]], families=[1, 2])


def test_areas_do_not_cancel_far_from_the_origin():
    far = np.array(SQUARE, float) + 2.0 ** 38
    assert Mesh.from_cells(far, [[0, 1, 2, 3]]).areas().tolist() == [4.0]


def test_rings_share_nodes_of_equal_coordinates():
    mesh = mesh_of_rings([np.array([[0, 0], [1, 0], [1, 1], [0, 0]], float), np.array([[1, 0], [1, 0], [2, 0], [1, 1]], float)], [5, 6])
    assert len(mesh.xy) == 4 and mesh.counts().tolist() == [3, 3] and mesh.families.tolist() == [5, 6]


def test_taken_cells_keep_their_places():
    mesh = Mesh.from_cells([*SQUARE, [5, 5], [6, 5], [6, 6]], [[0, 1, 2], [0, 2, 3], [4, 5, 6]])
    part, nodes = mesh.take(np.array([2, 0]))
    assert nodes.tolist() == [0, 1, 2, 4, 5, 6]
    assert part.xy[part.nodes].tolist() == mesh.xy[[4, 5, 6, 0, 1, 2]].tolist()
