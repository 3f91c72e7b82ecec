"""Every refusal as an exception with its number, its meaning and its causes."""
import pickle

import numpy as np
import pytest

from daqwimay import Kind, Mesh, REFUSALS, Refused, overlay, overlay_in_chunks
from daqwimay._library import OUTPUT_LISTS, Settings, call
from daqwimay.overlaying import output_lists, work_size
from daqwimay.refusals import markdown

XY = [[0, 0], [2, 0], [2, 2], [0, 2]]
SQUARE = Mesh(XY, [0, 1, 2, 3], [4], [8], [7])
NOTHING = Mesh([], [], [], [], [])


def square(**changed):
    lists = dict(xy=XY, nodes=[0, 1, 2, 3], ends=[4], kinds=[8], families=[7])
    return Mesh(**{**lists, **changed})


def lines(count, x0=-1.0, x1=3.0):
    ys = np.linspace(0.001, 1.999, count)
    return Mesh.from_cells([[x, y] for y in ys for x in (x0, x1)], np.arange(2 * count).reshape(-1, 2))


def polygon(corners):
    a = np.linspace(0, 2 * np.pi, corners, endpoint=False)
    return Mesh(np.column_stack([np.cos(a) + 2, np.sin(a) + 2]), np.arange(corners), [corners], [Kind.PGON], [1])


def beside_a_node():
    """A square whose corners lie some 1e-8 beside a triangle's."""
    e = 9.8e-9
    return (Mesh([[e, e], [-0.25, -1], [1, 1]], [0, 1, 2], [3], [Kind.TRI3], [2]),
            Mesh([[0, 0], [-1, 0], [-1, -1], [0, -1]], [0, 1, 2, 3], [4], [Kind.QUAD4], [1]), 4)


def welded_corners():
    """A triangle with two corners that become the square's first node."""
    return SQUARE, Mesh([[5e-13, 0], [0, 5e-13], [-1, -1]], [0, 1, 2], [3], [Kind.TRI3], [1]), 1


def spike():
    """A cell with a spike, and a soil with a corner in it."""
    xy = [[0, 0], [2, 0], [2, 1 - 1e-9], [3, 1], [2, 1 + 1e-9], [2, 2], [0, 2]]
    return (Mesh(xy, np.arange(7), [7], [Kind.PGON], [7]),
            Mesh([[2.5, 3], [2.5, 1], [2.5, -1], [5, 1]], [0, 1, 2, 3], [4], [Kind.PGON], [1]), 0)


CASES = {
    1: [(SQUARE, NOTHING, 6), (SQUARE, NOTHING, -1)],
    2: [(square(ends=[3]), NOTHING, 0), (square(kinds=[8, 8]), NOTHING, 0), (square(layers=[1, 1, 1]), NOTHING, 0), (SQUARE, square(layers=[1] * 5), 0),
        (Mesh(np.zeros((16_385, 2)), [], [], [], []), NOTHING, 0)],
    3: [(square(xy=[[0, 0], [2, 0], [2, float('nan')], [0, 2]]), NOTHING, 0), (square(xy=[[-0.0, 0], [2, 0], [2, 2], [0, 2]]), NOTHING, 0),
        (square(xy=[[0, 0], [2.0 ** 41, 0], [2, 2], [0, 2]]), NOTHING, 0)],
    4: [(square(kinds=[7]), NOTHING, 0), (polygon(257), NOTHING, 0), (SQUARE, lines(1), 0), (SQUARE, SQUARE, 5),
        (square(nodes=[0, 1, 2, 3, 0, 1, 2], ends=[4, 7], kinds=[8, 5], families=[1, 2]), NOTHING, 0)],
    5: [(square(nodes=[0, 1, 2, 4]), NOTHING, 0)],
    6: [(square(nodes=[0, 1, 2, 1]), NOTHING, 0)],
    9: [(Mesh([[0, 0], [2, 0], [2, 2], [0, 2]], [0, 1, 2, 3], [4], [8], [7]), lines(257), 5)],
    10: [(SQUARE, lines(250), 5)],
    11: [beside_a_node()],
    19: [welded_corners(), spike()],
}


@pytest.mark.parametrize('number, case', [(n, i) for n, some in CASES.items() for i in range(len(some))])
def test_refusals_of_a_call(number, case):
    subject, cutter, operation = CASES[number][case]
    with pytest.raises(Refused) as e:
        overlay(subject, cutter, operation)
    assert e.value.number == number
    row = REFUSALS[number]
    assert all(words in str(e.value) for words in (row.meaning, row.cure, *row.causes))


def test_limit_of_meetings():
    cutter = Mesh([[1, -1], [3, -1], [3, 3], [1, 3]], [0, 1, 2, 3], [4], [11], [0])
    for limit, number in ((0, 1), (65_537, 1), (2 ** 32 + 9, 1), (1, 8)):
        with pytest.raises(Refused) as e:
            overlay(SQUARE, cutter, limit=limit)
        assert e.value.number == number


@pytest.mark.parametrize('short', OUTPUT_LISTS, ids=lambda record: record.name)
def test_one_output_list_that_is_too_short(short):
    """12, whichever list it is, and all lists zero; with a place more it is answered, and what is behind the answer stays."""
    cutter = Mesh([[1, -1], [3, -1], [3, 3], [1, 3]], [0, 1, 2, 3], [4], [11], [0])
    for more, number in ((-1, 12), (0, 0)):
        lists = output_lists(13, 11, 5)
        at = OUTPUT_LISTS.index(short)
        lists[at] = lists[at][:{'node': 10, 'corner': 8, 'cell': 2}[short.per] + more].copy()
        for a in lists:
            a[...] = 9
        work = np.full(work_size(8 + 5, 8), 9, np.uint32)
        code, counts = call(Settings(0, 5), SQUARE.lists(), cutter.lists(), lists, work)
        assert (code, counts.tolist()) == (number, [0] * 4 if number else [2, 2, 0, 2]) and not work.any()
        used = {'node': 10, 'corner': 8, 'cell': 2}
        assert all((a[used[r.per]:] == 9).all() for r, a in zip(OUTPUT_LISTS, lists)) if number == 0 else not any(a.any() for a in lists)


@pytest.mark.parametrize('short, number', [('work', 7), ('node', 12), ('corner', 12), ('cell', 12)])
def test_lists_that_are_too_short(short, number):
    """Not to be had through `overlay`, which makes its lists long enough."""
    room = {'node': 13, 'corner': 8, 'cell': 2}
    lists = output_lists(**{f'{k if k != "node" else "point"}s': n - (k == short) * (10 if k == 'node' else 1) for k, n in room.items()})
    work = np.zeros(work_size(8 + 5, 8) - (short == 'work'), np.uint32)
    cutter = Mesh([[1, -1], [3, -1], [3, 3], [1, 3]], [0, 1, 2, 3], [4], [11], [0])
    code, counts = call(Settings(0, 5), SQUARE.lists(), cutter.lists(), lists, work)
    assert code == number and counts.tolist() == [0] * 4
    with pytest.raises(Refused, match=f'refused {number}'):
        raise Refused(code)


@pytest.mark.parametrize('settings, xy, number', [
    (Settings(0, 5, 11), XY, 13), (Settings(0, 5, 2 ** 32 - 1), XY, 13), (Settings(6, 5, 11), XY, 1), (Settings(0, 0, 11), XY, 1), (Settings(0, 5, 11), XY[:3], 13)])
def test_a_grid_too_fine_touches_no_list(settings, xy, number):
    """13 after 1 and before the others: here the subject's fourth node isn't there."""
    lists = output_lists(13, 11, 5)
    for a in lists:
        a[...] = 9
    work = np.full(3, 9, np.uint32)
    code, counts = call(settings, square(xy=xy).lists(), NOTHING.lists(), lists, work)
    assert (code, counts.tolist()) == (number, [0] * 4) and all((a == 9).all() for a in (*lists, work))


def test_a_folded_cell_is_named():
    subject, cutter, operation = spike()
    with pytest.raises(Refused, match=r'the cell of family 7, around \(1\.5, 1\)') as e:
        overlay_in_chunks(subject, cutter, operation)
    assert (e.value.number, e.value.family) == (19, 7)


def test_every_refusal_has_words():
    assert sorted(REFUSALS) == [*range(1, 14), 19]
    assert all(r.name and r.meaning and r.causes and r.cure for r in REFUSALS.values())
    assert markdown().count('\n') == 2 + len(REFUSALS)


def test_a_refusal_goes_through_pickle():
    again = pickle.loads(pickle.dumps(Refused(5, 'cell 3')))
    assert (again.number, str(again)) == (5, str(Refused(5, 'cell 3')))


def test_a_number_that_is_not_known_is_said_to_be():
    assert 'does not know' in str(Refused(99))
