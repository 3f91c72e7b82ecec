"""The library through numpy, held to the program's stored answers."""
from concurrent.futures import ThreadPoolExecutor
from pathlib import Path

import numpy as np
import pytest

from daqwimay import Kind, Mesh, Operation, Refused, overlay, overlay_in_chunks
from daqwimay.program import Unread, answer, explained, listing, read_question

ROOT = Path(__file__).resolve().parents[3]
CASES = ROOT / 'crates' / 'overlay_cases'
K1 = """(overlay
(node 0000000000000000 0000000000000000 0)
(node 4000000000000000 0000000000000000 0)
(node 4000000000000000 4000000000000000 0)
(node 0000000000000000 4000000000000000 0)
(node 3ff0000000000000 bff0000000000000 0)
(node 4008000000000000 bff0000000000000 0)
(node 4008000000000000 4008000000000000 0)
(node 3ff0000000000000 4008000000000000 0)
(node 3ff0000000000000 0000000000000000 0)
(node 3ff0000000000000 4000000000000000 0)
(cell 11 7 0 0 3 0 8 9)
(cell 11 7 0 0 9 8 1 2)
(count 2 2 0)
)
"""
SQUARE = Mesh([[0, 0], [2, 0], [2, 2], [0, 2]], [0, 1, 2, 3], [4], [Kind.QUAD4], [7])
RIGHT = Mesh([[1, -1], [3, -1], [3, 3], [1, 3]], [0, 1, 2, 3], [4], [Kind.PGON], [9])


def stored():
    """The stored answer to each stored input."""
    found = {}
    for line in (CASES / 'stdout').read_text().splitlines(keepends=True):
        if line.endswith('.in\n'):
            name = line.strip()
            found[name] = ''
        else:
            found[name] += line
    return found


def asked(q):
    return overlay(q.subject, q.cutter, q.settings.operation, limit=q.settings.limit, survey_grid=q.settings.survey_grid)


def test_k1_is_the_listing_of_the_rules_byte_for_byte():
    cutter = Mesh(RIGHT.xy, RIGHT.nodes, RIGHT.ends, RIGHT.kinds, [0])
    assert listing(overlay(SQUARE, cutter, 'imprint', limit=9)) == K1
    assert answer((ROOT / 'examples' / 'k1.in').read_bytes()) == K1


def test_every_stored_answer_byte_for_byte():
    want = stored()
    assert len(want) == len((CASES / 'args').read_text().split()) >= 450
    assert [n for n in want if answer((CASES / 'data' / n).read_bytes()) != want[n]] == []


def test_stored_answers_through_lists_of_the_packages_own_sizes():
    """The same pieces where the program's lists were long enough."""
    seen = 0
    for name, text in stored().items():
        if text.startswith('(overlay'):
            q = read_question((CASES / 'data' / name).read_bytes())
            assert listing(asked(q)) == text, name
            seen += 1
    assert seen > 300


@pytest.mark.parametrize('operation, families, areas', [
    (Operation.IMPRINT, [7, 7], [2, 2]), ('union', [7, 7, 9], [2, 2, 6]), ('intersection', [7], [2]), ('difference', [7], [2]),
    ('symmetric difference', [7, 9], [2, 6]), (4, [7, 9], [2, 6])])
def test_every_operation_on_cells(operation, families, areas):
    pieces = overlay(SQUARE, RIGHT, operation)
    assert pieces.families.tolist() == families and pieces.areas().tolist() == areas
    assert pieces.parent_meshes.tolist() == [int(f == 9) for f in families] and not pieces.parent_cells.any()
    assert (pieces.new_points, pieces.added_points, pieces.doubled_cells) == (2, 2, 0)


# Two soils side by side: their common side crosses the square, and the piece outside of both has no point of it.
SOILS = Mesh([[-1, -1], [1, -1], [1.5, -1], [1.5, 3], [1, 3], [-1, 3]], [0, 1, 4, 5, 1, 2, 3, 4], [4, 8], [Kind.QUAD4] * 2, [1, 2])


@pytest.mark.parametrize('operation, pieces, new', [('imprint', 3, 4), ('union', 6, 4), ('intersection', 2, 4), ('difference', 1, 2), (4, 4, 4)])
def test_new_points_are_those_that_a_piece_names(operation, pieces, new):
    found = overlay(SQUARE, SOILS, operation)
    assert (len(found), found.new_points, found.added_points) == (pieces, new, 4)
    assert len(np.unique(found.nodes[found.nodes >= 10])) == new
    assert found.xy[10:].tolist() == [[1, 0], [1.5, 0], [1, 2], [1.5, 2]]


def test_the_program_counts_two_new_points_and_lists_all_four():
    data = (ROOT / 'examples' / 'points.in').read_bytes()
    lines = answer(data).splitlines()
    assert lines[0] == '(overlay' and lines[15:] == ['(cell 11 7 0 0 13 11 1 2)', '(count 1 2 0)', ')']
    assert lines[11:15] == [f'(node {x} {y} 0)' for y in ('0' * 16, '4' + '0' * 15) for x in ('3ff0000000000000', '3ff8000000000000')]
    assert listing(overlay(SQUARE, SOILS, 'difference', limit=20)) == answer(data)
    assert explained(data) == (0, 'answered: 1 pieces, 2 new points')


def test_new_points_of_every_stored_input():
    """The numbers behind the lent ones that pieces name; where every piece of the subject is listed, all."""
    fewer = 0
    for name, text in stored().items():
        if text.startswith('(overlay'):
            q = read_question((CASES / 'data' / name).read_bytes())
            pieces, lent = asked(q), len(q.subject.xy) + len(q.cutter.xy)
            assert len(pieces.xy) == lent + pieces.added_points, name
            assert pieces.new_points == len(np.unique(pieces.nodes[pieces.nodes >= lent])) <= pieces.added_points, name
            assert pieces.new_points == pieces.added_points or q.settings.operation in (2, 3, 4), name
            fewer += pieces.new_points < pieces.added_points
    assert fewer > 10


# A triangle, a square and a pentagon side by side, given in another order than by kind, all of one family; the cutter's squares lie over them and away.
ROW = Mesh.from_cells([[0, 0], [2, 0], [4, 0], [6, 0], [0, 2], [2, 2], [4, 2], [5, 3], [6, 2]], [[2, 3, 8, 7, 6], [0, 1, 5], [1, 2, 6, 5]], families=[5] * 3)
OVER = Mesh.from_cells([[-1, 1], [9, 1], [9, 9], [-1, 9], [20, 0], [21, 0], [21, 1], [20, 1]], [[4, 5, 6, 7], [0, 1, 2, 3]], families=[5] * 2)


@pytest.mark.parametrize('operation, parents', [
    ('imprint', [(0, 0), (0, 0), (0, 1), (0, 1), (0, 2), (0, 2)]), ('intersection', [(0, 0), (0, 1), (0, 2)]), ('difference', [(0, 0), (0, 1), (0, 2)]),
    ('union', [(0, 0), (0, 0), (0, 1), (0, 1), (0, 2), (0, 2), (1, 0), (1, 1)]), (4, [(0, 0), (0, 1), (0, 2), (1, 0), (1, 1)])])
def test_parents_where_families_say_nothing(operation, parents):
    pieces = overlay(ROW, OVER, operation)
    assert list(zip(pieces.parent_meshes.tolist(), pieces.parent_cells.tolist())) == parents
    assert pieces.parent_meshes.dtype == pieces.parent_cells.dtype == np.uint32
    for corners, mesh, cell in zip(pieces.cells(), pieces.parent_meshes, pieces.parent_cells):
        low_x, low_y, high_x, high_y = (ROW, OVER)[mesh].boxes()[cell]
        assert (pieces.xy[corners] >= [low_x, low_y]).all() and (pieces.xy[corners] <= [high_x, high_y]).all()


def test_the_way_from_a_parent_to_the_cell_as_given():
    pieces = overlay(ROW, OVER, 'intersection')
    assert ROW.order.tolist() == [1, 2, 0] and ROW.order[pieces.parent_cells].tolist() == [1, 2, 0]


def test_taken_pieces_keep_their_parents():
    pieces, _ = overlay(ROW, OVER, 'union').take(np.array([7, 2]))
    assert pieces.parent_meshes.tolist() == [1, 0] and pieces.parent_cells.tolist() == [1, 1] and len(pieces) == 2


def test_taken_pieces_count_the_new_points_that_they_name():
    every = overlay(SQUARE, SOILS)
    for piece, new in enumerate([2, 4, 2]):
        taken, nodes = every.take(np.array([piece]))
        assert (taken.new_points, taken.added_points) == (new, new) and (nodes >= 10).sum() == new


def test_a_boundary_traced_twice_cuts_once():
    """The row of cells of the README: the sum was right before, two cells were not."""
    q = read_question((ROOT / 'examples' / 'traced.in').read_bytes())
    pieces = asked(q)
    assert dict(zip(pieces.families.tolist(), pieces.areas().tolist())) == {2: 7750, 3: 10_000, 4: 10_000, 5: 2250}
    assert (pieces.new_points, pieces.added_points, pieces.doubled_cells) == (0, 0, 0)


def test_layers_of_an_answer():
    """Those of the lent nodes; a new point has that of the first node of its side, in the direction of the first cell that has the side."""
    layers = [[4, 3, 2, 1], [9, 8, 7, 6]]
    square, right = (Mesh(m.xy, m.nodes, m.ends, m.kinds, m.families, of) for m, of in zip((SQUARE, RIGHT), layers))
    for operation in Operation:
        if operation != Operation.LINES:
            pieces = overlay(square, right, operation)
            assert pieces.xy[8:].tolist() == [[1, 0], [1, 2]] and pieces.layers.tolist() == [*layers[0], *layers[1], 4, 2]
            assert pieces.layers.dtype == np.uint32 and pieces.take(np.array([0]))[0].layers.tolist() == pieces.layers[np.unique(pieces.cells()[0])].tolist()
    assert overlay(SQUARE, RIGHT).layers.tolist() == [0] * 10


@pytest.mark.parametrize('square, corner', [(0, 0), (1, 1), (2 ** 32 - 1, 2 ** 32 - 1), (0, 1), (1, 2 ** 32 - 1)])
def test_nodes_at_one_place_are_one_in_one_layer(square, corner):
    """A triangle that touches the square's third corner. Of another layer its corner stays a node of its own, and its sides run to the square's and back."""
    touching = Mesh([[2, 2], [4, 2], [3, 4]], [0, 1, 2], [3], [Kind.TRI3], [1], [corner, 5, 5])
    subject = Mesh(SQUARE.xy, SQUARE.nodes, SQUARE.ends, SQUARE.kinds, [7], square)
    if square == corner:
        pieces = overlay(subject, touching, 'union')
        assert [c.tolist() for c in pieces.cells()] == [[3, 0, 1, 2], [6, 2, 5]] and pieces.layers.tolist() == [square] * 4 + [corner, 5, 5]
    else:
        with pytest.raises(Refused, match='at one place in different layers'):
            overlay(subject, touching, 'union')


def test_one_layer_is_as_none():
    for layers in 0, 7, 2 ** 32 - 1:
        square, soils = (Mesh(m.xy, m.nodes, m.ends, m.kinds, m.families, layers) for m in (SQUARE, SOILS))
        for operation in range(5):
            pieces, want = overlay(square, soils, operation), overlay(SQUARE, SOILS, operation)
            assert pieces.layers.tolist() == [layers] * 14
            assert all(np.array_equal(getattr(pieces, f), getattr(want, f)) for f in ('xy', 'nodes', 'ends', 'kinds', 'families', 'parent_cells'))


def test_the_programs_node_lines_have_layers():
    text = (ROOT / 'examples' / 'k1.in').read_text()
    lines = text.splitlines()
    numbered = '\n'.join(line.replace(' 0)', f' {i})') if line.startswith('(node') else line for i, line in enumerate(lines)) + '\n'
    assert read_question(numbered.encode()).subject.layers.tolist() == [2, 3, 4, 5]
    assert [line.split()[-1] for line in answer(numbered.encode()).splitlines() if line.startswith('(node')] == [f'{n})' for n in (2, 3, 4, 5, 9, 10, 11, 12, 2, 4)]
    wrong = [(' 4294967296', 'above 4,294,967,295'), ('', 'a layer behind y'), (' 01', 'leading zero'), (' -1', 'a sign'), ('  1', 'a space too many'), (' 1.5', 'in decimal')]
    for layer, why in wrong:
        given = '\n'.join([*lines[:3], lines[3].replace(' 0)', f'{layer})'), *lines[4:], '']).encode()
        status, words = explained(given)
        assert status == 2 and 'line 4: ' in words and why in words and answer(given) == '(unread)\n', (layer, words)


def test_lines():
    line = Mesh.from_cells([[1, -1], [1, 3]], [[0, 1]])
    assert line.kinds.tolist() == [Kind.SEG2]
    assert overlay(SQUARE, line, 'lines').areas().tolist() == [2, 2]


@pytest.mark.parametrize('k, x, want', [
    (None, 0.5, 0.5), (0, 0.3, 0), (1, 0.3, 0.5), (2, 0.3, 0.25), (10, 0.3, 307 / 1024), (0, 0.5, 0), (0, 1.5, 2), (0, 2.5, 2), (0, -1.5, -2), (0, -0.5, 0),
    (0, -0.3, 0), (1, 0.25, 0), (1, 0.75, 1), (10, 1 / 2048, 0), (10, 3 / 2048, 2 / 1024)])
def test_new_points_are_booked_on_a_survey_grid(k, x, want):
    """On the nearest multiple of 1/2^K, halfway on the even one, zero as +0; the square's nodes and the line's stay where they are."""
    square = Mesh.from_cells([[-4, -4.25], [4, -4.25], [4, 4], [-4, 4]], [[0, 1, 2, 3]])
    line = Mesh.from_cells([[x, -9.25], [x, 9]], [[0, 1]])
    for call in (overlay, overlay_in_chunks):
        pieces = call(square, line, 'lines', survey_grid=k)
        assert pieces.xy[6:, 0].tolist() == [want] * 2 and np.signbit(pieces.xy[6:, 0]).tolist() == [want < 0] * 2
        assert pieces.xy[:6].tobytes() == np.vstack([square.xy, line.xy]).tobytes() and pieces.new_points == 2
        assert pieces.areas().tolist() == pytest.approx([(want + 4) * 8.25, (4 - want) * 8.25], rel=0.05)


def test_a_survey_grid_that_there_is_not():
    for k in (11, -1, 2 ** 32 - 1, 2 ** 40):
        for call in (overlay, overlay_in_chunks):
            with pytest.raises(Refused, match=f'refused 13 .*\n  K is {k}\n') as e:
                call(SQUARE, RIGHT, survey_grid=k)
            assert e.value.number == 13
    with pytest.raises(Refused, match='refused 1 '):
        overlay(SQUARE, RIGHT, 6, survey_grid=11)
    with pytest.raises(TypeError):
        overlay(SQUARE, RIGHT, survey_grid=0.001)


def test_the_programs_first_line_has_the_survey_grid():
    text = (ROOT / 'examples' / 'k1.in').read_text()
    given = {line: text.replace('(overlay 0 9', f'(overlay {line}').encode() for line in ('0 9', '0 9 10', '0 9 11', '6 9 11', f'0 9 {2 ** 32 - 1}')}
    assert [read_question(data).settings.survey_grid for data in given.values()] == [None, 10, 11, 11, 2 ** 32 - 1]
    assert [answer(data) for data in given.values()] == [K1, K1, '(refused 13)\n', '(refused 1)\n', '(refused 13)\n']
    assert [explained(given[line])[1] for line in ('0 9', '0 9 10')] == [
        'answered: 2 pieces, 2 new points', 'answered: 2 pieces, 2 new points on the survey grid of 1/1,024 metre']
    assert 'whose steps are 1/2^K metre' in explained(given['0 9 11'])[1]


def test_an_unknown_name_lists_the_operations():
    with pytest.raises(ValueError, match='there are imprint, union'):
        overlay(SQUARE, RIGHT, 'cut')


@pytest.mark.parametrize('number', [1.5, None, '2'])
def test_an_operation_is_a_name_or_a_whole_number(number):
    with pytest.raises((TypeError, ValueError)):
        overlay(SQUARE, RIGHT, number)


def test_lists_grow_until_the_pieces_fit():
    """One cell cut by 100 lines: far more corners than 4 times the lent ones."""
    ys = np.linspace(0.01, 1.99, 100)
    lines = Mesh.from_cells([[x, y] for y in ys for x in (-1.0, 3.0)], np.arange(200).reshape(-1, 2))
    pieces = overlay(SQUARE, lines, Operation.LINES)
    assert len(pieces) == 101 and abs(pieces.areas().sum() - 4) < 1e-12


def test_threads_get_the_same_answers():
    with ThreadPoolExecutor(4) as pool:
        texts = set(pool.map(lambda _: listing(overlay(SQUARE, RIGHT)), range(40)))
    assert len(texts) == 1


@pytest.mark.parametrize('text, line, why', [
    ('', 1, 'the text ends'), ('(overlay 0 9\r\n', 1, 'Windows'), ('(overlay 0 9 03\n', 1, 'leading zero'), ('(overlay 0 9 \n', 1, 'a space too many'),
    ('(overlay 0 9\n(mesh\n(node 0.5 1)\n', 3, '16 hexadecimal'),
    ('(overlay 0 9\n(mesh\n(cell 8 07 1)\n', 3, 'leading zero'), ('(overlay 0 9\n(mesh\n)\n(mesh\n)\n)', 6, 'without a newline'),
    ('(overlay 0 9\n(mesh\n)\n(mesh\n)\n)\n\n', 7, 'after the end'), ('(overlay 0 9\n(mesh\n(cell 8 7 0 1 2 3)\n(node', 4, 'the text ends'),
    ('(overlay 0 9\n(mesh\n(cell 300 7 0)\n', 3, 'above 255'), ('(overlay 0 9\n(mesh\n' + 513 * '(node 0000000000000000 0000000000000000 0)\n', 515, '512 nodes')])
def test_where_reading_stops(text, line, why):
    with pytest.raises(Unread, match=why) as e:
        read_question(text.encode())
    assert e.value.line == line
    assert explained(text.encode())[0] == 2


def test_a_refusal_of_the_program_in_words():
    status, words = explained((ROOT / 'examples' / 'k1.in').read_bytes().replace(b'(overlay 0 9', b'(overlay 0 1005'))
    assert status == 1 and 'refused 7' in words and '1,021 together' in words
