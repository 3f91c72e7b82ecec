"""Whether an answer closes up, from its lists alone and in exact numbers: in each cell the pieces use each outline dart once and its
reverse never, any other edge once each way or not at all, and their doubled signed areas add up to the outline's.

Which cell a piece belongs to is what the answer says of its parent (W2), so a wrong parent doesn't close up. The Rust answers no parents: it is
asked with each cell's number as its family (`numbered`). Imprint drops no piece, so the subject's cells are looked at in Imprint's answer. No
operation lists all pieces of the cutter's cells: in those that Union and the symmetric difference list nothing may be used more often than
closing up allows. A cell is named by its mesh, 0 or 1, and its number there."""
import collections
import re
import struct

# What the copy of the Rust tells of a cell: whether it is copied, the slots of its table, whether the published table is doubled, whether its
# outline as cut repeats, and that outline.
Told = collections.namedtuple('Told', 'copied slots doubled repeats outline')
CUTTER = 1 << 31
BOTH_CUT = ('1', '4')
# a node's line; the published Rust lists no layers
NODE = re.compile(r'^\(node (\w+) (\w+)(?: \d+)?\)$', re.M)
LAYER = re.compile(r'^(\(node \w+ \w+) (\d+)\)$', re.M)
CELL = re.compile(r'^\(cell \d+ (\d+) ([\d ]+)\)$', re.M)
PIECE = re.compile(r'^(\(cell \d+ (\d+)) (\d+) (\d+)( [\d ]+\))$', re.M)


def operation(form):
    return form[len('(overlay ')]


def numbered(form, op):
    """The form under this operation, with the number of each cell in the place of its family."""
    subject, cutter = form.split('(mesh\n')[1:]
    out = '(overlay %s%s' % (op, form[len('(overlay 0'):form.index('\n') + 1])
    for mesh, base in (subject, 0), (cutter, CUTTER):
        n = iter(range(base, base + 65536))
        out += '(mesh\n' + re.sub(r'^(\(cell \d+) \d+', lambda m: '%s %d' % (m[1], next(n)), mesh, flags=re.M)
    return out


def parent(number):
    """The cell that has this number in the place of its family."""
    return divmod(number, CUTTER)


def with_all_pieces(form):
    """The form whose answer has all pieces of the subject's cells."""
    return form if operation(form) in '05' else '(overlay 0' + form[len('(overlay 0'):]


def bare(answer):
    """An answer without the parents, as the copy of the Rust lists it."""
    return PIECE.sub(r'\1\5', answer)


def flat(answer):
    """An answer without the layers, as the published Rust lists it."""
    return LAYER.sub(r'\1)', answer)


def layers(text):
    """The layer of each node of a form or an answer."""
    return [int(layer) for _, layer in LAYER.findall(text)]


def parents(answer):
    """The parent of each piece of an answer, as listed."""
    return [(int(mesh), int(cell)) for _, _, mesh, cell, _ in PIECE.findall(answer)]


def parents_of_rust(answer):
    """The same of the Rust's answer to a `numbered` form."""
    return [parent(int(family)) for family, _ in CELL.findall(answer)]


def named_points(form, answer):
    """The added points that the pieces of the Rust's answer name, each once (W5): the nodes numbered from those of both meshes on."""
    first = form.count('(node ')
    return {n for _, corners in CELL.findall(answer) for n in map(int, corners.split()) if n >= first}


def in_the_family(form, answer):
    """Whether each piece has the family of its parent, which is one of the cells that the operation cuts."""
    families = [[int(family) for family, _ in CELL.findall(mesh)] for mesh in form.split('(mesh\n')[1:]]
    families = families if operation(form) in BOTH_CUT else families[:1]
    pieces = [(int(family), int(mesh), int(cell)) for _, family, mesh, cell, _ in PIECE.findall(answer)]
    return all(mesh < len(families) and cell < len(families[mesh]) and families[mesh][cell] == family for family, mesh, cell in pieces)


def whole(bits):
    """A finite float, by its bits, as a whole number of 2^-1074."""
    n, d = struct.unpack('>d', bytes.fromhex(bits))[0].as_integer_ratio()
    return (n << 1074) // d


def ring(piece):
    return list(zip(piece, piece[1:] + piece[:1]))


def area(nodes, edges):
    return sum(nodes[a][0] * nodes[b][1] - nodes[a][1] * nodes[b][0] for a, b in edges)


def pieces(answer):
    """The pieces of each cell."""
    return by_cell(parents(answer), bare(answer))


def pieces_of_rust(answer):
    """The same of the Rust's answer to a `numbered` form."""
    return by_cell(parents_of_rust(answer), answer)


def by_cell(cells, answer):
    out = collections.defaultdict(list)
    for cell, (_, corners) in zip(cells, CELL.findall(answer)):
        out[cell].append(list(map(int, corners.split())))
    return out


def uses(outline, edges, whole_cell):
    """What is wrong with how the pieces' edges stand to the outline, or nothing; of a cell whose pieces aren't all listed, what is too much."""
    used, darts = collections.Counter(edges), set(outline)
    for a, b in set(edges) | darts:
        there, back = used[a, b], used[b, a]
        if (a, b) in darts:
            if back or there > 1 or whole_cell and not there:
                return 'outline dart %d %d: %d times, %d back' % (a, b, there, back)
        elif (b, a) not in darts and (there > 1 or whole_cell and there != back):
            return 'edge %d %d: %d times, %d back' % (a, b, there, back)
    return None


def looked_at(form, cells):
    """Of an overlay's cells, as told, those that this form's answer is held to, with their names: the subject's, or, where both meshes are cut,
    the cutter's."""
    subjects, cutters = (len(CELL.findall(mesh)) for mesh in form.split('(mesh\n')[1:])
    assert len(cells) in (subjects, subjects + cutters), (len(cells), subjects, cutters)
    mesh, cells = (1, cells[subjects:]) if operation(form) in BOTH_CUT else (0, cells[:subjects])
    return [((mesh, i), cell) for i, cell in enumerate(cells)]


def faults(form, answer, cells):
    """Of the answer to a form, and the overlay's cells, as told: what doesn't close up, a line each."""
    if not answer.startswith('(overlay\n'):
        return ['no answer: ' + answer.strip()]
    all_listed = operation(form) not in BOTH_CUT
    nodes = [(whole(x), whole(y)) for x, y in NODE.findall(answer)]
    of = pieces(answer)
    out = []
    for i, cell in looked_at(form, cells):
        outline = cell.outline
        edges = [e for p in of[i] for e in ring(p)]
        wrong = uses(outline, edges, all_listed)
        if not wrong and all_listed and area(nodes, edges) != area(nodes, outline):
            wrong = 'areas: %d, the outline %d' % (area(nodes, edges), area(nodes, outline))
        if wrong:
            out.append('cell %d of mesh %d: %s' % (i[1], i[0], wrong))
    return out


K10 = '''(overlay 5 9
(mesh
(node 0000000000000000 0000000000000000 0)
(node 4000000000000000 0000000000000000 0)
(node 4000000000000000 4000000000000000 0)
(node 0000000000000000 4000000000000000 0)
(cell 8 7 0 1 2 3)
)
(mesh
(node 3ff0000000000000 bff0000000000000 0)
(node 3ff0000000000000 3ff0000000000000 0)
(cell 1 0 0 1)
)
)
'''


def selftest():
    """K10's answer closes up; without the way back, the ditch, a side, a piece, the right coordinates or the right parent it doesn't. So too with a
    line across it twice, from 0 to 2, as the Rust answers: with a piece of two corners. Two cells with each other's pieces don't close up either."""
    def told(form, cells, pieces, points=''):
        lines = ''.join('(cell 11 7 %s)\n' % p for p in pieces)
        nodes = ''.join(m[0] + '\n' for m in NODE.finditer(form)) + points
        return faults(form, '(overlay\n' + nodes + lines + '(count %d %d)\n)\n' % (len(pieces), bool(points)), cells)

    def k10(corners, y='0000000000000000', doubled=False, cell='0 0'):
        cells = [Told(False, 14, doubled, False, [(0, 6), (6, 1), (1, 2), (2, 3), (3, 0)])]
        return told(K10, cells, ['%s %s' % (cell, c) for c in corners], '(node 3ff0000000000000 %s 0)\n' % y)
    whole_way = '3 0 6 5 6 1 2'
    assert not k10([whole_way])
    assert not k10(['3 0 6 1 2'])
    assert not k10([whole_way], y='3fd0000000000000')
    wrongs = ['3 0 6 5 1 2'], ['3 0 1 2'], ['0 6 5 6 1 2'], [], ['3 0 6 1 2', '5 6', '6 5'], [whole_way] * 2, ['2 1 6 5 6 0 3'], ['3 0 6 5 6 5 6 1 2']
    for wrong in wrongs:
        assert k10(wrong), wrong
    assert not k10(['0 6 1 2', '0 2 3'], doubled=True)
    assert k10(['0 6 1 2', '0 2', '0 2 3'], doubled=True)
    for wrong in '1 0', '0 1', '0 6':
        assert k10([whole_way], cell=wrong), wrong
    # the square's halves as two cells, the line away from them
    halves = K10.replace('(cell 8 7 0 1 2 3)', '(cell 5 7 0 1 2)\n(cell 5 7 0 2 3)').replace('(node 3ff0', '(node 4010')
    cells = [Told(True, 6, False, False, [(0, 1), (1, 2), (2, 0)]), Told(True, 6, False, False, [(0, 2), (2, 3), (3, 0)])]
    assert not told(halves, cells, ['0 0 0 1 2', '0 1 0 2 3'])
    assert not told(halves, cells, ['0 1 0 2 3', '0 0 0 1 2'])
    for wrong in ['0 1 0 1 2', '0 0 0 2 3'], ['0 0 0 1 2', '0 0 0 2 3'], ['0 0 0 1 2', '1 1 0 2 3']:
        assert told(halves, cells, wrong), wrong
        assert in_the_family(halves, '(overlay\n(cell 5 7 %s)\n(cell 5 7 %s)\n' % tuple(wrong)) == ('1 1' not in wrong[1])
    # of the points from 6 on, which K10's nodes end before, each once, whatever else the pieces name
    for corners, points in (['3 0 6 5 6 1 2'], {6}), (['0 6 7', '2 7 8 7'], {6, 7, 8}), (['0 1 5'], set()), ([], set()):
        assert named_points(K10, '(overlay\n' + ''.join('(cell 11 7 %s)\n' % c for c in corners) + '(count %d 9)\n)\n' % len(corners)) == points
    print('closing up: K10 passes, %d wrong answers and 6 wrong parents are told' % (len(wrongs) + 1))


if __name__ == '__main__':
    selftest()
