"""Whether an answer's layers are right (W7), from the form's and the answer's lists alone, but for the ends of each new point's meeting, which the copy of
the Rust tells. Every lent node keeps its layer. A new point has the layer of the first node of its subject edge, as module 5 keeps that edge: the first of
its key, from corner to corner, cell by cell. No piece names a cutter's node that the weld gives a subject's number; the weld is made anew here, in
Python's floats: the nearest of the subject's named nodes that have the layer, at a squared distance below 1e-12 × 1e-12, the first of equally near ones by x,
y and number."""
import bisect
import collections
import re
import struct

from closing import NODE, layers, ring

CELL = re.compile(r'^\(cell \d+ \d+ ([\d ]+)\)$', re.M)
NEAR = 1e-12


def point(bits):
    return struct.unpack('>dd', bytes.fromhex(''.join(bits)))


def cells(text):
    return [list(map(int, corners.split())) for corners in CELL.findall(text)]


def meshes(form):
    """Of each mesh its nodes' bits, their layers and its cells."""
    return [(NODE.findall(m), layers(m), cells(m)) for m in form.split('(mesh\n')[1:]]


def named(cells):
    return sorted({n for c in cells for n in c})


def weld(form, by_layers=True):
    """The cutter's nodes that take a subject node's number, with that number."""
    (nodes, on, subject), (others, over, cutter) = meshes(form)
    near = collections.defaultdict(list)
    for n in named(subject):
        near[on[n] if by_layers else 0].append((*point(nodes[n]), n))
    for row in near.values():
        row.sort()
    out = {}
    for n in named(cutter):
        x, y = point(others[n])
        row = near.get(over[n] if by_layers else 0, [])
        best = NEAR * NEAR
        for u, v, m in row[bisect.bisect_left(row, (x - 2 * NEAR,)):]:
            if u > x + 2 * NEAR:
                break
            d = (x - u) * (x - u) + (y - v) * (y - v)
            if d < best:
                best, out[n] = d, m
    return out


def kept_edges(cells):
    out = {}
    for c in cells:
        for a, b in ring(c):
            out.setdefault((min(a, b), max(a, b)), (a, b))
    return list(out.values())


def of_edges(form):
    """By the bits of an edge's ends, first node first: the layers of the first nodes of the subject's edges there."""
    nodes, on, subject = meshes(form)[0]
    out = collections.defaultdict(set)
    for a, b in kept_edges(subject):
        out[nodes[a] + nodes[b]].add(on[a])
    return out


def faults(form, answer, ends):
    """Of the answer to a form, without parents, and the ends of each new point's meeting: what isn't right, a line each."""
    lent, listed = layers(form), layers(answer)
    if len(listed) != len(NODE.findall(answer)) or len(listed) != len(lent) + len(ends):
        return ['%d layers of %d nodes, %d of them new' % (len(listed), len(NODE.findall(answer)), len(ends))]
    out = ['node %d: not the layer lent' % i for i, layer in enumerate(lent) if listed[i] != layer]
    edges = of_edges(form)
    for i, (layer, v) in enumerate(zip(listed[len(lent):], ends)):
        if layer not in edges[tuple(v[:4])]:
            out.append("new point %d: not the layer of its edge's first node" % i)
    base = len(meshes(form)[0][0])
    own = {base + n for n in weld(form)}
    return out + ['node %d: named by a piece, and welded' % n for n in named(cells(answer)) if n in own]


def reached(form, ends):
    """What an answer that is right has come to."""
    nodes, on, subject = meshes(form)[0]
    first = {nodes[a] + nodes[b]: (on[a], on[b]) for a, b in kept_edges(subject)}
    by, whole = weld(form), weld(form, False)
    out = collections.Counter({'welded': len(by), 'kept apart by their layers': len(whole) - len(by), 'welded onto another node than without layers':
                               sum(whole[n] != m for n, m in by.items())})
    for v in ends:
        a, b = first.get(tuple(v[:4]), (0, 0))
        out['new points'] += 1
        out['on edges between layers'] += a != b
    return out


SQUARE = '''(overlay 0 9
(mesh
(node 0000000000000000 0000000000000000 5)
(node 4000000000000000 0000000000000000 6)
(node 4000000000000000 4000000000000000 7)
(node 0000000000000000 4000000000000000 8)
(cell 8 7 0 1 2 3)
)
(mesh
(node 3ff0000000000000 bff0000000000000 1)
(node 4000000000000000 0000000000000000 %d)
(node 3ff0000000000000 4008000000000000 2)
(cell 11 0 0 1 2)
)
)
'''


def selftest():
    """The square's sides y = 0, from (0, 0), and y = 2, from (2, 2), are met at x = 1; the cutter's second corner is welded where its layer is 6."""
    def bits(*v):
        return [struct.pack('>d', x).hex() for x in v]

    ends = [bits(0., 0., 2., 0.), bits(2., 2., 0., 2.)]
    told = 0
    for layer in 5, 6:
        form = SQUARE % layer
        assert weld(form) == ({1: 1} if layer == 6 else {}) and weld(form, False) == {1: 1}
        right, pieces = layers(form) + [5, 7], '(cell 11 7 3 0 7 8)\n(cell 11 7 8 7 %d 2)\n' % (1 if layer == 6 else 5)

        def answer(on, pieces=pieces):
            nodes = NODE.findall(form) + [('3ff' + '0' * 13, '0' * 16), ('3ff' + '0' * 13, '4' + '0' * 15)]
            return '(overlay\n' + ''.join('(node %s %s %d)\n' % (*n, i) for n, i in zip(nodes, on)) + pieces
        assert not faults(form, answer(right), ends), faults(form, answer(right), ends)
        wrongs = [right[:i] + [other] + right[i + 1:] for i in range(9) for other in (1, 9, 5, 6, 8) if other != right[i]] + [right[:-1]]
        for wrong in wrongs:
            assert faults(form, answer(wrong), ends), wrong
        assert bool(faults(form, answer(right, pieces.replace(' 1 2)', ' 5 2)')), ends)) == (layer == 6)
        told += len(wrongs)
    print('layered: 2 answers pass, %d wrong ones are told' % (told + 1))


if __name__ == '__main__':
    selftest()
