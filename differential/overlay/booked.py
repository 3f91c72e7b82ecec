"""Whether the new points of an answer are booked on its overlay's grid (W6), by exact fractions: nothing is rounded here.

Meetings don't depend on the grid, so the same overlay without a grid has the new points before they are booked. In the answer each of their
coordinates must be the nearest whole multiple of 2^-k, of two as near the even one, and +0 for zero; every lent coordinate must stay."""
import collections
import re
import struct
from fractions import Fraction

from closing import NODE

FIRST = re.compile(r'^\(overlay (\d+) (\d+)(?: (\d+))?\n')
ZERO = '0' * 16


def grid(form):
    """A form's k, or none."""
    k = FIRST.match(form)[3]
    return None if k is None else int(k)


def without_grid(form):
    return FIRST.sub(r'(overlay \1 \2\n', form)


def new_points(form, answer):
    """The bits of what an answer lists behind the form's own nodes."""
    return NODE.findall(answer)[form.count('(node '):]


def exact(bits):
    return Fraction(struct.unpack('>d', bytes.fromhex(bits))[0])


def wrong(k, before, after):
    """What is wrong with a coordinate, by its bits before and after it is booked, or nothing."""
    steps, off = exact(after) * 2 ** k, abs(exact(after) - exact(before)) * 2 ** k
    if steps.denominator != 1:
        return 'off the grid'
    if off > Fraction(1, 2) or off == Fraction(1, 2) and steps % 2:
        return 'not the nearest, or the odd one'
    return '-0' if steps == 0 and after != ZERO else None


def faults(form, answer, points):
    """Of the answer to a form with a grid, and its new points before they are booked: what isn't right, a line each."""
    lent, booked = NODE.findall(form), new_points(form, answer)
    if NODE.findall(answer)[:len(lent)] != lent or len(booked) != len(points):
        return ['%d nodes and %d new points, not those lent or met' % (len(lent), len(booked))]
    rows = [(i, wrong(grid(form), *c)) for i, p in enumerate(zip(points, booked)) for c in zip(*p)]
    return ['new point %d: %s' % row for row in rows if row[1]]


def reached(form, answer, points):
    """What an answer that is right has come to: how many of its points and coordinates are of each sort."""
    lent, booked, k = set(NODE.findall(form)), new_points(form, answer), grid(form)
    there = collections.defaultdict(set)
    for p, q in zip(points, booked):
        there[q].add(p)
    out = collections.Counter()
    for p, q in zip(points, booked):
        out['new points'] += 1
        out['moved'] += p != q
        out['moved onto a lent node'] += q in lent and p not in lent
        out['at one place with another, apart before'] += len(there[q]) > 1
        for x, y in zip(p, q):
            out['coordinates halfway'] += (exact(x) * 2 ** k % 1) == Fraction(1, 2)
            out['coordinates that became 0'] += y == ZERO != x
            out['of these from below 0'] += y == ZERO and exact(x) < 0
    return out


def selftest():
    """Numbers on a grid, halfway and beside; wrong ones are told."""
    def bits(x):
        return struct.pack('>d', x).hex()

    right = [(0, .5, 0.), (0, 1.5, 2.), (0, 2.5, 2.), (0, -.5, 0.), (0, -1.5, -2.), (1, .25, 0.), (1, .75, 1.), (10, 2. ** -11, 0.), (0, 2. ** 52 + 1, 2. ** 52 + 1),
             (10, 2. ** 42 + 2. ** -10, 2. ** 42 + 2. ** -10), (0, .5 + 2. ** -53, 1.), (0, .5 - 2. ** -54, 0.), (0, 5e-324, 0.), (10, -5e-324, 0.), (3, 1. / 3, .375)]
    for k, x, y in right:
        assert not wrong(k, bits(x), bits(y)), (k, x, y)
        for other in {y + 2. ** -k, y - 2. ** -k, y + 2. ** -k / 2, x} - {y}:
            assert wrong(k, bits(x), bits(other)), (k, x, other)
    for x in -.5, -.25, .25, 0., -0.:
        assert wrong(0, bits(x), bits(-0.)) == '-0'
    form = '(overlay 0 9 1\n(mesh\n(node %s %s)\n' % (bits(1 / 3), bits(-1.))
    points = [(bits(.25), bits(-1 / 3))]
    for name, listed, told in [('right', [(1 / 3, -1.), (0., -.5)], 0), ('a lent one moved', [(.5, -1.), (0., -.5)], 1), ('none', [(1 / 3, -1.)], 1),
                               ('both', [(1 / 3, -1.), (.5, -1 / 3)], 2), ('one more', [(1 / 3, -1.), (0., -.5), (0., -.5)], 1)]:
        answer = '(overlay\n' + ''.join('(node %s %s)\n' % tuple(map(bits, p)) for p in listed)
        assert len(faults(form, answer, points)) == told, name
    assert grid(form) == 1 and grid(without_grid(form)) is None
    print('booked: %d numbers pass, others are told' % len(right))


if __name__ == '__main__':
    selftest()
