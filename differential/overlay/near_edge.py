"""Whether each new point of an answer is as near its meeting's subject edge as W11 says, on a grid with half a step more, in exact numbers
(differential/geometry/off.py). The copy of the Rust tells each new point before it is booked and the ends of its meeting, P1 to P4."""
import os
import re
import struct
import sys

sys.path.append(os.path.join(os.path.dirname(os.path.dirname(os.path.abspath(__file__))), 'geometry'))

import off
from booked import grid, new_points
from closing import NODE, ring

POINT = re.compile(r'^point (\w+) (\w+) of ([\w ]+)$', re.M)
CELL = re.compile(r'^\(cell \d+ \d+ ([\d ]+)\)$', re.M)


def numbers(bits):
    return struct.unpack('>%dd' % len(bits), bytes.fromhex(''.join(bits)))


def sides(form):
    """The sides of the subject's cells, each by the bits of its ends, either way round."""
    subject = form.split('(mesh\n')[1]
    nodes = NODE.findall(subject)
    edges = {e for corners in CELL.findall(subject) for e in ring([nodes[int(n)] for n in corners.split()])}
    return edges | {(b, a) for a, b in edges}


def wrong(k, point, before, v, eighths):
    """What is wrong with a new point, by that before it is booked and its meeting's ends; and how far off it is, on a grid beyond half a step, in M × 2^-53."""
    m, far = off.largest(v), off.offs(v, *point)
    why = 'not the point computed' if off.computed(v) != before else 'too far off' if far > off.allowance(k, m, eighths) else None
    return why, max(0, far - off.half_a_step(k)) / (m << 1021)


def measured(form, answer, points, meetings, eighths=off.EIGHTHS):
    """Of the answer to a form, its new points before they are booked and the meeting of each: what isn't right, a line each, and how far off they are."""
    k, listed, edges = grid(form), new_points(form, answer), sides(form)
    if not len(listed) == len(points) == len(meetings):
        return ['%d new points of %d meetings' % (len(listed), len(meetings))], []
    out, sizes = [], []
    for i, (point, before, ends) in enumerate(zip(listed, points, meetings)):
        why, size = wrong(k, numbers(point), numbers(before), numbers(ends), eighths)
        if (tuple(ends[:2]), tuple(ends[2:4])) not in edges:
            why = "not by a subject's edge"
        out += ['new point %d: %s' % (i, why)] if why else []
        sizes.append(size)
    return out, sizes


def selftest():
    """A square's upper side from (2, 2) to (0, 2), met at (1.4, 2): the point is right, with a grid of 1/2 at (1.5, 2); others and other edges are told."""
    def bits(*xs):
        return [struct.pack('>d', x).hex() for x in xs]

    told = 0
    corners = [(0., 0.), (2., 0.), (2., 2.), (0., 2.)]
    ends = [2., 2., 0., 2., 1.4, 1., 1.4, 3.]
    x, y = off.computed(ends)
    for k, right, wrongs in (None, (x, y), [(1.4 + 1e-14, 2.), (1.4, 2.000001), (1.5, 2.)]), (1, (1.5, 2.), [(1., 2.), (1.5, 2.5), (1.7, 2.)]):
        form = '(overlay 0 9%s\n(mesh\n' % ('' if k is None else ' %d' % k) + ''.join('(node %s %s)\n' % tuple(bits(*c)) for c in corners) + '(cell 8 0 0 1 2 3)\n)\n(mesh\n)\n)\n'

        def faults(point, ends, before=(x, y)):
            answer = '(overlay\n' + ''.join('(node %s %s)\n' % tuple(bits(*p)) for p in corners + [point])
            return measured(form, answer, [tuple(bits(*before))], [bits(*ends)])[0]
        assert not faults(right, ends)
        for point in wrongs:
            assert faults(point, ends), (k, point)
        assert faults(right, ends, (x, 2.1)) and faults(right, [2., 2., 0., 2.0000001] + ends[4:]) and faults(right, [0., 0., 2., 2.] + ends[4:])
        told += len(wrongs) + 3
    assert POINT.findall('point 3f 40 of 1 2 3 4 5 6 7 8\n') == [('3f', '40', '1 2 3 4 5 6 7 8')]
    print('near_edge: 2 points pass, %d wrong ones are told' % told)


if __name__ == '__main__':
    selftest()
