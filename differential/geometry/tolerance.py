#!/usr/bin/env python3
"""How near the bound of W11 real errors come: made meetings, answered by the proved program, each new point measured in exact numbers (off.py).

    python3 differential/geometry/tolerance.py [--lines N] [--seed S] [--eighths E] [--program FILE]

Proves and compiles geometry_lines (or takes --program), makes N meetings (by default 1,600,000) of the kinds below and a search for large
errors, and prints for each how far off its new points are: the largest as so many M × 2^-53, and as a part of the bound M × 2^-50 + 2^-1074. Each new
point is also put on a grid, k from 0 to 10 in turn, and held to half a step more. A point that is further off, or isn't the one computed
in Python's floats, is a failure: the last line begins with FAIL and the exit status is 1. With --eighths the bound has so many eighths of
M × 2^-50; a run with 3 shows that it can fail. The same seed gives the same meetings."""
import argparse
import collections
import math
import os
import random
import struct
import subprocess
import sys

HERE = os.path.dirname(os.path.abspath(__file__))
ROOT = os.path.dirname(os.path.dirname(HERE))
sys.path.insert(0, HERE)
sys.dont_write_bytecode = True

import off
from lines import Lines
from model import number

LIMIT = 2.0 ** 40
# Of 141 bytes each, which the program reads at once.
BATCH = 460
KINDS = ('awkward', 'plain', 'parallel', 'far', 'mixed', 'tiny', 'thin', 'ends', 'opposite', 'search')
CHAINS, MUTANTS, ROUNDS = 46, 10, 400
# The search has as many meetings as so many kinds.
SEARCH = 3


def allowed(v):
    """Coordinates that refusal 3 allows: a -0 becomes 0; none where one is too large or not finite."""
    return [x + 0.0 for x in v] if all(abs(x) <= LIMIT for x in v) else None


class Meetings:
    def __init__(self, seed):
        self.r = random.Random('meetings %d' % seed)
        self.lines = Lines(seed)

    def power(self, low, high):
        return 2.0 ** self.r.uniform(low, high)

    def signed(self, x):
        return self.r.choice([-x, x])

    def direction(self):
        a = self.r.uniform(0, math.tau)
        return math.cos(a), math.sin(a)

    def through(self, a, b, t, d, back, on):
        """The segment from a to b, and one across it at t, in the direction d, so far back and so far on."""
        x, y = a[0] + t * (b[0] - a[0]), a[1] + t * (b[1] - a[1])
        return [*a, *b, x - back * d[0], y - back * d[1], x + on * d[0], y + on * d[1]]

    def across(self, a, b, t=None):
        """A segment across the one from a to b, about as long."""
        long = math.hypot(b[0] - a[0], b[1] - a[1])
        return self.through(a, b, self.r.random() if t is None else t, self.direction(), long * self.r.random(), long * self.r.random())

    def pair(self, size):
        return [(self.r.uniform(-size, size), self.r.uniform(-size, size)) for _ in range(2)]

    # ---- kinds

    def awkward(self):
        """The lines of run.py: grids, ends in common or near, |cross12| and lengths at eps, any exponent."""
        return [number(h) for h in self.lines.meet().split()[1:]]

    def plain(self):
        return self.across(*self.pair(100.0))

    def parallel(self):
        """Directions that differ by an angle of 1/2 to 2^-46."""
        a, b = self.pair(self.r.choice([1.0, 100.0, 1e6]))
        e, x, y = self.signed(self.power(-46, -1)), b[0] - a[0], b[1] - a[1]
        return self.through(a, b, self.r.random(), (x - e * y, y + e * x), self.r.random(), self.r.random())

    def far(self):
        """A small neighbourhood 2^20 to 2^40 from the origin."""
        at, size = [self.signed(self.power(20, 40)) for _ in range(2)], self.power(-6, 14)
        return self.across(*[(at[0] + x, at[1] + y) for x, y in self.pair(size)])

    def mixed(self):
        """Each coordinate of a size of its own, 2^-60 to 2^39."""
        a, b = [tuple(self.signed(self.power(-60, 39)) for _ in range(2)) for _ in range(2)]
        return self.across(a, b)

    def tiny(self):
        """About as small as segments that meet are, or one coordinate subnormal and the other of any size."""
        if self.r.random() < 0.5:
            size = self.power(-540, -514)
            return self.through(*self.pair(self.power(-564, -514)), self.r.random(), self.direction(), size * self.r.random(), size * self.r.random())
        size = self.power(-500, 38)
        a, b = [(self.r.randint(-9, 9) * 2.0 ** -1074, self.r.uniform(-size, size)) for _ in range(2)]
        return self.across(*((a, b) if self.r.random() < 0.5 else (a[::-1], b[::-1])))

    def thin(self):
        """One of both up to 2^23 times as long as the other."""
        a, b = self.pair(self.power(-4, 38))
        long, ratio = math.hypot(b[0] - a[0], b[1] - a[1]), self.power(-23, 0)
        if self.r.random() < 0.5:
            x, y = self.r.choice([a, b])
            b = (x + (b[0] - a[0]) * ratio, y + (b[1] - a[1]) * ratio)
            return self.through((x, y), b, self.r.random(), self.direction(), long * self.r.random(), long * self.r.random())
        return self.through(a, b, self.r.random(), self.direction(), long * ratio * self.r.random(), long * ratio * self.r.random())

    def ends(self):
        """t or 1 − t about 2^-23, where an end would be met."""
        t = self.power(-24, -18)
        return self.across(*self.pair(self.power(-4, 38)), self.r.choice([t, 1 - t]))

    def opposite(self):
        """Ends on both sides of 0 at nearly equal sizes, just above a power of two, so that the difference and the product round by the most."""
        up, size = self.power(-22, -8), self.power(-20, 39)
        p, q = self.signed(1 + self.r.choice([-1, 1]) * self.power(-53, -22)), 1 + up
        a, b = (p, self.r.uniform(-1, 1)), (math.copysign(q, -p), self.r.uniform(-1, 1))
        v = self.across(a, b, 1 - self.r.uniform(0, up / 2))
        v = [x * 2.0 ** math.floor(math.log2(size)) for x in v]
        return v if self.r.random() < 0.5 else [v[i ^ 1] for i in range(8)]

    def mutant(self, v):
        """A meeting beside one: some coordinates moved a little, the second segment at another place, or the first one's ends nearer to a power of two."""
        v, way = list(v), self.r.randrange(5)
        if way == 0:
            v[self.r.randrange(8)] *= 1 + self.signed(self.power(-53, -1))
        elif way == 1:
            i = self.r.randrange(8)
            for _ in range(self.r.randint(1, 4)):
                v[i] = math.nextafter(v[i], self.r.choice([-math.inf, math.inf]))
        elif way == 2:
            v = self.across(v[:2], v[2:4])
        elif way == 3:
            t = off.parameter(v)
            v = self.across(v[:2], v[2:4], t + (self.r.choice([0, 1]) - t) * self.r.random() if 0 <= t <= 1 else None)
        else:
            i = self.r.randrange(4)
            f, e = math.frexp(v[i])
            v[i] = math.ldexp(0.5 + (abs(f) - 0.5) * self.r.random(), e + self.r.choice([0, 0, 1])) * math.copysign(1, f)
        return v

    def made(self, kind, n):
        """So many allowed meetings of a kind."""
        way = getattr(self, kind)
        while n:
            v = allowed(way())
            if v:
                n -= 1
                yield v


class Program:
    """The proved geometry_lines."""

    def __init__(self, path):
        self.path = path

    def new_points(self, meetings):
        """For each meeting its new point, or none."""
        text = ''.join('meet ' + ' '.join(struct.pack('>d', x).hex() for x in v) + '\n' for v in meetings)
        r = subprocess.run([self.path], input=text, text=True, capture_output=True)
        got = r.stdout.splitlines()
        if r.returncode or len(got) != len(meetings):
            sys.exit('the program stopped: status %d, %d answers to %d lines' % (r.returncode, len(got), len(meetings)))
        return [tuple(map(number, a.split()[1:])) if a.startswith('new') else None for a in got]


def booked(k, x):
    """The nearest multiple of 2^-k, of two as near the even one, never -0: below 2^52 the product and the quotient are exact."""
    return round(x * 2 ** k) / 2 ** k + 0.0


class Told:
    """What is told of a kind's meetings, or of a grid's points."""

    def __init__(self):
        self.lines, self.sizes, self.most, self.part, self.worst, self.least = 0, [], 0.0, 0.0, None, math.inf


class Measure:
    def __init__(self, eighths):
        self.eighths = eighths
        self.kinds, self.grids = (collections.defaultdict(Told) for _ in range(2))
        self.failures = self.points = 0

    def take(self, kind, v, point):
        """How far a meeting's new point is off, in M × 2^-53; none where it has none."""
        told = self.kinds[kind]
        told.lines += 1
        if point is None:
            return None
        m, far = off.largest(v), off.offs(v, *point)
        size = far / (m << 1021)
        told.sizes.append(size)
        if size >= told.most:
            told.most, told.worst = size, v
        told.part = max(told.part, far / off.allowance(None, m))
        told.least = min(told.least, max(map(abs, v[:4])))
        self.hold(v, None, point, far, m)
        if point != off.computed(v):
            self.fail(v, 'not the point computed')
        self.on_grid(self.points % 11, v, point, m)
        self.points += 1
        return size

    def on_grid(self, k, v, point, m):
        told, point = self.grids[k], [booked(k, x) for x in point]
        far = off.offs(v, *point)
        told.lines += 1
        told.part = max(told.part, far / off.allowance(k, m))
        told.most = max(told.most, max(0, far - off.half_a_step(k)) / (m << 1021))
        self.hold(v, k, point, far, m)

    def hold(self, v, k, point, far, m):
        if far > off.allowance(k, m, self.eighths):
            self.fail(v, 'off by %.6f times the bound%s' % (far / off.allowance(k, m, self.eighths), '' if k is None else ' on the grid of k = %d' % k))

    def fail(self, v, why):
        self.failures += 1
        if self.failures <= 5:
            print('failure: %s: %s' % (why, line(v)))


def line(v):
    return 'meet ' + ' '.join(struct.pack('>d', x).hex() for x in v)


def batches(rows):
    part = []
    for v in rows:
        part.append(v)
        if len(part) == BATCH:
            yield part
            part = []
    if part:
        yield part


def search(made, program, measure, n):
    """Chains of meetings, each step the one furthest off of some beside the last; begun anew from plain ones after so many rounds."""
    done = turn = 0
    while done < n:
        if turn % ROUNDS == 0:
            chains = [(-1.0, v) for v in made.made('plain', CHAINS)]
        turn += 1
        tried = [(i, allowed(made.mutant(chains[i][1]))) for i in range(CHAINS) for _ in range(MUTANTS)]
        tried = [(i, v) for i, v in tried if v][:n - done]
        done += len(tried)
        for (i, v), point in zip(tried, program.new_points([v for _, v in tried])):
            size = measure.take('search', v, point)
            if size is not None and size >= chains[i][0]:
                chains[i] = size, v


def report(measure):
    print('%-10s%10s%12s%12s%16s%16s%16s' % ('kind', 'lines', 'new points', 'the least M', 'half are below', 'the furthest', 'of the bound'))
    print('%-10s%10s%12s%12s%16s%16s' % ('', '', '', '', 'M × 2^-53', 'M × 2^-53'))
    rows = list(measure.kinds.items())
    for kind, told in rows + [('all', total([t for _, t in rows]))]:
        half = sorted(told.sizes)[len(told.sizes) // 2] if told.sizes else 0.0
        least = '2^%.1f' % math.log2(told.least) if 0 < told.least < math.inf else ''
        print('%-10s%10d%12d%12s%16.4f%16.7f%16.7f' % (kind, told.lines, len(told.sizes), least, half, told.most, told.part))
    print('the furthest: ' + line(max((t for _, t in rows), key=lambda t: t.most).worst))
    print('%-10s%10s%32s%32s' % ('grid', 'points', 'beyond half a step, M × 2^-53', 'of the bound with half a step'))
    for k in sorted(measure.grids):
        told = measure.grids[k]
        print('k = %-6d%10d%32.7f%32.7f' % (k, told.lines, told.most, told.part))


def total(rows):
    out = Told()
    for t in rows:
        out.lines, out.sizes, out.least = out.lines + t.lines, out.sizes + t.sizes, min(out.least, t.least)
        out.most, out.part = max(out.most, t.most), max(out.part, t.part)
    return out


def main():
    p = argparse.ArgumentParser()
    p.add_argument('--lines', type=int, default=1600000)
    p.add_argument('--seed', type=int, default=1)
    p.add_argument('--eighths', type=int, default=off.EIGHTHS)
    p.add_argument('--program')
    a = p.parse_args()
    crate = os.path.join(ROOT, 'crates', 'geometry_lines')
    if not a.program:
        subprocess.run(['rt', 'run'], cwd=crate, check=True, stdin=subprocess.DEVNULL, stdout=subprocess.DEVNULL, stderr=subprocess.DEVNULL)
    program, made, measure = Program(a.program or os.path.join(crate, 'out', 'geometry_lines')), Meetings(a.seed), Measure(a.eighths)
    n = a.lines // (len(KINDS) - 1 + SEARCH)
    for kind in KINDS[:-1]:
        for part in batches(made.made(kind, n)):
            for v, point in zip(part, program.new_points(part)):
                measure.take(kind, v, point)
    search(made, program, measure, a.lines - n * (len(KINDS) - 1))
    report(measure)
    print('%s%d meetings, %d new points, %d failures, the bound with %d eighths of M × 2^-50' % (
        'FAIL: ' if measure.failures else '', a.lines, measure.points, measure.failures, a.eighths))
    return 1 if measure.failures else 0


if __name__ == '__main__':
    sys.exit(main())
