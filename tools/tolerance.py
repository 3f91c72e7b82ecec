#!/usr/bin/env python3
"""tolerance.py > docs/pictures/tolerance.svg: draws one new point within its tolerance, without a survey grid and on one.

tolerance.py --tables prints the tables of docs/TOLERANCE.md. Numbers are worked out in exact fractions and rounded up for print; floats stand
where the library has floats: for t and for the point."""
import argparse
import math
import random
from fractions import Fraction
from html import escape

LINE, DASH, DOT, TEXT = '#3a3a3a', '#1f5f9f', '#c8322b', '#222222'
FAINT = f'stroke="{LINE}" stroke-width="0.6" stroke-opacity="0.35"'
SIDE, GAP, HEAD, FOOT = 340, 28, 34, 60
SUBJECT = (463020.1, 5800010.3), (463098.7, 5800041.9)
CUTTER = (463050.2, 5799990.4), (463071.6, 5800060.8)
K = 10


# ---- the rules: document 01's floats, W11's bound in exact fractions

def between(p, q):
    return q[0] - p[0], q[1] - p[1]


def cross(v, w):
    return v[0] * w[1] - v[1] * w[0]


def crossing(s, o):
    """t, u and the point, in floats or in fractions, by what is given."""
    v1, v2, v3 = between(*s), between(*o), between(s[0], o[0])
    t, u = (cross(v3, v) / cross(v1, v2) for v in (v2, v1))
    return t, u, (s[0][0] + t * v1[0], s[0][1] + t * v1[1])


def is_crossing(s, o):
    """Whether the rule goes by t and u here: lines so nearly parallel that they count as one line have none."""
    v1, v2 = between(*s), between(*o)
    scale = max(map(abs, v1 + v2))
    return abs(cross(v1, v2)) >= 64.0 * (scale * scale) * 2.0 ** -52 and all(0 <= n <= 1 for n in crossing(s, o)[:2])


def exactly(points):
    return tuple((Fraction(x), Fraction(y)) for x, y in points)


def on_edge(s, t):
    """The exact value of p1 + t (p2 - p1)."""
    p, q = exactly(s)
    return tuple(a + Fraction(t) * (b - a) for a, b in zip(p, q))


def bound(m, k=None):
    return Fraction(m) / 2 ** 50 + Fraction(1, 2 ** 1074) + (Fraction(1, 2 ** (k + 1)) if k is not None else 0)


def largest(s):
    return max(abs(c) for p in s for c in p)


# ---- the tables

def up(exact, digits=3):
    """In metres, rounded up to so many digits."""
    power = digits - 1 - math.floor(math.log10(exact))
    whole = math.ceil(exact * Fraction(10) ** power)
    return f'{whole * 10.0 ** -power:.{digits - 1}e}'.replace('e-0', 'e-') if exact < 1e-5 else f'{whole / 10 ** power:.{power}f}'


def by_size():
    yield '| coordinates, in metres | M | tolerance without a grid | on a grid of 1/1,024 m |'
    yield '|---|---|---|---|'
    for name, m in (('a local origin, 1 km', '1,000'), ('a local origin, 10 km', '10,000'), ('RD New', '620,000'), ('UTM, Gauss-Krüger', '5,800,000'),
                    ('UTM, south', '10,000,000'), ('the largest taken, 2^40', '1,099,511,627,776')):
        size = int(m.replace(',', ''))
        yield f'| {name} | {m} | {up(bound(size))} m | {up(bound(size, K), 6)} m |'


def by_grid():
    rest = up(bound(5_800_000))
    yield '| k | step | half a step, exactly | tolerance at M = 5,800,000 |'
    yield '|---|---|---|---|'
    for k in range(11):
        step = '1 m' if k == 0 else f'1/{2 ** k:,} m'
        half = f'{2.0 ** -(k + 1):.{k + 1}f}'
        yield f'| {k} | {step} | {half} m | {half} m + {rest} m |'


def along(part, many=4000):
    """Of made crossings of sides of 20 to 100 metres that part by so much a metre: the most that t, times the side's length, is from the exact one's."""
    rng, worst = random.Random(1), Fraction(0)
    for _ in range(many):
        centre = 463000.0 + 1000 * rng.random(), 5.8e6 + 1000 * rng.random()
        h = 2 * rng.random() - 1
        way = (1 - h * h) / (1 + h * h), 2 * h / (1 + h * h)
        other = (-way[1], way[0]) if part is None else (way[0] - part * way[1], way[1] + part * way[0])
        s, o = (tuple((centre[0] + a * w[0], centre[1] + a * w[1]) for a in (-10 - 40 * rng.random(), 10 + 40 * rng.random())) for w in (way, other))
        if is_crossing(s, o):
            worst = max(worst, abs(Fraction(crossing(s, o)[0]) - crossing(exactly(s), exactly(o))[0]) * Fraction(math.dist(*s)))
    return worst


def by_angle():
    yield '| the two lines part by | off along the side, at most |'
    yield '|---|---|'
    for name, part in (('a right angle', None), ('1 m in 100 m', 1e-2), ('1 mm in 100 m', 1e-5), ('1/1,000 mm in 100 m', 1e-8), ('1/100,000 mm in 100 m', 1e-10)):
        yield f'| {name} | {up(along(part), 2)} m |'


# ---- the picture

class Panel:
    """A square of so many metres a side about the exact point, y upwards."""

    def __init__(self, title, wide, centre, point, reach, step):
        self.title, self.scale, self.centre, self.point, self.reach, self.step = title, SIDE / wide, centre, point, reach, step

    def at(self, p):
        return tuple(float(Fraction(SIDE, 2) + sign * (Fraction(a) - c) * self.scale) for sign, a, c in zip((1, -1), p, self.centre))

    def line(self, way, marks):
        """Through the exact point, from rim to rim."""
        half = SIDE / 2 / max(abs(way[0]), abs(way[1]))
        (x, y), mid = way, SIDE / 2
        return f'<path d="M{mid - half * x:.2f},{mid + half * y:.2f}L{mid + half * x:.2f},{mid - half * y:.2f}" {marks}/>'

    def grid(self):
        half = SIDE / 2 / self.scale
        for i in range(2):
            low, high = (math.floor((self.centre[i] + d) / self.step) for d in (-half, half))
            for n in range(low + 1, high + 1):
                at = self.at((n * self.step, n * self.step))[i]
                yield f'M{at:.2f},0V{SIDE}' if i == 0 else f'M0,{at:.2f}H{SIDE}'

    def drawn(self):
        yield f'<text x="0" y="-12">{escape(self.title)}</text>'
        yield f'<rect width="{SIDE}" height="{SIDE}" fill="#ffffff" stroke="{LINE}" stroke-width="0.6"/>'
        if self.step:
            yield f'<path d="{"".join(self.grid())}" {FAINT}/>'
        half = float(self.reach * self.scale)
        yield f'<rect x="{SIDE / 2 - half:.2f}" y="{SIDE / 2 - half:.2f}" width="{2 * half:.2f}" height="{2 * half:.2f}" fill="{DOT}" fill-opacity="0.09" stroke="{DOT}"/>'
        yield self.line(between(*SUBJECT), f'stroke="{LINE}" stroke-width="1.8"')
        yield self.line(between(*CUTTER), f'stroke="{DASH}" stroke-width="1.3" stroke-dasharray="5 3"')
        x, y = self.at(self.point)
        yield f'<path d="M{SIDE / 2},{SIDE / 2}L{x:.2f},{y:.2f}" stroke="{DOT}" stroke-width="1.2"/>' + marked(SIDE / 2, SIDE / 2)
        yield f'<circle cx="{x:.2f}" cy="{y:.2f}" r="3.2" fill="{DOT}"/>'


def marked(x, y):
    return f'<path d="M{x - 4:.2f} {y - 4:.2f}l8 8m0 -8l-8 8" stroke="{DOT}" stroke-width="1.2"/>'


def panels():
    t, _, point = crossing(SUBJECT, CUTTER)
    exact, m = on_edge(SUBJECT, t), largest(SUBJECT)
    booked = tuple(Fraction(round(Fraction(c) * 2 ** K), 2 ** K) for c in point)
    bare, gridded = bound(m), bound(m, K)
    yield Panel(f'Without a grid: within {math.ceil(bare * 10 ** 11) / 100} nanometres each way', 3 * bare, exact, point, bare, None)
    yield Panel(f'On a grid of 1/{2 ** K:,} m: within {math.ceil(gridded * 10 ** 6) / 1000} mm each way', 6 * gridded, exact, booked, gridded, Fraction(1, 2 ** K))


def legend():
    """Marks with words, and where the next one begins."""
    marks = ((f'<path d="M0 7h26" stroke="{LINE}" stroke-width="1.8"/>', 32, 'side of the subject'),
             (f'<path d="M0 7h26" stroke="{DASH}" stroke-width="1.3" stroke-dasharray="5 3"/>', 32, 'cutter'),
             (f'<rect x="0" y="0.5" width="13" height="13" fill="{DOT}" fill-opacity="0.09" stroke="{DOT}"/>', 19, 'tolerance'),
             (marked(4, 7), 13, 'on the side, at t'), (f'<circle cx="4" cy="7" r="3.2" fill="{DOT}"/>', 13, 'new point'))
    x = 0
    for mark, room, words in marks:
        yield f'<g transform="translate({x} 0)">{mark}<text x="{room}" y="11">{words}</text></g>'
        x += room + 7 * len(words) + 20


def picture():
    width, height = 2 * SIDE + 3 * GAP, HEAD + SIDE + FOOT
    yield f'<svg xmlns="http://www.w3.org/2000/svg" width="{width}" height="{height}" viewBox="0 0 {width} {height}" font-family="sans-serif" font-size="13" fill="{TEXT}">'
    yield f'<rect width="{width}" height="{height}" fill="#ffffff"/>'
    for i, panel in enumerate(panels()):
        yield f'<g transform="translate({GAP + i * (SIDE + GAP)} {HEAD})" stroke-linejoin="round">'
        yield from panel.drawn()
        yield '</g>'
    yield f'<g transform="translate({GAP} {HEAD + SIDE + 22})">'
    yield from legend()
    yield '</g>'
    yield '</svg>'


def main():
    parser = argparse.ArgumentParser(description=__doc__, formatter_class=argparse.RawDescriptionHelpFormatter)
    parser.add_argument('--tables', action='store_true', help='the tables of docs/TOLERANCE.md')
    tables = parser.parse_args().tables
    print('\n'.join([*by_size(), '', *by_grid(), '', *by_angle()] if tables else picture()))


main()
