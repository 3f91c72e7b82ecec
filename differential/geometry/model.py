"""The five rules once more, written from document 01, with Python's floats (each operation rounds once) and exact fractions.

Gives the expected answer where the published Rust stops, and says whether a difference has one of the named causes."""
import functools
import itertools
import math
import struct
from fractions import Fraction

INF = math.inf


def number(digits):
    return struct.unpack('<d', struct.pack('<Q', int(digits, 16)))[0]


def digits(x):
    if x != x:
        return '7ff8000000000000'
    return '%016x' % struct.unpack('<Q', struct.pack('<d', x))[0]


def quotient(a, b):
    if b != 0 or b != b:
        return a / b
    if a == 0 or a != a:
        return math.nan
    return math.copysign(INF, a) * math.copysign(1.0, b)


def exact(x):
    """What is not finite counts as 0 (docs/DECISIONS.md)."""
    return Fraction(x) if math.isfinite(x) else Fraction(0)


def sign(v):
    return (v > 0) - (v < 0)


# ---- orient

def orientation(ax, ay, bx, by, cx, cy):
    ax, ay, bx, by, cx, cy = map(exact, (ax, ay, bx, by, cx, cy))
    return sign((ax - cx) * (by - cy) - (ay - cy) * (bx - cx))


def underflows(ax, ay, bx, by, cx, cy):
    """Whether a product of the determinant has parts below the least float, so that floats can't hold it exactly."""
    ax, ay, bx, by, cx, cy = map(exact, (ax, ay, bx, by, cx, cy))
    products = (ax - cx) * (by - cy), (ay - cy) * (bx - cx)
    return any(p != 0 and (p * 2 ** 1074).denominator != 1 for p in products)


def orient(v):
    return str(orientation(*v))


# ---- meet

def squared(x, y):
    return x * x + y * y


def larger(a, b):
    """The larger one; the other one where one is a NaN."""
    if a != a:
        return b
    if b != b:
        return a
    return a if b < a else b


def of_order(o):
    """The first matching arm, for the ids 1 to 4 in order; where the Rust panics, none."""
    if o[:2] == [1, 2] or o[2:] == [1, 2] or o.index(2) < o.index(1):
        return 'none'
    return 'P%d,P%d' % (o[1], o[2])


def parameters(v):
    k = 0 if abs(v[2] - v[0]) > abs(v[3] - v[1]) else 1
    p = [v[k], v[k + 2], v[k + 4], v[k + 6]]
    centre = (p[0] + p[1] + p[2] + p[3]) / 4
    d = p[1] - p[0]
    return [quotient(x - centre, d) for x in p]


def colinear(v):
    t = parameters(v)
    if any(x != x for x in t):
        return 'none'
    # sorted is stable: equal parameters stay as P1 to P4.
    return of_order([i + 1 for i in sorted(range(4), key=lambda i: t[i])])


def colinear_anyhow(v):
    """All answers that an order by value can give, equal parameters in any order."""
    t = parameters(v)
    orders = itertools.permutations(range(4))
    return {of_order([i + 1 for i in o]) for o in orders if all(t[i] <= t[j] for i, j in zip(o, o[1:]))}


def meet(v):
    x1, y1, x2, y2, x3, y3, x4, y4 = v
    ax, ay, bx, by, cx, cy = x2 - x1, y2 - y1, x4 - x3, y4 - y3, x3 - x1, y3 - y1
    scale = larger(larger(larger(abs(ax), abs(ay)), abs(bx)), abs(by))
    eps = 64 * (scale * scale) * 2.0 ** -52
    if squared(bx, by) < eps or squared(ax, ay) < eps:
        return 'none'
    cross12 = ax * by - ay * bx
    cross31 = cx * ay - cy * ax
    if abs(cross12) < eps:
        return 'none' if abs(cross31) > eps else colinear(v)
    t = quotient(cx * by - cy * bx, cross12)
    u = quotient(cross31, cross12)
    if not (0 <= t <= 1 and 0 <= u <= 1):
        return 'none'
    px, py = x1 + t * ax, y1 + t * ay
    for i in range(4):
        if squared(v[2 * i] - px, v[2 * i + 1] - py) < eps:
            return 'P%d' % (i + 1)
    return 'new %s %s' % (digits(px), digits(py))


# ---- inside

def points(v):
    return list(zip(v[0::2], v[1::2]))


def edges(v):
    p = points(v)
    return list(zip(p, p[1:] + p[:1]))


def doubled(p):
    s = 0.0
    for (x0, y0), (x1, y1) in zip(p, p[1:] + p[:1]):
        s = s + (x0 * y1 - x1 * y0)
    return s


def side(a, b, c):
    v = (*a, *b, *c)
    return orientation(*v) if all(map(math.isfinite, v)) else 0


def closest(p, px, py):
    """The closest edge or corner: (is it an edge, its number)."""
    n = len(p)
    best, edge, at = INF, False, 0
    for i in range(n):
        (ax, ay), (bx, by) = p[i], p[(i + 1) % n]
        vx, vy = bx - ax, by - ay
        t = quotient(vx * (px - ax) + vy * (py - ay), vx * vx + vy * vy)
        t = 0.0 if t < 0 else 1.0 if t > 1 else t
        d = squared(ax + t * vx - px, ay + t * vy - py)
        if d < best:
            best = d
            edge, at = (False, i) if t == 0 else (False, (i + 1) % n) if t == 1 else (True, i)
    return edge, at


def inside(v, told=None):
    q = (v[0], v[1])
    p = points(v[2:])
    n = len(p)
    if doubled(p) / 2 < 0:
        p = p[::-1]
    if n < 3:
        return 'false'
    edge, at = closest(p, *q)
    if edge:
        return 'true' if side(p[at], p[(at + 1) % n], q) > 0 else 'false'
    a, b, c = p[(at + n - 1) % n], p[at], p[(at + 1) % n]
    left, right = side(a, b, q) > 0, side(b, c, q) > 0
    reflex = side(a, b, c) < 0
    if told is not None:
        told['corner'] = told.get('corner', 0) + 1
        told['reflex corner'] = told.get('reflex corner', 0) + reflex
        told['reflex corner, signs unlike'] = told.get('reflex corner, signs unlike', 0) + (reflex and left != right)
    return 'true' if ((left or right) if reflex else (left and right)) else 'false'


# ---- inner

def inner(v):
    p = points(v)
    if len(p) < 3 or abs(doubled(p)) < 1e-30:
        return 'none'
    heights = [y for _, y in p]
    if any(y != y for y in heights):
        return 'none'
    heights.sort()
    distinct = heights[:1]
    for y in heights[1:]:
        if y != distinct[-1]:
            distinct.append(y)
    middle, widest = None, 0.0
    for low, high in zip(distinct, distinct[1:]):
        if high - low > widest:
            widest, middle = high - low, (low + high) / 2
    if middle is None:
        return 'none'
    xs = []
    for (x0, y0), (x1, y1) in zip(p, p[1:] + p[:1]):
        if (y0 < middle) != (y1 < middle):
            xs.append(x0 + quotient((middle - y0) * (x1 - x0), y1 - y0))
    if len(xs) < 2 or any(x != x for x in xs):
        return 'none'
    xs.sort()
    return '%s %s' % (digits((xs[0] + xs[1]) / 2), digits(middle))


# ---- around

def directions(v):
    return [(x - v[0], y - v[1]) for x, y in points(v[2:])]


def part(x, y):
    return 0 if y > 0 else 2 if y < 0 else 0 if x < 0 else 1


def before(d, e):
    """Below 0 where direction d comes before e: by falling angle in (-180, 180], a zero direction as east."""
    x, y, u, w = exact(d[0]), exact(d[1]), exact(e[0]), exact(e[1])
    p, q = part(x, y), part(u, w)
    return p - q if p != q else sign(x * w - y * u)


def around(v):
    d = directions(v)
    return ' '.join(map(str, sorted(range(len(d)), key=functools.cmp_to_key(lambda i, j: before(d[i], d[j])))))


def around_rounded(v):
    """The order by the machine's atan2, -0 below +0, stably: what the published Rust does."""
    d = directions(v)
    angle = [math.atan2(y, x) for x, y in d]
    return ' '.join(map(str, sorted(range(len(d)), key=lambda i: (-angle[i], math.copysign(1.0, angle[i]) < 0))))


ANSWER = {'meet': meet, 'inner': inner, 'inside': inside, 'orient': orient, 'around': around}


def answer(line):
    word, *rest = line.split()
    return ANSWER[word]([number(h) for h in rest])
