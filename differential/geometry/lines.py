"""Makes lines for a run: awkward numbers for each of the five forms. The same seed gives the same lines."""
import math
import random

from model import digits

INF = math.inf


def line(word, *numbers):
    return ' '.join([word] + [digits(float(x)) for x in numbers])


class Lines:
    def __init__(self, seed):
        self.r = random.Random(seed)

    # ---- numbers

    def small(self):
        return float(self.r.randint(-3, 3))

    def grid(self):
        return self.r.randint(-200, 200) / 64

    def plain(self):
        return self.r.uniform(-100, 100)

    def any_size(self):
        return self.r.choice([-1, 1]) * math.ldexp(self.r.random() + 1, self.r.randint(-1070, 1020))

    def below_limit(self):
        return self.r.choice([-1, 1]) * math.ldexp(self.r.random() + 1, self.r.randint(-1070, 38))

    def subnormal(self):
        return self.r.choice([0.0, 5e-324, -5e-324, 1e-320, -1e-320, 2.0 ** -1022, 3e-310, -3e-310])

    def at_limit(self):
        return self.r.choice([self.r.uniform(-2 ** 40, 2 ** 40), 2.0 ** 40, -2.0 ** 40, 0.0, 1.0])

    def huge(self):
        return self.r.choice([1e154, -1e154, 1e200, 8e307, -8e307, 1e-160, -1e-160, 0.0, 3.0])

    def near_one(self):
        return 1 + self.r.randint(-4, 4) * 2.0 ** -52

    def tiny(self):
        return self.r.uniform(-1e-12, 1e-12)

    def zeros(self):
        return self.r.choice([0.0, -0.0, 1.0, -1.0, 2.0])

    def special(self):
        return self.r.choice([math.nan, INF, -INF, -0.0, 0.0, 1.0, -2.0, 1.7e308])

    def kind(self):
        """A way to make numbers, without -0."""
        return self.r.choice([self.small, self.small, self.grid, self.grid, self.plain, self.plain, self.any_size, self.below_limit,
                              self.subnormal, self.at_limit, self.huge, self.near_one, self.tiny])

    def nudged(self, x, most=3):
        for _ in range(self.r.randint(0, most)):
            x = math.nextafter(x, self.r.choice([-INF, INF]))
        return x

    def near(self, p, size):
        return (p[0] + self.r.uniform(-size, size), p[1] + self.r.uniform(-size, size))

    def finite(self, p, other):
        return p if all(map(math.isfinite, p)) else other

    # ---- meet

    def meet_plain(self):
        k = self.kind()
        return [k() for _ in range(8)]

    def meet_crossing(self):
        """Two segments across one point."""
        k = self.r.choice([self.small, self.grid, self.plain])
        x, y, a, b, c, d = k(), k(), k(), k(), k(), k()
        s, t = self.r.choice([1.0, 0.5, self.r.random(), 2.0]), self.r.choice([1.0, 0.25, self.r.random(), 3.0])
        return [x - s * a, y - s * b, x + a, y + b, x - c, y - d, x + t * c, y + t * d]

    def meet_zeros(self):
        return [self.zeros() for _ in range(8)]

    def meet_upright(self):
        """Horizontal and vertical, also on one line."""
        k = self.r.choice([self.small, self.grid, self.plain])
        x, y = k(), k()
        a = [k(), y, k(), y]
        b = self.r.choice([[x, k(), x, k()], [k(), y, k(), y], [k(), self.nudged(y), k(), self.nudged(y)]])
        s = a + b
        if self.r.random() < 0.5:
            s = [s[i ^ 1] for i in range(8)]
        return s

    def meet_colinear(self):
        """Four points of one line, whole multiples of one direction, or rounded ones."""
        k = self.r.choice([self.small, self.grid, self.plain, self.below_limit])
        x, y, dx, dy = k(), k(), k(), k()
        if self.r.random() < 0.5:
            ts = [self.r.randint(-3, 3) for _ in range(4)]
        else:
            ts = [self.r.choice([0, 1, 0.5, 0.25, 1 / 3, self.r.uniform(-1, 2)]) for _ in range(4)]
        s = [c for t in ts for c in (x + t * dx, y + t * dy)]
        return s if self.r.random() < 0.7 else [self.nudged(c) for c in s]

    def meet_shared(self):
        """Ends in common, so equal parameters."""
        k = self.r.choice([self.small, self.grid, self.plain])
        p = [(k(), k()) for _ in range(3)]
        if self.r.random() < 0.5:
            p[2] = (2 * p[1][0] - p[0][0], 2 * p[1][1] - p[0][1])
        return [c for _ in range(4) for c in self.r.choice(p)]

    def meet_touching(self):
        """An end of one on, or within some tolerance of, the other."""
        k = self.r.choice([self.small, self.grid, self.plain])
        a, b, d = (k(), k()), (k(), k()), (k(), k())
        t = self.r.choice([0, 1, 0.5, 0.25, self.r.random()])
        c = (a[0] + t * (b[0] - a[0]), a[1] + t * (b[1] - a[1]))
        scale = max(abs(b[0] - a[0]), abs(b[1] - a[1]), abs(d[0] - c[0]), abs(d[1] - c[1]))
        c = self.near(c, self.r.choice([0, 1e-16, 1.2e-7, 1.19e-7, 2.4e-7, 1e-8, 1e-12]) * scale)
        s = [a, b, c, d] if self.r.random() < 0.5 else [c, d, a, b]
        if self.r.random() < 0.3:
            s[2], s[3] = s[3], s[2]
        return [x for p in s for x in p]

    def meet_at_eps(self):
        """At a power of two s: cross31, cross12, a squared length or a squared distance of eps exactly, or a step beside it."""
        s = 2.0 ** self.r.choice([0, 0, 1, -1, 3, 10, -10, 20, -300, -480, -505, 300])
        what = self.r.randint(0, 3)
        off = self.nudged(s * 2.0 ** -46, 1) * self.r.choice([-1, 1])
        gap = self.nudged(s * 2.0 ** -23, 1)
        a, b = self.r.choice([0, 0.25, 0.5, -0.5, 1]) * s, self.r.choice([1, 0.75, 0.5, 1.5, 0]) * s
        if what == 0:
            v = [0.0, 0.0, s, 0.0, a, off, b, off]
        elif what == 1:
            v = [0.0, 0.0, s, 0.0, a, -off / 2, a + self.r.choice([-1, 1]) * s, off / 2]
        elif what == 2:
            v = [0.0, 0.0, s, 0.0, a, 0.0, a + gap, 0.0]
        else:
            v = [0.0, 0.0, s, 0.0, gap, self.r.choice([-1, -0.5]) * s, gap, self.r.choice([1, 0.5]) * s]
        if self.r.random() < 0.3:
            v = [v[i ^ 1] for i in range(8)]
        if self.r.random() < 0.3:
            v = v[4:] + v[:4]
        if self.r.random() < 0.3:
            v = v[2:4] + v[0:2] + v[4:]
        return v

    def meet_scaled(self):
        """A meeting of another kind at another size."""
        s = math.ldexp(1.0, self.r.randint(-1060, 1000))
        v = self.r.choice([self.meet_upright, self.meet_colinear, self.meet_shared, self.meet_touching])()
        v = [x * s for x in v]
        return v if all(map(math.isfinite, v)) else [0.0] * 8

    def meet_special(self):
        v = self.r.choice([self.meet_plain, self.meet_colinear, self.meet_upright])()
        for _ in range(self.r.randint(1, 3)):
            v[self.r.randrange(8)] = self.special()
        return v

    def meet(self):
        way = self.r.choices([self.meet_plain, self.meet_zeros, self.meet_upright, self.meet_colinear, self.meet_shared,
                              self.meet_touching, self.meet_at_eps, self.meet_scaled, self.meet_special,
                              self.meet_crossing],
                             [24, 3, 14, 18, 8, 14, 10, 8, 1, 20])[0]
        return line('meet', *way())

    # ---- polygons

    def star(self, n):
        """Simple: corners at rising angles around a centre."""
        cx, cy = self.r.choice([(0, 0), (3, 5), (1e6, -1e6), (self.r.uniform(-10, 10), self.r.uniform(-10, 10))])
        s = self.r.choice([1, 1, 10, 1e-3, 1e5, 64])
        p = []
        for a in sorted(self.r.uniform(0, 2 * math.pi) for _ in range(n)):
            d = self.r.uniform(0.2, 1) * s
            x, y = cx + d * math.cos(a), cy + d * math.sin(a)
            if self.r.random() < 0.3:
                x, y = round(x * 4) / 4, round(y * 4) / 4
            p.append((x + 0.0, y + 0.0))
        return p

    def comb(self):
        """Equal heights and reflex corners."""
        w = self.r.randint(1, 4) * self.r.choice([1.0, 0.5, 0.1])
        x = w * 4
        p = [(0.0, 0.0), (x, 0.0)]
        for _ in range(self.r.randint(0, 3)):
            y = self.r.randint(1, 4) * self.r.choice([1.0, 0.25])
            p.append((x, y))
            x -= w
            p += [(x, y), (x, y / 2)] if self.r.random() < 0.5 else [(x, y)]
        return p + [(x, self.r.randint(1, 5) * 1.0), (0.0, self.r.randint(1, 5) * 1.0)]

    def polygon(self):
        n = self.r.choice([0, 1, 2, 3, 3, 3, 4, 4, 4, 4, 5, 5, 6, 7, 8, 9, 12, 20])
        if self.r.random() < 0.02:
            n = self.r.randint(20, 256)
        shape = self.r.random()
        if shape < 0.4:
            k = self.r.choice([self.kind(), self.zeros])
            p = [(k(), k()) for _ in range(n)]
        elif shape < 0.8 and n >= 3:
            p = self.star(n)
        else:
            p = self.comb()
        if self.r.random() < 0.05:
            s = math.ldexp(1.0, self.r.randint(-1000, 900))
            p = [self.finite((x * s, y * s), (0.0, 1.0)) for x, y in p]
        if self.r.random() < 0.5:
            p = p[::-1]
        if p and self.r.random() < 0.3:
            k = self.r.randrange(len(p))
            p = p[k:] + p[:k]
        if p and self.r.random() < 0.08:
            p.insert(self.r.randrange(len(p) + 1), self.r.choice(p))
        if p and self.r.random() < 0.01:
            p[self.r.randrange(len(p))] = (self.special(), self.special())
        return p

    def point_by(self, p):
        """On, beside or well away from an edge or a corner; often where the polygon turns."""
        if not p or self.r.random() < 0.05:
            k = self.r.choice([self.kind(), self.zeros])
            return (k(), k())
        k = self.r.randrange(len(p))
        a, b, c = p[k], p[(k + 1) % len(p)], p[k - 1]
        t = self.r.choice([0, 0, 0.5, 0.5, 0.25, self.r.random(), 1.5, -0.5])
        q = (a[0] + t * (b[0] - a[0]), a[1] + t * (b[1] - a[1]))
        m = self.r.random()
        if m < 0.3:
            q = self.near(q, self.r.choice([1e-3, 1e-9, 1e-15, 1e-17, 0.1]))
        elif m < 0.55:
            q = tuple(a[i] + self.r.uniform(-0.2, 0.2) * ((b[i] - a[i]) + (c[i] - a[i])) for i in (0, 1))
        elif m < 0.7:
            q = tuple(sum(v[i] for v in p) / len(p) for i in (0, 1))
        elif m < 0.8:
            q = tuple(min(v[i] for v in p) + self.r.random() * (max(v[i] for v in p) - min(v[i] for v in p)) for i in (0, 1))
        elif m < 0.81:
            q = (self.special(), self.special())
            return q
        return self.finite(q, (0.0, 1.0))

    def inner(self):
        return line('inner', *[c for q in self.polygon() for c in q])

    def inside(self):
        p = self.polygon()
        return line('inside', *[c for q in [self.point_by(p)] + p for c in q])

    # ---- orient

    def orient(self):
        k = self.r.choice([self.kind(), self.kind(), self.zeros])
        a, b, c = (k(), k()), (k(), k()), (k(), k())
        if self.r.random() < 0.5:
            t = self.r.choice([0.5, 0.25, 2, -1, self.r.random()])
            c = self.finite((a[0] + t * (b[0] - a[0]), a[1] + t * (b[1] - a[1])), a)
            c = (self.nudged(c[0]), self.nudged(c[1]))
        if self.r.random() < 0.1:
            k = self.kind()
            c = (k(), k())
        v = [*a, *b, *c]
        if self.r.random() < 0.01:
            v[self.r.randrange(6)] = self.special()
        return line('orient', *v)

    # ---- around

    def direction(self, k):
        m = self.r.random()
        if m < 0.5:
            return (k(), k())
        if m < 0.75:
            return self.r.choice([(1.0, 0.0), (0.0, 1.0), (-1.0, 0.0), (0.0, -1.0), (0.0, 0.0), (1.0, 1.0), (-2.0, 0.0), (3.0, 0.0)])
        return self.r.choice([(-1.0, self.subnormal()), (1.0, self.subnormal()), (self.subnormal(), -1.0), (k(), self.tiny())])

    def around(self):
        k = self.r.choice([self.kind(), self.kind(), self.small])
        p = self.r.choice([(0.0, 0.0), (0.0, 0.0), (k(), k())])
        d = []
        for _ in range(self.r.choice([0, 1, 2, 2, 3, 3, 4, 4, 5, 6, 8, 12] + [40] * (self.r.random() < 0.1))):
            if d and self.r.random() < 0.4:
                x, y = self.r.choice(d)
                s = self.r.choice([1.0, 2.0, 0.5, -1.0, 3.0, 0.1])
                d.append((self.nudged(x * s, 2), self.nudged(y * s, 2)))
            else:
                d.append(self.direction(k))
        q = [(p[0] + x, p[1] + y) for x, y in d]
        if self.r.random() < 0.01:
            q = [(x, y) if self.r.random() < 0.5 else (self.special(), self.special()) for x, y in q]
        else:
            q = [(x + 0.0, y + 0.0) for x, y in q if math.isfinite(x - p[0]) and math.isfinite(y - p[1])]
        return line('around', *[c for v in [(p[0] + 0.0, p[1] + 0.0)] + q for c in v])

    def made(self, count):
        ways = [self.meet, self.inner, self.inside, self.orient, self.around]
        return [self.r.choices(ways, [8, 4, 6, 4, 3])[0]() for _ in range(count)]
