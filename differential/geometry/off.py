"""How far a new point is off its subject edge, and how far it may be (document 02, W11), as crates/coordinates/specs/Booked.antt has it.

Nothing is rounded here but t, as the code rounds it. Coordinates and t are whole numbers of 2^-1074, distances of 2^-2148. A meeting is the
eight coordinates of P1 to P4; M is the largest size among those of P1 and P2."""
from model import number, quotient

# M × 2^-50 is eight times M × 2^-53, by which errors are told.
EIGHTHS = 8


def whole(x):
    """A finite float, in units of 2^-1074."""
    n, d = x.as_integer_ratio()
    return n << 1075 - d.bit_length()


def parameter(v):
    """t as computed."""
    x1, y1, x2, y2, x3, y3, x4, y4 = v
    ax, ay, bx, by, cx, cy = x2 - x1, y2 - y1, x4 - x3, y4 - y3, x3 - x1, y3 - y1
    return quotient(cx * by - cy * bx, ax * by - ay * bx)


def computed(v):
    """The new point as computed."""
    t = parameter(v)
    return v[0] + t * (v[2] - v[0]), v[1] + t * (v[3] - v[1])


def largest(v):
    """M, in units of 2^-1074."""
    return whole(max(map(abs, v[:4])))


def off_by(x, p, q, t):
    """How far x is from the exact p + t × (q − p)."""
    p = whole(p)
    return abs((whole(x) - p << 1074) - whole(t) * (whole(q) - p))


def half_a_step(k):
    """On the grid of 2^-k, or on none."""
    return 0 if k is None else 1 << 2147 - k


def allowance(k, m, eighths=EIGHTHS):
    """M × 2^-50 + 2^-1074, and on a grid half a step more; M in units of 2^-1074. With fewer eighths, that part of M × 2^-50."""
    return eighths * (m << 1021) + (1 << 1074) + half_a_step(k)


def offs(v, x, y):
    """How far off the new point (x, y) of a meeting is, the larger of both coordinates."""
    t = parameter(v)
    return max(off_by(x, v[0], v[2], t), off_by(y, v[1], v[3], t))


def selftest():
    """A sample of each sort is within the bound; a coordinate that is as little as possible beyond it is told, on either side, on a grid too."""
    import math
    told = 0
    for v in ([0., 0., 2., 2., 0., 2., 2., 0.], [1e6, 5e6, 1e6 + 3, 5e6 + 1, 1e6, 5e6 + .7, 1e6 + 3, 5e6 + .1], [-1., -.7, 1 + 2. ** -52, .7, -.1, .9, .3, -.9],
              [5e-324, 0., 0., 2. ** -500, -2. ** -501, 2. ** -502, 2. ** -501, 2. ** -502], [-2. ** 40, -3., 2. ** 40, 3., 7., -2. ** 39, 8., 2. ** 39]):
        m, t, point = largest(v), parameter(v), computed(v)
        assert 0 <= t <= 1 and offs(v, *point) <= allowance(None, m), v
        for k in None, 0, 10:
            may = allowance(k, m)
            for way in (0, 1):
                p, q = v[way], v[way + 2]
                exact = (whole(p) << 1074) + whole(t) * (whole(q) - whole(p))
                for side in (-1, 1):
                    x = float((exact + side * may) // (1 << 1074) / 2 ** 1074)
                    while abs((whole(x) << 1074) - exact) <= may:
                        x = math.nextafter(x, side * math.inf)
                    other = list(point)
                    other[way] = x
                    assert offs(v, *other) > may, (v, k, way, side)
                    told += 1
    assert number('3ff0000000000000') == 1 and whole(1.) == 1 << 1074 and whole(5e-324) == 1 and allowance(0, 0) == (1 << 1074) + (1 << 2147)
    print('off: 5 samples are within the bound, %d coordinates beyond it are told' % told)


if __name__ == '__main__':
    selftest()
