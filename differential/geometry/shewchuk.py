"""Shewchuk's adaptive orient2d, transcribed from his paper, with floats that underflow: what stands behind the published Rust's
`robust`, which the oracle replaces by an exact sign. So the fourth cause of difference can be seen at all."""
EPSILON = 2.0 ** -53
SPLITTER = 2.0 ** 27 + 1
RESULT = (3 + 8 * EPSILON) * EPSILON
BOUND_A = (3 + 16 * EPSILON) * EPSILON
BOUND_B = (2 + 12 * EPSILON) * EPSILON
BOUND_C = (9 + 64 * EPSILON) * EPSILON * EPSILON


def fast_two_sum(a, b):
    x = a + b
    return x, b - (x - a)


def two_sum(a, b):
    x = a + b
    v = x - a
    return x, (a - (x - v)) + (b - v)


def tail_of_difference(a, b, x):
    v = a - x
    return (a - (x + v)) + (v - b)


def two_diff(a, b):
    x = a - b
    return x, tail_of_difference(a, b, x)


def split(a):
    c = SPLITTER * a
    high = c - (c - a)
    return high, a - high


def two_product(a, b):
    x = a * b
    ah, al = split(a)
    bh, bl = split(b)
    return x, al * bl - (((x - ah * bh) - al * bh) - ah * bl)


def two_two_diff(a1, a0, b1, b0):
    """a1 + a0 - b1 - b0 as four parts, the least first."""
    i, x0 = two_diff(a0, b0)
    j, z = two_sum(a1, i)
    i, x1 = two_diff(z, b1)
    x3, x2 = two_sum(j, i)
    return [x0, x1, x2, x3]


def added(e, f):
    """The sum of two expansions, zeros left out."""
    h = []
    parts = []
    i = j = 0
    while i < len(e) or j < len(f):
        if j == len(f) or (i < len(e) and (f[j] > e[i]) == (f[j] > -e[i])):
            parts.append(e[i])
            i += 1
        else:
            parts.append(f[j])
            j += 1
    q = parts[0]
    for k, p in enumerate(parts[1:]):
        q, low = fast_two_sum(p, q) if k == 0 else two_sum(q, p)
        if low != 0:
            h.append(low)
    if q != 0 or not h:
        h.append(q)
    return h


def adapted(ax, ay, bx, by, cx, cy, total):
    acx, bcx, acy, bcy = ax - cx, bx - cx, ay - cy, by - cy
    b = two_two_diff(*two_product(acx, bcy), *two_product(acy, bcx))
    det = b[0] + b[1] + b[2] + b[3]
    if abs(det) >= BOUND_B * total:
        return det
    acxt, bcxt = tail_of_difference(ax, cx, acx), tail_of_difference(bx, cx, bcx)
    acyt, bcyt = tail_of_difference(ay, cy, acy), tail_of_difference(by, cy, bcy)
    if acxt == 0 and acyt == 0 and bcxt == 0 and bcyt == 0:
        return det
    bound = BOUND_C * total + RESULT * abs(det)
    det += (acx * bcyt + bcy * acxt) - (acy * bcxt + bcx * acyt)
    if abs(det) >= bound:
        return det
    c = added(b, two_two_diff(*two_product(acxt, bcy), *two_product(acyt, bcx)))
    c = added(c, two_two_diff(*two_product(acx, bcyt), *two_product(acy, bcxt)))
    return added(c, two_two_diff(*two_product(acxt, bcyt), *two_product(acyt, bcxt)))[-1]


def orient2d(ax, ay, bx, by, cx, cy):
    left, right = (ax - cx) * (by - cy), (ay - cy) * (bx - cx)
    det = left - right
    if left > 0:
        if right <= 0:
            return det
        total = left + right
    elif left < 0:
        if right >= 0:
            return det
        total = -left - right
    else:
        return det
    if abs(det) >= BOUND_A * total:
        return det
    return adapted(ax, ay, bx, by, cx, cy, total)
