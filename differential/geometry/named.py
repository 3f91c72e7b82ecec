"""Lines made on purpose: document 01's samples, and cases that made ones rarely reach. (what it shows, line)"""
import math

from lines import line

E = 2.0 ** -46     # eps of two segments whose largest component is 1
UP, DOWN = math.nextafter(E, 1), math.nextafter(E, 0)
H = 2.0 ** -23     # its root
LEAST = 5e-324
SQUARE = (0, 0, 2, 0, 2, 2, 0, 2)
DENT = (0, 0, 4, 0, 4, 4, 2, 1, 0, 4)          # reflex corner at (2,1)
HOOK = (0, 0, 3, 0, 3, 3, 2, 3, 2, 1, 0, 1)    # reflex corner at (2,1), a right angle


def turned(p):
    """The same corners the other way round."""
    q = list(zip(p[0::2], p[1::2]))[::-1]
    return tuple(c for v in q for c in v)


def meets():
    s = (0, 0, 1, 0)
    yield 'K2', (0, 0, 2, 0, 1, 3, 1, -1)
    yield 'K3', (0, 0, 2, 0, 1, 0, 3, 0)
    yield 'K4', (0, 0, 1, 0, 1, 0, 2, 0)
    yield 'K5', (1, 0, 2, 0, 0, 0, 1, 0)
    yield 'K6', (3, 4, 3, 4, 3, 4, 3, 4)
    yield 'K6, apart', (0, 0, 0, 0, 3, 4, 3, 4)
    yield 'K7', (0, 0, 2, 0, 1, 0, 1, 2)
    yield '|cross31| = eps exactly: colinear', (*s, 0.5, E, 1.5, E)
    yield '|cross31| = eps exactly, below', (*s, 0.5, -E, 1.5, -E)
    yield '|cross31| = eps exactly, upright', (0, 0, 0, 1, E, 0.25, E, 0.75)
    yield '|cross31| one step above eps: none', (*s, 0.5, UP, 1.5, UP)
    yield '|cross31| one step below eps: colinear', (*s, 0.5, DOWN, 1.5, DOWN)
    yield '|cross12| = eps exactly: not colinear', (*s, 0, 0, 1, E)
    yield '|cross12| = eps exactly: a new point', (*s, 0, -E / 2, 1, E / 2)
    yield '|cross12| one step below eps: colinear', (*s, 0, 0, 1, DOWN)
    yield 'a squared length of eps exactly counts', (*s, 0.5, 0, 0.5 + H, 0)
    yield 'a squared length below eps: none', (*s, 0.5, 0, 0.5 + math.nextafter(H, 0) - 2.0 ** -53, 0)
    yield 'a squared distance of eps exactly: a new point', (*s, H, -0.5, H, 0.5)
    yield 'a squared distance below eps: P1', (*s, math.nextafter(H, 0), -0.5, math.nextafter(H, 0), 0.5)
    yield 'equal parameters: P1 P3 equal, P2 P4 equal', (0, 0, 2, 0, 0, 0, 2, 0)
    yield 'equal parameters: the other way round', (0, 0, 2, 0, 2, 0, 0, 0)
    yield 'equal parameters: P1 = P3', (0, 0, 2, 0, 0, 0, 3, 0)
    yield 'equal parameters: P1 = P4', (0, 0, 2, 0, 3, 0, 0, 0)
    yield 'equal parameters: P2 = P3', (0, 0, 2, 0, 2, 0, -1, 0)
    yield 'equal parameters: P2 = P4', (0, 0, 2, 0, -1, 0, 2, 0)
    yield 'equal parameters: P1 = P3, beyond', (0, 0, 2, 0, 0, 0, -3, 0)
    yield 'equal parameters: P2 = P3, beyond', (0, 0, 2, 0, 2, 0, 3, 0)
    yield 'equal parameters on a slope', (0, 0, 2, 2, 2, 2, 0, 0)
    yield 'equal components: by y', (0, 0, 1, 1, 0.5, 0.5, 3, 3)
    yield 'P1 a b P2', (0, 0, 4, 0, 1, 0, 3, 0)
    yield 'P1 a b P2, turned', (0, 0, 4, 0, 3, 0, 1, 0)
    yield '_ P1 P2 _', (1, 0, 2, 0, 0, 0, 4, 0)
    yield '_ P1 P2 _, falling', (0, 2, 0, 1, 0, 4, 0, 0)
    yield 'minus zero', (-0.0, -0.0, 2, -0.0, 1, -0.0, 1, 2)
    yield 'minus zero: the new point has plus zero', (-0.0, -1, -0.0, 1, -1, -0.0, 1, -0.0)
    yield 'minus zero, colinear', (-0.0, 0, 2, -0.0, 1, 0, 3, -0.0)
    yield 't = 0 and u = 1', (0, 0, 2, 0, 0, 2, 0, 0)
    yield 'near both of P1 and P3: P1', (0, 0, 2, 0, 1e-9, 0, 1, 2)
    yield 'parallel, apart', (0, 0, 2, 0, 0, 1, 2, 1)
    yield 'eps is 0: nothing is colinear', (0, 0, 2.0 ** -520, 0, 0, 0, 2.0 ** -521, 0)
    yield 'subnormal', (0, 0, LEAST, 0, 0, 0, 0, LEAST)
    yield 'overflow: scale squared is infinite', (0, 0, 1e200, 0, 5e199, -1e200, 5e199, 1e200)
    yield 'not a number', (0, 0, math.nan, 0, 1, 3, 1, -1)
    yield 'infinite', (0, 0, math.inf, 0, 1, 3, 1, -1)


def polygons():
    yield 'K9', (0, 2, 0, 0, 1, 0, 1, 2)
    yield 'K9 the other way round', turned((0, 2, 0, 0, 1, 0, 1, 2))
    yield 'under 3 points', (0, 0, 1, 1)
    yield 'no points', ()
    yield 'flat', (0, 0, 1, 0, 2, 0)
    yield 'double area of 1e-30', (0, 0, 1e-15, 0, 0, 1e-15)
    yield 'double area below 1e-30', (0, 0, math.nextafter(1e-15, 0), 0, 0, 1e-15)
    yield 'minus zero heights', (0, -0.0, 1, 0, 1, 1, 0, 1)
    yield 'minus zero first', (0, 0, 1, -0.0, 1, 1, 0, 1)
    yield 'equal gaps: the lowest', (0, 0, 1, 0, 1, 1, 2, 1, 2, 2, 0, 2)
    yield 'four crossings: the two lowest', (0, 0, 5, 0, 5, 4, 4, 4, 4, 1, 1, 1, 1, 4, 0, 4)
    yield 'dent', DENT
    yield 'hook', HOOK
    yield 'crossing itself', (0, 0, 2, 2, 2, 0, 0, 1)
    yield 'a corner twice', (0, 0, 0, 0, 2, 0, 1, 2)
    yield 'a corner at infinity', (0, 0, math.inf, 1, 0, 2)
    yield 'a height that is not a number', (0, 0, 1, math.nan, 0, 2)


def insides():
    for what, p in (('dent', DENT), ('dent, turned', turned(DENT))):
        yield what + ': reflex corner, inside by one edge', (2.25, 0.75, *p)
        yield what + ': reflex corner, inside by the other edge', (1.75, 0.75, *p)
        yield what + ': reflex corner, inside by both', (2, 0.75, *p)
        yield what + ': reflex corner, outside', (2, 1.25, *p)
        yield what + ': the reflex corner itself', (2, 1, *p)
    for what, p in (('hook', HOOK), ('hook, turned', turned(HOOK))):
        yield what + ': reflex corner, signs unlike', (2.25, 0.75, *p)
        yield what + ': level with one edge', (2.25, 1, *p)
        yield what + ': level with the other edge', (2, 0.75, *p)
        yield what + ': outside by both', (1.75, 1.25, *p)
    yield 'convex corner: outside both edges', (-0.5, -0.5, *SQUARE)
    yield 'convex corner: outside one edge', (-0.5, 0, *SQUARE)
    yield 'a corner', (0, 0, *SQUARE)
    yield 'minus zero corner', (-0.0, -0.0, *SQUARE)
    yield 'on an edge', (1, 0, *SQUARE)
    yield 'a step inside an edge', (1, LEAST, *SQUARE)
    yield 'a step outside an edge', (1, -LEAST, *SQUARE)
    yield 'middle: edges equally close', (1, 1, *SQUARE)
    yield 'middle, turned', (1, 1, *turned(SQUARE))
    yield 'an area of -2^-1074 halves to -0: nothing is turned', (2.0 ** -539, 2.0 ** -539, 0, 0, 0, 2.0 ** -537, 2.0 ** -537, 0)
    yield 'an area of -2^-1073: turned', (2.0 ** -539, 2.0 ** -539, 0, 0, 0, 2.0 ** -536, 2.0 ** -537, 0)
    yield 'under 3 points', (0, 0, 1, 1, 2, 2)
    yield 'a distance that is not a number is skipped', (1, 1, 0, 0, 0, 0, 2, 0, 1, 3)
    yield 'no distance: corner 0', (1, 1, 1, 1, 1, 1, 1, 1)
    yield 'an edge of no length', (1, 0.5, 0, 0, 2, 0, 2, 0, 1, 3)
    yield 'a point that is not a number', (math.nan, 1, *SQUARE)


def orients():
    yield 'left', (0, 0, 1, 0, 0, 1)
    yield 'right', (0, 0, 1, 0, 0, -1)
    yield 'on the line', (0, 0, 1, 1, 2, 2)
    yield 'one step off', (0, 0, 1, 1, 2, math.nextafter(2, 3))
    yield 'rounded products are equal', (0.1, 0.1, 0.3, 0.3, 0.7, math.nextafter(0.7, 1))
    yield 'products underflow', (0, 0, LEAST, 0, 0, LEAST)
    yield 'products underflow, right', (0, 0, 0, LEAST, LEAST, 0)
    yield 'far exponents', (2.0 ** 40, 2.0 ** 40, -2.0 ** 40, -2.0 ** 40, LEAST, 0)
    yield 'the largest', (1.7e308, 1.7e308, -1.7e308, -1.7e308, LEAST, 0)
    yield 'minus zero', (-0.0, -0.0, 1, -0.0, 2, 0)


def arounds():
    yield 'K8', (0, 0, -1, 0, 0, 1, 1, 0, 0, -1)
    yield 'K8 turned', (0, 0, 0, -1, 1, 0, 0, 1, -1, 0)
    yield 'a zero direction counts as east', (1, 1, 2, 1, 1, 1, 3, 1, 1, 2)
    yield 'equal directions stay', (0, 0, 2, 2, 1, 1, 3, 3, -1, -1, -2, -2)
    yield 'just above west: its angle rounds to 180 degrees', (0, 0, -1, 1e-20, -1, 0)
    yield 'just below west: last', (0, 0, -1, -1e-20, -1, 0, 0, -1)
    yield 'angles round to one', (0, 0, 1.25, LEAST, 1, LEAST, 1, 0)
    yield 'unlike directions with one angle', (0, 0, 3, math.nextafter(1, 0), 3, 1, 3, math.nextafter(1, 2))
    yield 'no neighbours', (0, 0)


def named():
    for word, group in (('meet', meets), ('inner', polygons), ('inside', insides), ('orient', orients), ('around', arounds)):
        for what, v in group():
            yield what, line(word, *v)
