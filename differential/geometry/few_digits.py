#!/usr/bin/env python3
"""How far off p + t × (q − p) may be where floats have few binary digits: every p, q and t is tried, the larger size M of both from 1 to 2.

    python3 differential/geometry/few_digits.py [--digits N]

With n digits it prints the furthest, as so many M × 2^-n, for n from 3 to N (by default 5: some seconds; 6 takes a minute). Fails at 4 or more."""
import argparse
import sys


def rounded(x, n):
    """A whole number, to the nearest with n digits, of two the even one."""
    a = abs(x)
    drop = a.bit_length() - n
    if drop <= 0:
        return x
    q, r, half = a >> drop, a & (1 << drop) - 1, 1 << drop - 1
    a = q + (r > half or r == half and q & 1) << drop
    return a if x > 0 else -a


def floats(n, least, most):
    """Those with n digits from 2^least on and below 2^most, in units of 2^(least + 1 - n), which are whole."""
    return [m << e - least for e in range(least, most) for m in range(1 << n - 1, 1 << n)]


def furthest(n):
    """Of all cases with n digits: how many there are, and the largest distance in M × 2^-n."""
    least = {3: -7, 4: -7, 5: -6, 6: -5}.get(n, -3)
    sizes = floats(n, least, 1)
    one, unit = 1 << n - 1 - least, 1 << n + 6
    coords = [0] + sizes + [-x for x in sizes]
    parts = [0, unit] + floats(n, -7, 0)
    count, most = 0, 0.0
    for p in coords:
        for q in coords:
            m = max(abs(p), abs(q))
            if m >= one:
                v, start = rounded(q - p, n), p * unit
                off = max(abs(rounded(start + rounded(t * v, n), n) - start - t * (q - p)) for t in parts)
                count, most = count + len(parts), max(most, off * 2 ** n / (m * unit))
    return count, most


def main():
    p = argparse.ArgumentParser()
    p.add_argument('--digits', type=int, default=5)
    bad = False
    for n in range(3, p.parse_args().digits + 1):
        count, most = furthest(n)
        bad = bad or most >= 4
        print('%d digits: %d cases, the furthest %.5f × M × 2^-%d' % (n, count, most, n))
    return int(bad)


if __name__ == '__main__':
    sys.exit(main())
