#!/usr/bin/env python3
"""Prints replies of `mzv reduce` with fractions in place of residues.

    mzv reduce W D M ORDER | examples/fractions.py M

A residue is printed as the one reduced fraction a/b with 2 a a < M and 2 b b < M that stands for it, where there is one.
"""
import re
import sys
from math import gcd, isqrt

M = int(sys.argv[1])
MOST = isqrt((M - 1) // 2)


def fraction(residue):
    """Top and bottom of the small fraction for a residue, by the steps of Euclid's algorithm; None where there is none."""
    (r, s), (top, bottom) = (M, 0), (residue, 1)
    while top > MOST:
        (r, s), (top, bottom) = (top, bottom), (r % top, s - r // top * bottom)
    if bottom < 0:
        top, bottom = -top, -bottom
    return (top, bottom) if bottom <= MOST and gcd(bottom, M) == 1 and gcd(top, bottom) == 1 else None


def term(found):
    """The term of a reply, with its sign."""
    top, bottom = fraction(int(found.group(1))) or (int(found.group(1)), 1)
    return "%+d%s*" % (top, "" if bottom == 1 else "/%d" % bottom)


for line in sys.stdin:
    print(re.sub(r"(?:^|\+)([0-9]+)\*", term, line.rstrip("\n")).lstrip("+"))
