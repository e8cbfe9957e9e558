#!/usr/bin/env python3
"""Prints the polynomials that replies over tables of several moduli agree on, with fractions in place of residues.

    examples/more_moduli.py M1 REPLIES1 M2 REPLIES2 ..

REPLIES1 has the replies of `mzv reduce` or `mzv rewrite` over a table modulo M1, REPLIES2 those to the same lines over the table modulo M2
with the same weight, depth and order, and so on; no two moduli have a common divisor. Residues are put together modulo the product M of all
of them, and printed as the one reduced fraction a/b with 2 a a < M and 2 b b < M, where there is one. A refusal is printed as it is.
"""
import sys
from math import gcd, isqrt, prod

MODULI = [int(word) for word in sys.argv[1::2]]
M = prod(MODULI)
MOST = isqrt((M - 1) // 2)


def fraction(residue):
    """Top and bottom of the small fraction for a residue, by the steps of Euclid's algorithm; the residue itself where there is none."""
    (r, s), (top, bottom) = (M, 0), (residue, 1)
    while top > MOST:
        (r, s), (top, bottom) = (top, bottom), (r % top, s - r // top * bottom)
    if bottom < 0:
        top, bottom = -top, -bottom
    return (top, bottom) if bottom <= MOST and gcd(bottom, M) == 1 and gcd(top, bottom) == 1 else (residue, 1)


def polynomial(reply):
    """The residues of a reply by their monomials."""
    terms = (term.partition("*") for term in reply.split("+"))
    return {monomial: int(residue) for residue, _, monomial in terms if monomial}


def together(residues):
    """The residue modulo M that has these residues modulo the moduli."""
    return sum(residue * (M // m) * pow(M // m, -1, m) for residue, m in zip(residues, MODULI)) % M


def text(replies):
    """The text of one polynomial that has these texts modulo the moduli."""
    if not replies[0][:1].isdigit():
        return replies[0]
    rows = [polynomial(reply) for reply in replies]
    terms = []
    for monomial in dict.fromkeys(monomial for row in rows for monomial in row):
        top, bottom = fraction(together([row.get(monomial, 0) for row in rows]))
        terms.append("%+d%s*%s" % (top, "" if bottom == 1 else "/%d" % bottom, monomial))
    return "".join(terms).lstrip("+") or "0"


for replies in zip(*(open(name).read().splitlines() for name in sys.argv[2::2])):
    print(text(replies))
