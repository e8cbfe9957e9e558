"""The small fractions that stand for residues, and the texts of rows with them."""
from math import gcd, isqrt


def fraction(modulus, residue):
    """Top and bottom of the one reduced fraction for a residue with 2 top top < M and 2 bottom bottom < M; None where there is none.

    The remainders of Euclid's algorithm on M and the residue are multiples of the residue modulo M: the first that is small enough is the
    top, and its multiplier the bottom.
    """
    most = isqrt((modulus - 1) // 2)
    (above, before), (top, bottom) = (modulus, 0), (residue, 1)
    while top > most:
        (above, before), (top, bottom) = (top, bottom), (above % top, before - above // top * bottom)
    if bottom < 0:
        top, bottom = -top, -bottom
    return (top, bottom) if bottom <= most and gcd(top, bottom) == 1 else None


def coefficient_text(modulus, residue):
    """A residue as its fraction, or as itself where it has none."""
    top, bottom = fraction(modulus, residue) or (residue, 1)
    return "%d" % top if bottom == 1 else "%d/%d" % (top, bottom)


def fractions_text(modulus, monomials, row):
    """The text of a row's polynomial with fractions."""
    terms = ("%s*%s" % (coefficient_text(modulus, residue), monomials[column]) for column, residue in sorted(row.items()))
    return "+".join(terms).replace("+-", "-") or "0"
