"""Replies by truncated sums: each zeta is the sum of its inverse powers over decreasing numbers up to n, modulo m."""
from functools import lru_cache
from math import gcd

from .expressions import check_bottoms, read, residue, zetas
from .grammars import Refused


def first_without_inverse(m, n):
    """The least number from 1 to n that has no inverse, with its residue; None where each has one."""
    return next(((a % m, a) for a in range(1, n + 1) if gcd(a, m) != 1), None)


@lru_cache(maxsize=1 << 12)
def truncated_sum(m, n, index):
    """The sum over n >= n1 > .. > nr >= 1 of the products of the inverses of ni^ki, by the last number of the index first."""
    sums = [1] * (n + 1)
    for k in reversed(index):
        longer = [0]
        for a in range(1, n + 1):
            longer.append((longer[-1] + pow(a, -k, m) * sums[a - 1]) % m)
        sums = longer
    return sums[n] % m


def reply_of(m, n, line):
    """The reply of `probe` to a line, without the byte 10."""
    try:
        terms = read(line)
        check_bottoms(m, terms)
    except Refused as refused:
        return refused.args[0]
    total = 0
    for term in terms:
        value = residue(m, term)
        for zeta in zetas(term):
            value = value * pow(truncated_sum(m, n, zeta.index), zeta.power, m) % m
        total += value
    return b"%d" % (total % m)
