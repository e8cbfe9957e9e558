"""Lines of the whole grammar as expressions, and what they mean over a table."""
import re
from math import gcd
from typing import List, NamedTuple, Tuple, Union

from .algebra import add_to, modulo, regularised, shuffle
from .grammars import WHOLE, Refused, check_syntax
from .words import word_of


class Number(NamedTuple):
    """A number, or one over another; the number below is 1 where none is written."""
    top: int
    bottom: int


class Zeta(NamedTuple):
    """An index to a power, which is 1 where none is written."""
    index: Tuple[int, ...]
    power: int


class Term(NamedTuple):
    """1 or -1, and the factors as they are written."""
    sign: int
    factors: List[Union[Number, Zeta]]


def factor_of(piece):
    """The factor that some bytes without blanks write."""
    if piece[:1] != b"z":
        top, _, bottom = piece.partition(b"/")
        return Number(int(top), int(bottom or b"1"))
    index, _, power = piece[2:].partition(b")")
    return Zeta(tuple(map(int, index.split(b","))), int(power[1:] or b"1"))


def read(line):
    """The terms of a line of the grammar. Blanks stand between tokens alone, and no two runs of digits follow each other."""
    check_syntax(WHOLE, line)
    pieces = re.findall(rb"([+-]?)([^+-]+)", re.sub(rb"[ \t\r]", b"", line))
    return [Term(-1 if sign == b"-" else 1, [factor_of(piece) for piece in factors.split(b"*")]) for sign, factors in pieces]


def zetas(term):
    """The zetas of a term."""
    return [factor for factor in term.factors if isinstance(factor, Zeta)]


def numbers(term):
    """The numbers of a term."""
    return [factor for factor in term.factors if isinstance(factor, Number)]


def check_bottoms(m, terms):
    """Refuses the first number below `/` that has no inverse."""
    for number in (number for term in terms for number in numbers(term)):
        if gcd(number.bottom, m) != 1:
            raise Refused(b"no inverse %d" % number.bottom)


def residue(m, term):
    """The product of the numbers of a term, with its sign."""
    product = term.sign
    for number in numbers(term):
        product = product * number.top * pow(number.bottom, -1, m) % m
    return product % m


def weight(term):
    """The weight of a term as it is written."""
    return sum(zeta.power * sum(zeta.index) for zeta in zetas(term))


def depth(term):
    """The depth of a term as it is written."""
    return sum(zeta.power * len(zeta.index) for zeta in zetas(term))


def product(term):
    """The shuffle product of the regularised words of a term's zetas, over the integers."""
    total = {"": 1}
    for zeta in zetas(term):
        for _ in range(zeta.power):
            longer = {}
            for u, n in regularised({word_of(zeta.index): 1}).items():
                for v, k in total.items():
                    add_to(longer, n * k, shuffle(u, v))
            total = longer
    return total


def meaning(m, table_weight, most, line):
    """The sum of words, modulo m, that a line means over a table of a weight and of at most a depth."""
    terms = read(line)
    check_bottoms(m, terms)
    tested = [term for term in terms if zetas(term) or residue(m, term)]
    for term in tested:
        if weight(term) != table_weight:
            raise Refused(b"weight %d" % weight(term))
    for term in tested:
        if depth(term) > most:
            raise Refused(b"depth %d" % depth(term))
    total = {}
    for term in tested:
        add_to(total, residue(m, term), product(term))
    return modulo(m, total)
