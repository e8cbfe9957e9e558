"""The reduced rows of all listed relations of a weight and depth, and the reply to a line by them."""
from functools import lru_cache
from itertools import groupby
from math import gcd

from .expressions import meaning
from .grammars import Refused
from .lyndon import columns, factors, row_of, rows_of_words
from .relations import listing, value
from .words import text


class Broken(Exception):
    """A relation whose rest leads with a residue that has no inverse: the residue and the number of the relation."""


def add_scaled(m, row, times, other):
    """Adds a multiple of a row to a row."""
    for column, residue in other.items():
        row[column] = (row.get(column, 0) + times * residue) % m
        if not row[column]:
            del row[column]


def normal_form(m, reduced, row):
    """What a reduced list, as rows by their leads, leaves of a row. No lead is met by another row, so their order does not matter."""
    rest = dict(row)
    for lead in row:
        if lead in reduced:
            add_scaled(m, rest, -row[lead], reduced[lead])
    return rest


class Elimination:
    """Rows that are offered one after the other: the forward row of each that is accepted, and the reduced list with their span, by leads.

    Leads are looked for in the first columns alone; what stands behind them goes along.
    """

    def __init__(self, modulus, width):
        self.modulus, self.width, self.forward, self.reduced = modulus, width, {}, {}

    def offer(self, number, row):
        """Accepts a row that is not in the span of those before; the lead of its rest has to have an inverse."""
        rest = normal_form(self.modulus, self.reduced, row)
        lead = min(rest, default=self.width)
        if lead >= self.width:
            return
        if gcd(rest[lead], self.modulus) != 1:
            raise Broken(rest[lead], number)
        inverse = pow(rest[lead], -1, self.modulus)
        self.keep(number, {column: residue * inverse % self.modulus for column, residue in rest.items()})

    def keep(self, number, forward):
        """Keeps a forward row, which leads with 1 in a column where all before it are zero, and is zero where they lead."""
        lead = min(forward)
        for other in self.reduced.values():
            if lead in other:
                add_scaled(self.modulus, other, -other[lead], forward)
        self.reduced[lead], self.forward[number] = forward, dict(forward)


def monomial_text(word):
    """The Lyndon factors of a column's word, each once, with its power."""
    parts = ((text(factor), len(list(same))) for factor, same in groupby(factors(word)))
    return "*".join(part if power == 1 else "%s^%d" % (part, power) for part, power in parts)


def row_text(monomials, row):
    """The text of a row's polynomial."""
    return "+".join("%d*%s" % (residue, monomials[column]) for column, residue in sorted(row.items())) or "0"


class Table:
    """The columns and the row of each word, for one list of parameters."""

    def __init__(self, params):
        self.weight, self.most, self.modulus, mode, preferred = params
        self.rows_of_words = rows_of_words(self.modulus, self.weight, self.most, mode, preferred)
        self.monomials = [monomial_text(word) for word in columns(self.weight, self.most, mode, preferred)]

    def row(self, total):
        """The row of a sum of words of the table."""
        return row_of(self.modulus, self.rows_of_words, total)

    def relation_row(self, name):
        """The row of a relation's value."""
        return self.row(value(self.modulus, name))

    def reply(self, reduced, line, text_of=row_text):
        """The reply to a line by a reduced list, without the byte 10."""
        try:
            total = meaning(self.modulus, self.weight, self.most, line)
        except Refused as refused:
            return refused.args[0]
        return text_of(self.monomials, normal_form(self.modulus, reduced, self.row(total))).encode()


@lru_cache(maxsize=32)
def table(params):
    """The table of some parameters."""
    return Table(params)


@lru_cache(maxsize=32)
def reduced_rows(params):
    """The reduced list with the span of all listed relations, by leads."""
    made = table(params)
    work = Elimination(made.modulus, len(made.monomials))
    for number, name in enumerate(listing(made.weight, made.most)):
        work.offer(number, made.relation_row(name))
    return work.reduced
