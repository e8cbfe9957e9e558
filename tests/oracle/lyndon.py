"""Lyndon factors, columns, and the rows of words over them.

A column is the word of a product of admissible Lyndon words, and a row a dictionary from the places of columns to residues.
"""
from collections import Counter
from math import factorial, gcd, prod

from .algebra import add_to, shuffle
from .words import admissible_words, depth, index_of

MODES = ("lex", "odd")


class NoInverse(Exception):
    """A word whose coefficient in the shuffle of its factors has no inverse: the coefficient and the word."""


def factors(word):
    """The Lyndon factors of a word, by Duval's algorithm."""
    found, i = [], 0
    while i < len(word):
        j, k = i + 1, i
        while j < len(word) and word[k] <= word[j]:
            k = i if word[k] < word[j] else k + 1
            j += 1
        while i <= k:
            found.append(word[i:i + j - k])
            i += j - k
    return found


def is_lyndon(word):
    """Whether the word is its one Lyndon factor."""
    return len(factors(word)) == 1


def rank(mode, preferred, word):
    """0 for a preferred word; else 1, and 1 more in the mode `odd` where not all numbers of the index are odd and at least 3."""
    if word in preferred:
        return 0
    return 1 + (mode == "odd" and any(k % 2 == 0 or k < 3 for k in index_of(word)))


def columns(weight, most, mode="lex", preferred=()):
    """The word of each column in lead order: fewer factors, then the greater sum of ranks, greater depth, greater factors."""
    words = sorted(admissible_words(weight, most), key=factors, reverse=True)
    ranks = {word: sum(rank(mode, preferred, factor) for factor in factors(word)) for word in words}
    return sorted(words, key=lambda word: (len(factors(word)), -ranks[word], -depth(word)))


def shuffled(words):
    """The shuffle of some words, a sum over the integers."""
    total = {"": 1}
    for word in reversed(words):
        more = {}
        for behind, n in total.items():
            add_to(more, n, shuffle(word, behind))
        total = more
    return total


def row_of(modulus, rows, total):
    """The row of a sum of words whose rows are known, as residues by columns."""
    row = Counter()
    for word, n in total.items():
        for column, residue in rows[word].items():
            row[column] += n * residue
    return {column: n % modulus for column, n in row.items() if n % modulus}


def rows_of_words(modulus, weight, most, mode="lex", preferred=()):
    """The row of each word. The greatest word of the shuffle of its factors is the word itself, so the others come before it."""
    places = {word: column for column, word in enumerate(columns(weight, most, mode, preferred))}
    rows = {}
    for word in admissible_words(weight, most):
        total = shuffled(factors(word))
        times = total.pop(word)
        assert times == prod(factorial(n) for n in Counter(factors(word)).values())
        if gcd(times, modulus) != 1:
            raise NoInverse(times % modulus, word)
        row = row_of(modulus, rows, {other: -n for other, n in total.items()})
        row[places[word]] = row.get(places[word], 0) + 1
        rows[word] = {column: residue * pow(times, -1, modulus) % modulus for column, residue in row.items()}
    return rows
