"""Shuffle and stuffle by their letter recursion, and the regularisation of the shuffle.

A product of two words is a dictionary from words to the number of their places, so a sum over the integers; `modulo`
makes a sum of residues of it.
"""
from functools import lru_cache


def modulo(m, counts):
    """The sum with its numbers taken modulo m, without zeros."""
    return {word: n % m for word, n in counts.items() if n % m}


def add_to(total, times, other):
    """Adds a multiple of a sum to a sum over the integers."""
    for word, n in other.items():
        total[word] = total.get(word, 0) + times * n


@lru_cache(maxsize=1 << 15)
def shuffle(u, v):
    """sh(a u, b v) = a sh(u, b v) + b sh(a u, v)."""
    if not u or not v:
        return {u + v: 1}
    total = {}
    add_to(total, 1, {u[0] + word: n for word, n in shuffle(u[1:], v).items()})
    add_to(total, 1, {v[0] + word: n for word, n in shuffle(u, v[1:]).items()})
    return total


@lru_cache(maxsize=1 << 15)
def stuffle(u, v):
    """st(z_k u, z_l v) = z_k st(u, z_l v) + z_l st(z_k u, v) + z_(k+l) st(u, v), for words that are empty or end with y."""
    if not u or not v:
        return {u + v: 1}
    k, l = u.index("y") + 1, v.index("y") + 1
    total = {}
    add_to(total, 1, {u[:k] + word: n for word, n in stuffle(u[k:], v).items()})
    add_to(total, 1, {v[:l] + word: n for word, n in stuffle(u, v[l:]).items()})
    joined = "x" * (k + l - 1) + "y"
    add_to(total, 1, {joined + word: n for word, n in stuffle(u[k:], v[l:]).items()})
    return total


def regularised(total):
    """reg(1) = 1, reg(y^j) = 0, reg(y^j x u) = (-1)^j x sh(y^j, u), continued linearly to a sum."""
    result = {}
    for word, n in total.items():
        behind = word.lstrip("y")
        j = len(word) - len(behind)
        if behind:
            add_to(result, (-1) ** j * n, {"x" + w: c for w, c in shuffle("y" * j, behind[1:]).items()})
        elif j == 0:
            add_to(result, n, {"": 1})
    return result
