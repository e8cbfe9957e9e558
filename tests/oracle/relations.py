"""Names of relations, their values and texts, and the listing of a weight and depth.

A name is a tuple: ("Fin", u, v), ("Reg", m, v), ("Dual", u) or ("Prod", r, u).
"""
from functools import lru_cache

from .algebra import add_to, modulo, regularised, shuffle, stuffle
from .words import admissible_words, depth, dual, text


def depth_of_name(name):
    """The depth of a name."""
    kind = name[0]
    if kind == "Fin":
        return depth(name[1]) + depth(name[2])
    if kind == "Reg":
        return name[1] + depth(name[2])
    if kind == "Dual":
        return max(depth(name[1]), depth(dual(name[1])))
    return depth_of_name(name[1]) + depth(name[2])


@lru_cache(maxsize=128)
def direct(weight, most):
    """The names of a weight and of at most a depth that are no products: all Fin, all Reg, all Dual."""
    names = []
    for k in range(2, weight // 2 + 1):
        for u in admissible_words(k, most):
            for v in admissible_words(weight - k, most - depth(u)):
                if (k, u) <= (weight - k, v):
                    names.append(("Fin", u, v))
    for m in range(1, weight - 1):
        names += [("Reg", m, v) for v in admissible_words(weight - m, most - m)]
    for u in admissible_words(weight, most):
        if u < dual(u) and depth(dual(u)) <= most:
            names.append(("Dual", u))
    return tuple(names)


@lru_cache(maxsize=64)
def listing(weight, most):
    """All names of a weight and of at most a depth: the direct ones, and then the products of lower ones with words."""
    names = list(direct(weight, most))
    for k in range(3, weight - 1):
        for r in direct(k, most):
            names += [("Prod", r, u) for u in admissible_words(weight - k, most - depth_of_name(r))]
    return tuple(names)


def integer_value(name):
    """The value of a name, a sum over the integers."""
    kind, total = name[0], {}
    if kind == "Fin":
        add_to(total, 1, shuffle(name[1], name[2]))
        add_to(total, -1, stuffle(name[1], name[2]))
    elif kind == "Reg":
        total = regularised(stuffle("y" * name[1], name[2]))
    elif kind == "Dual":
        total = {name[1]: 1, dual(name[1]): -1}
    else:
        for word, n in integer_value(name[1]).items():
            add_to(total, n, shuffle(word, name[2]))
    return total


def value(m, name):
    """The value of a name, modulo m."""
    return modulo(m, integer_value(name))


def name_text(name):
    """The text of a name, as `Prod [Reg 1 z(2)] z(2)`."""
    kind = name[0]
    if kind == "Fin":
        return "Fin %s %s" % (text(name[1]), text(name[2]))
    if kind == "Reg":
        return "Reg %d %s" % (name[1], text(name[2]))
    if kind == "Dual":
        return "Dual %s" % text(name[1])
    return "Prod [%s] %s" % (name_text(name[1]), text(name[2]))
