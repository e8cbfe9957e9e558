"""Words in the letters x and y, their indices, texts and duals.

Python's order of strings is the order of words: x is less than y, and a proper prefix is less than the longer word.
"""
from functools import lru_cache
from itertools import combinations

MAX_WEIGHT = 24
EXCHANGE = str.maketrans("xy", "yx")


def depth(word):
    """The number of letters y."""
    return word.count("y")


def is_admissible(word):
    """Whether the word begins with x and ends with y."""
    return word[:1] == "x" and word[-1:] == "y"


def word_of(index):
    """The word of an index: each number k is k - 1 letters x and one y."""
    return "".join("x" * (k - 1) + "y" for k in index)


def index_of(word):
    """The index of a word that is empty or ends with y."""
    return [len(piece) + 1 for piece in word.split("y")[:-1]]


def text(word):
    """`z(3,1)` for the word xxyy."""
    return "z(%s)" % ",".join(map(str, index_of(word)))


def dual(word):
    """The word read backwards, with x and y exchanged."""
    return word[::-1].translate(EXCHANGE)


def representative(word):
    """The lesser of a word and its dual."""
    return min(word, dual(word))


@lru_cache(maxsize=512)
def admissible_words(weight, most):
    """All admissible words of a weight and of at most a depth, increasing."""
    found = []
    for r in range(1, min(most, weight - 1) + 1):
        for places in combinations(range(1, weight - 1), r - 1):
            letters = ["x"] * weight
            for place in places + (weight - 1,):
                letters[place] = "y"
            found.append("".join(letters))
    return tuple(sorted(found))
