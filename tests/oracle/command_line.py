"""What the words of a command line ask for: a command with its parameters, or the first refusal."""
import re
from math import comb

from .lyndon import MODES, is_lyndon
from .words import depth, is_admissible, word_of

USAGE, PARAMS = 2, 3
MAX_COLUMNS, MAX_PREFERRED, MAX_COUNT, MAX_TERMS = 2048, 16, 100000, 10000
USAGE_LINE = (
    "usage: dual M; list W D; reduce W D M ORDER [PREF]; build FILE W D M ORDER [PREF]; resume FILE W D M ORDER [PREF]; check FILE; "
    "rewrite FILE; show FILE; sample W D M SEED COUNT; migrate FILE; rational FILE; probe N M")

# The forms of each command: an N is a number word, a W any word.
FORMS = {"dual": ["N"], "list": ["NN"], "reduce": ["NNNW", "NNNWW"], "build": ["WNNNW", "WNNNWW"], "resume": ["WNNNW", "WNNNWW"], "check": ["W"],
         "rewrite": ["W"], "show": ["W"], "migrate": ["W"], "sample": ["NNNNN"], "rational": ["W"], "probe": ["NN"]}
WORD_TEXT = re.compile(r"z\([1-9][0-9]{0,3}(,[1-9][0-9]{0,3})*\)")


class Refused(Exception):
    """What is asked for is not done: a status, and the line that is written."""


def number(word):
    """The value of a number word: ASCII digits whose value is below 2^64; None for any other word."""
    if not word or any(letter not in "0123456789" for letter in word):
        return None
    digits = word.lstrip("0") or "0"
    return int(digits) if len(digits) <= 20 and int(digits) < 1 << 64 else None


def column_count(weight, most):
    """The number of admissible words of a weight and of at most a depth."""
    return sum(comb(weight - 2, r - 1) for r in range(1, most + 1))


def test(holds, line):
    """Refuses a parameter whose test fails."""
    if not holds:
        raise Refused(PARAMS, "bad parameter: " + line)


def test_shape(weight, most):
    """The tests of a weight and a depth."""
    test(2 <= weight <= 24, "weight %d" % weight)
    test(1 <= most < weight, "depth %d" % most)


def test_modulus(modulus):
    """The test of a modulus."""
    test(3 <= modulus < 1 << 63, "modulus %d" % modulus)


def test_columns(weight, most):
    """The test of the number of columns, the last of a table's."""
    test(column_count(weight, most) <= MAX_COLUMNS, "columns %d" % column_count(weight, most))


def may_be_preferred(weight, most, before, word):
    """Whether a word may stand behind these as a preferred word of a table."""
    fits = len(before) < MAX_PREFERRED and len(word) <= weight and depth(word) <= most and is_admissible(word) and is_lyndon(word)
    return fits and all((len(other), other) < (len(word), word) for other in before[-1:])


def preferred_words(weight, most, given):
    """The words of a text of preferred words, which is cut at each `+`."""
    words = []
    for i, piece in enumerate(given.split("+")):
        index = [int(k) for k in piece[2:-1].split(",")] if WORD_TEXT.fullmatch(piece) else []
        word = word_of(index) if sum(index) <= weight else ""
        test(may_be_preferred(weight, most, words, word), "preferred %d" % i)
        words.append(word)
    return tuple(words)


def test_table(weight, most, modulus, mode, given=None):
    """The tests of a table's parameters in their order, and the parameters; there may be no text of preferred words."""
    test_shape(weight, most)
    test_modulus(modulus)
    test(weight < modulus, "weight %d not below modulus %d" % (weight, modulus))
    test(mode in MODES, "order")
    preferred = () if given is None else preferred_words(weight, most, given)
    test_columns(weight, most)
    return weight, most, modulus, mode, preferred


def are_text(words):
    """Whether all words are UTF-8; Python has the bytes of others as lone surrogates."""
    return not any("\udc80" <= letter <= "\udcff" for word in words for letter in word)


def fitting(words):
    """The name of the command that the words fit, and its values."""
    name, given = (words[0], words[1:]) if words and are_text(words) else ("", [])
    for form in FORMS.get(name, []):
        values = [number(word) if kind == "N" else word for kind, word in zip(form, given)]
        if len(given) == len(form) and None not in values:
            return name, values
    raise Refused(USAGE, USAGE_LINE)


def asked(words):
    """The name of the command that the words ask for, and its parameters."""
    name, values = fitting(words)
    if name == "dual":
        test_modulus(values[0])
    elif name == "list":
        test_shape(*values)
        test_columns(*values)
    elif name == "reduce":
        values = test_table(*values)
    elif name in ("build", "resume"):
        values = values[0], test_table(*values[1:])
    elif name == "sample":
        values = [test_table(*values[:3], "lex")] + values[3:]
        test(values[2] <= MAX_COUNT, "count %d" % values[2])
    elif name == "probe":
        test(1 <= values[0] <= MAX_TERMS, "terms %d" % values[0])
        test_modulus(values[1])
    return name, values
