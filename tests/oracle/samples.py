"""Lines that are made from a seed, by a generator of numbers modulo 65537, and what is counted of their replies."""
from .words import text

STATES = 65537


class Draws:
    """Numbers that are drawn one after the other."""

    def __init__(self, seed):
        self.state = seed % STATES

    def draw(self, n):
        """A number below n."""
        self.state = (75 * self.state + 74) % STATES
        return self.state % n


def sample_lines(words, seed, count):
    """So many lines over some words: of one to four terms, each with a coefficient from 1 to 9."""
    draws, lines = Draws(seed), []
    for _ in range(count):
        terms = []
        for _ in range(1 + draws.draw(4)):
            coefficient = 1 + draws.draw(9)
            terms.append("%d*%s" % (coefficient, text(words[draws.draw(len(words))])))
        lines.append("+".join(terms).encode())
    return lines


def terms_in(reply):
    """How many terms the text of a polynomial has."""
    return 0 if reply == b"0" else 1 + reply.count(b"+")


def sample_line(rows, columns, replies):
    """What `sample` prints, without the byte 10."""
    return "rows %d, columns %d, lines %d, zero %d, distinct %d, terms %d" % (
        rows, columns, len(replies), replies.count(b"0"), len(set(replies)), sum(map(terms_in, replies)))
