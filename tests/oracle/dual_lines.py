"""The lines that `dual` reads, and its replies."""
import re

from .grammars import SMALL, Refused, check_syntax
from .words import MAX_WEIGHT, representative, text, word_of

TOKEN = re.compile(rb"[0-9]+|[^ \t\r]")


def terms_of(line):
    """The terms of an accepted line, each a sign and an index."""
    check_syntax(SMALL, line)
    terms, sign, ones = [], 1, []
    for found in TOKEN.finditer(line):
        token = found.group()
        if token in b"+-":
            sign = -1 if token == b"-" else 1
        elif token == b"z":
            terms.append((sign, []))
        elif token.isdigit():
            index = terms[-1][1]
            if not index and token == b"1":
                ones.append(found.start())
            index.append(int(token))
    if ones:
        raise Refused(b"not admissible %d" % ones[0])
    for weight in (sum(index) for _, index in terms):
        if weight > MAX_WEIGHT:
            raise Refused(b"weight %d" % weight)
    return terms


def reply_of(m, line):
    """The reply of `dual` to a line, without the byte 10."""
    try:
        terms = terms_of(line)
    except Refused as refused:
        return refused.args[0]
    total = {}
    for sign, index in terms:
        word = representative(word_of(index))
        total[word] = (total.get(word, 0) + sign) % m
    words = sorted((word for word in total if total[word]), key=lambda word: (len(word), word))
    return "+".join("%d*%s" % (total[word], text(word)) for word in words).encode() or b"0"
