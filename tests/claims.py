#!/usr/bin/env python3
"""Looks whether each call and clause that the pages cite is there.

    tests/claims.py [FOLDER]

FOLDER, this repository where none is given, has the crates/ that are read. In the last cell of a row of docs/CLAIMS.md and of README.md's
table a word in backticks is a call, a type or a trait; behind a colon it is one of their methods or clauses. In docs/ANSWERS.md the
last cell has clauses of the calls in the first. The last line is 'N passed, M failed'.
"""
import os
import re
import sys

HERE = os.path.dirname(os.path.abspath(__file__))
sys.path.insert(0, HERE)
from contracts import WORD, contracts, libraries, read  # noqa: E402

ROOT = os.path.dirname(HERE)
CRATES = sys.argv[1] if len(sys.argv) > 1 else ROOT
TOKEN = re.compile(r"`([^`]*)`")


def calls():
    """Each public call as its type or trait, or None, and its name, with its clauses; equal names of several crates are put together."""
    found = {}
    for crate in libraries(CRATES):
        for _, owner, text in contracts(CRATES, crate):
            name = re.search(r"fn (%s)" % WORD, text).group(1)
            found.setdefault((owner, name), set()).update(re.findall(r"ensures\*? (%s) \{" % WORD, text))
    return found


def named(found, token):
    """The calls that a word names: a function, a method with its type, or all methods of a type or trait."""
    owner, _, name = token.rpartition("::")
    return {at for at in found if at == (owner or None, name) or (not owner and (at[0] == token or (at[0] is None and at[1] == token)))}


def faults(found, cell):
    """The words of a cell that name nothing."""
    for segment in cell.split(";"):
        scope = set()
        for depth, part in enumerate(re.split(r":(?=[^`]*(?:`[^`]*`[^`]*)*$)", segment)):
            here = set()
            for token in TOKEN.findall(part):
                if depth == 0:
                    names = named(found, token) or {at for at in found if at[1] == token and any(at[0] == other[0] for other in here)}
                else:
                    names = {at for at in scope if at[1] == token or token in found[at]}
                if not names:
                    yield token
                here |= names
            scope = here


def rows(page):
    """The cells of each row of a page's tables."""
    for line in read(os.path.join(ROOT, page)).split("\n"):
        if re.match(r"\| (?!---|claim|law|crate|call \|)", line):
            yield [cell.strip() for cell in line.strip("|").split(" | ")]


def cited():
    """Each page with the cells that it cites calls in."""
    yield "docs/CLAIMS.md", [cells[-1] for cells in rows("docs/CLAIMS.md")]
    yield "README.md", [cells[-1] for cells in rows("README.md") if len(cells) == 3]
    yield "docs/ANSWERS.md", [cells[0] + ": " + cells[-1] if "`" in cells[-1] else cells[0] for cells in rows("docs/ANSWERS.md")]


def main():
    found, passed, failed = calls(), 0, 0
    for page, cells in cited():
        for cell in cells:
            wrong = list(faults(found, cell))
            passed, failed = passed + (not wrong), failed + bool(wrong)
            for token in wrong:
                print("%s: `%s` is no call or clause, in: %s" % (page, token, cell))
    print("%d passed, %d failed" % (passed, failed))
    sys.exit(failed > 0)


if __name__ == "__main__":
    main()
