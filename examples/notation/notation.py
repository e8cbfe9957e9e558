#!/usr/bin/env python3
"""Turns lines and replies of mzv into the notation of another system, and back.

    examples/notation/notation.py to SYSTEM [turned] < LINES
    examples/notation/notation.py from SYSTEM [turned] < LINES

In `z(k1,..,kr)` of mzv n1 > .. > nr: the first number belongs to the greatest n, so that it is at least 2 where the sum converges. SYSTEM is

    gp         zetamult([2,1]), and zeta(3)        the same order
    form       z(2,1), a function of FORM          the same order, that of the data mine of Bluemlein, Broadhurst and Vermaseren
    ginac      zeta({2,1}), and zeta(3)            the same order
    sage       Multizeta(1,2), printed ζ(1,2)      turned round: n1 < .. < nr
    hyperint   zeta[1,2], in Maple                 turned round: n1 < .. < nr
    maple      MultiZeta(2,1), and Zeta(3)         the same order
    latex      \\zeta(2,1), read also \\zeta_{2,1}   whichever its author took; here the same

Of these gp and form are tried by tests/notations.py, of the others only the text. Two numbers tell which order a system takes: its value
for (2,1) is 1.2020569.., that of (3), where it has ours, and it finds that (1,2) diverges. Where the order of the table above is not the
system's, or a text has the other one, `turned` turns it round. What is no zeta stays, but for the signs that LaTeX writes otherwise.
Of what FORM prints the line breaks, the names and the semicolons go: each of its expressions is a line.
"""
import re
import sys

INDEX = r"\s*\d+(?:\s*,\s*\d+)*\s*"
OURS = re.compile(r"\bz\s*\((%s)\)" % INDEX)


class System:
    """How a system writes a zeta of one number and one of several, what it reads as one, and whether it turns the order round."""

    def __init__(self, one, several, read, turned=False):
        self.one, self.several, self.read, self.turned = one, several, re.compile(read % {"index": INDEX}), turned

    def written(self, numbers):
        """The text of a zeta."""
        return (self.one if len(numbers) == 1 else self.several) % ",".join(numbers)


SYSTEMS = {
    "gp": System("zetamult([%s])", "zetamult([%s])", r"\bzetamult\(\s*\[(?P<a>%(index)s)\]\s*\)|\bzeta\((?P<b>\s*\d+\s*)\)"),
    "form": System("z(%s)", "z(%s)", r"\bz\((?P<a>%(index)s)\)"),
    "ginac": System("zeta(%s)", "zeta({%s})", r"\bzeta\(\s*(?:lst\s*)?\{(?P<a>%(index)s)\}\s*\)|\bzeta\((?P<b>\s*\d+\s*)\)"),
    "sage": System("Multizeta(%s)", "Multizeta(%s)", r"(?:\bMultizeta|ζ)\((?P<a>%(index)s)\)", turned=True),
    "hyperint": System("zeta[%s]", "zeta[%s]", r"\bzeta\[(?P<a>%(index)s)\]", turned=True),
    "maple": System("Zeta(%s)", "MultiZeta(%s)", r"\b(?:Multi)?Zeta\((?P<a>%(index)s)\)"),
    "latex": System(r"\zeta(%s)", r"\zeta(%s)", r"\\zeta\s*(?:\((?P<a>%(index)s)\)|_\{(?P<b>%(index)s)\}|_(?P<c>\d))"),
}


def numbers_of(text, turned):
    """The numbers of an index, in their order or turned round."""
    numbers = [number.strip() for number in text.split(",")]
    return numbers[::-1] if turned else numbers


def to_latex(line):
    """Fractions, powers and products as LaTeX writes them."""
    line = re.sub(r"(\d+)/(\d+)", r"\\frac{\1}{\2}", line)
    line = re.sub(r"\^(\d+)", r"^{\1}", line)
    return re.sub(r"\*(?=\\zeta)", "", line).replace("*", r"\cdot ")


def from_latex(line):
    """Fractions, powers and products as a line of mzv has them; zetas are ours already."""
    line = re.sub(r"\\(?:left|right|,|;|!|:|quad|\[|\]|\\)|[$&~]", " ", line)
    line = re.sub(r"\\(?:cdot|times)", "*", line)
    line = re.sub(r"\\[dt]?frac\s*\{(\d+)\}\s*\{(\d+)\}", r"\1/\2", line)
    line = re.sub(r"\^\{(\d+)\}", r"^\1", line)
    return re.sub(r"(?<=[\d)])\s*(?=z\()", "*", line)


def form_lines(text):
    """The expressions that FORM prints, one a line, without their names."""
    text = re.sub(r"\\\n\s*", "", text)
    for expression in text.split(";")[:-1]:
        yield " ".join(expression.rpartition("=")[2].split())


def to_system(name, system, turned, text):
    """Our lines in a system's notation."""
    for line in text.splitlines():
        line = OURS.sub(lambda found: system.written(numbers_of(found.group(1), turned)), line)
        yield to_latex(line) if name == "latex" else line


def from_system(name, system, turned, text):
    """A system's lines in our notation."""
    for line in form_lines(text) if name == "form" else text.splitlines():
        index = lambda found: next(part for part in found.groups() if part is not None)
        line = system.read.sub(lambda found: "z(%s)" % ",".join(numbers_of(index(found), turned)), line)
        yield from_latex(line) if name == "latex" else line


def main():
    way, name, *more = sys.argv[1:]
    system = SYSTEMS[name]
    turned = system.turned != (more == ["turned"])
    for line in {"to": to_system, "from": from_system}[way](name, system, turned, sys.stdin.read()):
        print(line)


if __name__ == "__main__":
    if len(sys.argv) < 3 or sys.argv[1] not in ("to", "from") or sys.argv[2] not in SYSTEMS or sys.argv[3:] not in ([], ["turned"]):
        sys.exit(__doc__)
    main()
