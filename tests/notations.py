#!/usr/bin/env python3
"""Tries examples/notation/notation.py: its texts both ways, and with PARI/GP and FORM, where they are there, what they make of them.

    tests/notations.py PATH_TO_MZV

PARI/GP computes the values of lines and of the polynomials that mzv replies with, in digits: they have to be one, which also shows that it
takes the numbers of a zeta in our order. FORM puts lines into its own order: mzv has to reply to what it prints as to the line. Of the
other systems only the text is tried. The last line is 'N passed, M failed'.
"""
import os
import shutil
import subprocess
import sys
import tempfile

ROOT = os.path.dirname(os.path.dirname(os.path.abspath(__file__)))
NOTATION = os.path.join(ROOT, "examples", "notation", "notation.py")
PRIME = "2305843009213693951"

OURS = "-11/2*z(5)+3*z(2)*z(3)-z(2)^2*z(4,1)+z(2,1,3)"
THEIRS = {
    "gp": "-11/2*zetamult([5])+3*zetamult([2])*zetamult([3])-zetamult([2])^2*zetamult([4,1])+zetamult([2,1,3])",
    "ginac": "-11/2*zeta(5)+3*zeta(2)*zeta(3)-zeta(2)^2*zeta({4,1})+zeta({2,1,3})",
    "sage": "-11/2*Multizeta(5)+3*Multizeta(2)*Multizeta(3)-Multizeta(2)^2*Multizeta(1,4)+Multizeta(3,1,2)",
    "hyperint": "-11/2*zeta[5]+3*zeta[2]*zeta[3]-zeta[2]^2*zeta[1,4]+zeta[3,1,2]",
    "maple": "-11/2*Zeta(5)+3*Zeta(2)*Zeta(3)-Zeta(2)^2*MultiZeta(4,1)+MultiZeta(2,1,3)",
    "latex": r"-\frac{11}{2}\zeta(5)+3\zeta(2)\zeta(3)-\zeta(2)^{2}\zeta(4,1)+\zeta(2,1,3)",
}
# What a system prints, and the line that it is.
PRINTED = (
    (["sage"], "6*ζ(1,4)+3*ζ(2,3)+ζ(3,2)", "6*z(4,1)+3*z(3,2)+z(2,3)"),
    (["gp"], "zeta(3) - zetamult([2, 1])", "z(3) - z(2,1)"),
    (["ginac"], "zeta(3)-zeta(lst{2,1})", "z(3)-z(2,1)"),
    (["latex"], r"\[ \tfrac{1}{2}\,\zeta(5) - 3\zeta_2\cdot\zeta_{2,1} \]", "1/2*z(5) - 3*z(2)*z(2,1)"),
    (["latex", "turned"], r"\zeta(1,2)\zeta(2)^2", "z(2,1)*z(2)^2"),
    (["form"], "\n   sum =\n       - z(2)*z(3) + 1/2*z(4,1)\n      + 12345678901234567890\\\n      12345*z(5);\n\n",
     "- z(2)*z(3) + 1/2*z(4,1) + 1234567890123456789012345*z(5)"),
)
# Lines of weight 5 in which each sum converges.
LINES = ("z(4,1)", "z(3,2)", "z(2,3)", "1/2*z(3,2)", "z(2,1,1,1)", "z(2,2,1)-3*z(2,1,2)", "7*z(3,1,1)+z(2)*z(2,1)", "z(2)*z(3)-5/3*z(5)")


def done(words, text, **more):
    """What a program writes to its output for an input."""
    return subprocess.run(words, input=text, check=True, capture_output=True, text=True, timeout=60, **more).stdout


def turned(way, words, text):
    """The text in another notation, without what blanks it has more."""
    return "\n".join(" ".join(line.split()) for line in done([NOTATION, way] + words, text).splitlines())


def replies(mzv, text):
    """The polynomials that lines get, with fractions."""
    told = done([mzv, "reduce", "5", "4", PRIME, "lex"], text)
    return done([sys.executable, os.path.join(ROOT, "examples", "fractions.py"), PRIME], told).splitlines()


def texts():
    """Each text that is turned, with what is wanted."""
    for name, text in THEIRS.items():
        yield turned("to", [name], OURS), text
        yield turned("from", [name], text), OURS
    yield turned("to", ["latex", "turned"], "z(2,1)"), r"\zeta(1,2)"
    for words, text, ours in PRINTED:
        yield turned("from", words, text), ours


def values(lines):
    """The values of lines by PARI/GP."""
    with tempfile.NamedTemporaryFile("w", suffix=".gp") as file:
        file.write(turned("to", ["gp"], "\n".join(lines)) + "\n")
        file.flush()
        told = done(["gp", "-q", os.path.join(ROOT, "examples", "notation", "values.gp")], "", env=dict(os.environ, LINES=file.name))
    return [float(value) for value in told.split()]


def with_gp(mzv):
    """The values of lines with those of their polynomials, as texts of twelve digits."""
    polynomials = replies(mzv, "\n".join(LINES) + "\n")
    for line, polynomial, one, other in zip(LINES, polynomials, values(LINES), values(polynomials)):
        yield "%s is %.12f" % (line, one), "%s is %.12f" % (line, other)


def with_form(mzv):
    """The replies to what FORM prints of lines, with those to the lines."""
    for line, wanted in zip(LINES, replies(mzv, "\n".join(LINES) + "\n")):
        with tempfile.NamedTemporaryFile("w", suffix=".h") as file:
            file.write(turned("to", ["form"], line) + "\n")
            file.flush()
            told = done(["form", "-q", "-d", "LINE=" + file.name, os.path.join(ROOT, "examples", "notation", "normal.frm")], "")
        yield replies(mzv, turned("from", ["form"], told) + "\n")[0], wanted


def pairs(mzv):
    """What is there and what is wanted, of all that can be tried here."""
    yield from texts()
    for tool, tried in (("gp", with_gp), ("form", with_form)):
        if shutil.which(tool):
            yield from tried(mzv)
        else:
            print("%s is missing: what it makes of lines is not tried" % tool)


def main():
    passed = failed = 0
    for told, wanted in pairs(os.path.abspath(sys.argv[1])):
        passed, failed = passed + (told == wanted), failed + (told != wanted)
        if told != wanted:
            print("%r, and not %r" % (told, wanted))
    print("%d passed, %d failed" % (passed, failed))
    sys.exit(failed > 0)


if __name__ == "__main__":
    main()
