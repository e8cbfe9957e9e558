#!/usr/bin/env python3
"""Compares rows of words and words of columns with the plain program of tests/oracle, and looks whether columns come back.

    tests/conversion.py

The tables are (7, 6) modulo 101 and, modulo 2^61 - 1, (7, 6), (8, 7) and (10, 3): of each column the row of its word, its words,
and the row of these, which is that column alone. The program of tests/conversion is proved and built over a copy of crates/
first, by `rt`. The last line is 'N passed, M failed'.
"""
import os
import subprocess
import sys
import tempfile

HERE = os.path.dirname(os.path.abspath(__file__))
sys.path.insert(0, HERE)
sys.path.insert(0, os.path.join(os.path.dirname(HERE), "bench"))
from beside import build_proved  # noqa: E402
from oracle.algebra import modulo  # noqa: E402
from oracle.lyndon import columns, factors, rows_of_words, shuffled  # noqa: E402
from oracle.words import text  # noqa: E402

TABLES = [(101, 7, 6), (2**61 - 1, 7, 6), (2**61 - 1, 8, 7), (2**61 - 1, 10, 3)]


def row_text(row):
    return "".join(" %d:%d" % pair for pair in sorted(row.items()))


def wanted():
    """The lines that are to be printed: a word with its row, and the words of its column with that column."""
    for modulus, weight, most in TABLES:
        rows = rows_of_words(modulus, weight, most)
        for column, word in enumerate(columns(weight, most)):
            yield text(word) + row_text(rows[word])
            terms = sorted(modulo(modulus, shuffled(factors(word))).items())
            yield "".join(" %d*%s" % (residue, text(other)) for other, residue in terms) + row_text({column: 1})


def main():
    with tempfile.TemporaryDirectory() as work:
        program = build_proved(os.path.join(HERE, "conversion"), work)
        told = subprocess.run([program], check=True, capture_output=True, text=True).stdout.splitlines()
    lines = list(wanted())
    passed = sum(line == want for line, want in zip(told, lines))
    failed = max(len(told), len(lines)) - passed
    print("%d passed, %d failed" % (passed, failed))
    sys.exit(failed > 0)


if __name__ == "__main__":
    main()
