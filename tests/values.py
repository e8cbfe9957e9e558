#!/usr/bin/env python3
"""Compares the value of every relation of weight 3 to 7, modulo 101 and modulo 2^61 - 1, with the plain program of tests/oracle.

    tests/values.py

The program of tests/values is proved and built over a copy of crates/ first, by `rt`. The last line is 'N passed, M failed'.
"""
import os
import subprocess
import sys
import tempfile

HERE = os.path.dirname(os.path.abspath(__file__))
sys.path.insert(0, HERE)
sys.path.insert(0, os.path.join(os.path.dirname(HERE), "bench"))
from beside import build_proved  # noqa: E402
from oracle.relations import listing, name_text, value  # noqa: E402
from oracle.words import text  # noqa: E402


def wanted():
    """The lines that are to be printed: the text of each name, and the terms of its value by increasing word."""
    for modulus in (101, 2**61 - 1):
        for weight in range(3, 8):
            for name in listing(weight, weight - 1):
                terms = ["%d*%s" % (residue, text(word)) for word, residue in sorted(value(modulus, name).items())]
                yield " ".join([name_text(name)] + terms)


def main():
    with tempfile.TemporaryDirectory() as work:
        program = build_proved(os.path.join(HERE, "values"), work)
        told = subprocess.run([program], check=True, capture_output=True, text=True).stdout.splitlines()
    lines = list(wanted())
    passed = sum(line == want for line, want in zip(told, lines))
    failed = max(len(told), len(lines)) - passed
    print("%d passed, %d failed" % (passed, failed))
    sys.exit(failed > 0)


if __name__ == "__main__":
    main()
