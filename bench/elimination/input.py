#!/usr/bin/env python3
"""Writes the relations of a weight and depth as rows of columns, for the program of this folder.

    bench/elimination/input.py [WEIGHT DEPTH [MODULUS]] > FILE

The words of eight bytes, the low byte first, are: the number of rows, the number of columns, the modulus, and for each row the
number of its pairs and then the pairs, each a column and a residue, by increasing columns. Relations are those of `mzv list`,
columns the products of Lyndon words in the lead order of the mode `lex`. All is made by the plain program of tests/oracle:
a second for (10, 9), half a minute for (12, 11).
"""
import os
import sys
from array import array

HERE = os.path.dirname(os.path.abspath(__file__))
sys.path.insert(0, os.path.join(os.path.dirname(os.path.dirname(HERE)), "tests"))
from oracle.lyndon import row_of, rows_of_words  # noqa: E402
from oracle.relations import integer_value, listing  # noqa: E402


def main():
    weight, most = map(int, sys.argv[1:3] or (10, 9))
    modulus = int(sys.argv[3]) if len(sys.argv) > 3 else 2**61 - 1
    rows = rows_of_words(modulus, weight, most)
    names = listing(weight, most)
    told = array("Q", [len(names), len(rows), modulus])
    for name in names:
        row = row_of(modulus, rows, integer_value(name))
        told.append(len(row))
        for pair in sorted(row.items()):
            told.extend(pair)
    if sys.byteorder == "big":
        told.byteswap()
    sys.stdout.buffer.write(told.tobytes())


if __name__ == "__main__":
    main()
