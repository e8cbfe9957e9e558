#!/usr/bin/env python3
"""Writes the values of the relations of a weight and the depth below it, for the programs of this folder.

    bench/conversion/input.py [WEIGHT] > FILE

The words of eight bytes, the low byte first, are: the weight, the number of values, and for each value the number of its terms
and then the terms, each a word and a residue modulo 2^61 - 1. The letters of a word are bits, the first letter highest, x 0 and
y 1. All is made by the plain program of tests/oracle: half a minute for weight 12.
"""
import os
import sys
from array import array

HERE = os.path.dirname(os.path.abspath(__file__))
sys.path.insert(0, os.path.join(os.path.dirname(os.path.dirname(HERE)), "tests"))
from oracle.relations import listing, value  # noqa: E402

BITS = str.maketrans("xy", "01")


def main():
    weight = int(sys.argv[1]) if len(sys.argv) > 1 else 12
    names = listing(weight, weight - 1)
    told = array("Q", [weight, len(names)])
    for name in names:
        terms = value(2**61 - 1, name)
        told.append(len(terms))
        for word, residue in sorted(terms.items()):
            told.extend((int(word.translate(BITS), 2), residue))
    if sys.byteorder == "big":
        told.byteswap()
    sys.stdout.buffer.write(told.tobytes())


if __name__ == "__main__":
    main()
