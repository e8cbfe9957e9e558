#!/usr/bin/env python3
"""Writes COUNT lines of one to four zetas, from a seed, to standard output: input for `mzv dual`.

    make_lines.py COUNT [SEED]
"""
import random
import sys


def zeta(random_number):
    """An admissible zeta of weight 2 to 12."""
    weight = random_number.randint(2, 12)
    index = [random_number.randint(2, weight)]
    left = weight - index[0]
    while left:
        index.append(random_number.randint(1, left))
        left -= index[-1]
    return "z(" + ",".join(map(str, index)) + ")"


def line(random_number):
    terms = [random_number.choice(["", "", "-"]) + zeta(random_number)]
    for _ in range(random_number.randint(0, 3)):
        terms.append(random_number.choice("+-") + zeta(random_number))
    return "".join(terms)


def main():
    count = int(sys.argv[1])
    random_number = random.Random(int(sys.argv[2]) if len(sys.argv) > 2 else 1)
    pool = [line(random_number) for _ in range(min(count, 50000))]
    write = sys.stdout.write
    for place in range(count):
        write(pool[place % len(pool)] + "\n")


if __name__ == "__main__":
    main()
