#!/usr/bin/env python3
"""Times `mzv rewrite` on mixed lines of weight 8 and of weight 13, and beside it the shuffles alone by FORM.

    bench/rewrite.py PATH_TO_MZV [PEERS [ROUNDS [W:D ..]]]

Lines are those of bench/reduce.py, 100,000 of them, and `rewrite` with no lines is taken off. PEERS is a folder with a program that is no part
of this repository, or `-`: `dump pair-lines W D` writes the products of two words that relations of a table ask for as lines, and `dump
form-sh W D FILE` a program for FORM with the shuffles of the same pairs, which are made where WORK is defined. So with FORM on the path its
shuffles stand beside whole replies to these lines. The tables are (8, 7) and (13, 12) where none are given. Files lie in a folder of memory. The
best of the rounds counts for each. Take the ratios, not the seconds.
"""
import os
import shutil
import subprocess
import sys
import tempfile

from build import Table, built
from reduce import make, memory_of, seconds_of

TABLES = ("8:7", "13:12")
COUNT = 100000
TIMES = 10


def least(words, path, rounds):
    """The least seconds of a program on a file."""
    return min(seconds_of(words, path) for _ in range(rounds))


def products(table, peers, work):
    """A file with the lines of the products, each ten times, and how many products there are."""
    told = subprocess.run([os.path.join(peers, "dump"), "pair-lines", table.weight, table.depth], check=True, capture_output=True).stdout
    path = os.path.join(work, "products")
    with open(path, "wb") as out:
        out.write(told * TIMES)
    return path, told.count(b"\n")


def shuffles(table, peers, work, rounds):
    """The seconds that FORM takes for the shuffles, reading excluded."""
    program = os.path.join(work, "shuffles.frm")
    subprocess.run([os.path.join(peers, "dump"), "form-sh", table.weight, table.depth, program], check=True)
    return least(["form", "-q", "-D", "WORK=1", program], os.devnull, rounds) - least(["form", "-q", program], os.devnull, rounds)


def tell_products(table, words, peers, work, rounds, empty):
    """Writes the time of whole replies to products, and of FORM's shuffles alone."""
    path, count = products(table, peers, work)
    took = (least(words, path, rounds) - empty) / TIMES
    line = "  %d products: %.3f s, %.0f lines a second" % (count, took, count / took)
    if shutil.which("form"):
        form = shuffles(table, peers, work, rounds)
        line += "; FORM's shuffles alone %.3f s, %.1f times as slow" % (form, form / took)
    print(line)


def main():
    mzv, *given = sys.argv[1:]
    peers, rounds, *tables = given + ["-", "3"][len(given):]
    mzv, rounds = os.path.abspath(mzv), int(rounds)
    for name in tables or TABLES:
        with tempfile.TemporaryDirectory(dir="/dev/shm" if os.path.isdir("/dev/shm") else None) as work:
            table = Table(name, work)
            words, lines = [mzv, "rewrite", table.ours], make(work, int(table.weight), COUNT)
            built(table, mzv, table.ours)
            empty = least(words, os.devnull, rounds)
            took = least(words, lines, rounds) - empty
            print("rewrite %s %s, %d lines: %.3f s, %.0f lines a second; no lines %.3f s, peak memory %d KiB" % (
                table.weight, table.depth, COUNT, took, COUNT / took, empty, memory_of(words, lines)))
            if peers != "-":
                tell_products(table, words, peers, work, rounds, empty)


if __name__ == "__main__":
    if len(sys.argv) < 2:
        sys.exit(__doc__)
    main()
