#!/usr/bin/env python3
"""Times a table that is made in shares beside the `mzv build` of the whole table, and reads peak memory.

    bench/shares.py PATH_TO_MZV PATH_TO_MZV_MERGE [ROUNDS [W:D ..]]

For 2, 4 and 8 shares each share is made by itself, one after the other, and then all of them are merged, where the program knows that: with
a machine for each share the table takes as long as its longest share and the merge. The tables are (12, 11) where none are given. Files lie
in a folder of memory. The best of the rounds counts for each. Take the ratios, not the seconds.
"""
import os
import subprocess
import sys
import tempfile

from build import Table, built
from reduce import MODULUS, memory_of, seconds_of

COUNTS = (2, 4, 8)
USAGE = 2


def params(table):
    """The words of a table's parameters."""
    return [table.weight, table.depth, MODULUS, "lex"]


def made(table, merge, work, of):
    """Makes each share, and answers the seconds of each."""
    seconds = []
    for index in range(of):
        words = [merge, "share", *params(table), str(index), str(of)]
        seconds.append(seconds_of(words))
        with open(os.path.join(work, "share%d" % index), "wb") as file:
            subprocess.run(words, stdin=subprocess.DEVNULL, stdout=file, check=True)
    return seconds


def merge_words(table, merge, work, of):
    """The words that merge the shares."""
    return [merge, "merge", *params(table), str(of)] + [os.path.join(work, "share%d" % index) for index in range(of)]


def merges(merge):
    """Whether the program knows how to merge."""
    return subprocess.run([merge, "merge", "2", "1", "3", "lex", "1", os.devnull], stdout=subprocess.DEVNULL).returncode != USAGE


def compare(table, mzv, merge, work, rounds, of):
    """Writes what so many shares take beside the whole build."""
    whole = longest = together = merging = float("inf")
    for _ in range(rounds):
        whole = min(whole, built(table, mzv, table.ours))
        seconds = made(table, merge, work, of)
        longest, together = min(longest, max(seconds)), min(together, sum(seconds))
        if merges(merge):
            merging = min(merging, seconds_of(merge_words(table, merge, work, of)))
    line = "%s %s in %d shares: the longest %.3f s, all %.3f s, whole build %.3f s" % (table.weight, table.depth, of, longest, together, whole)
    size = max(os.path.getsize(os.path.join(work, "share%d" % index)) for index in range(of))
    line += ", %.2f of it; peak memory %d KiB, file %.2f MB" % (
        longest / whole, memory_of([merge, "share", *params(table), "0", str(of)]), size / 1e6)
    if merges(merge):
        words = merge_words(table, merge, work, of)
        line += "; merge %.3f s, with the longest %.2f of the build; peak memory %d KiB" % (merging, (longest + merging) / whole, memory_of(words))
    print(line)


def main():
    mzv, merge, *given = sys.argv[1:]
    rounds, *tables = given or ["3"]
    mzv, merge = os.path.abspath(mzv), os.path.abspath(merge)
    for name in tables or ["12:11"]:
        with tempfile.TemporaryDirectory(dir="/dev/shm" if os.path.isdir("/dev/shm") else None) as work:
            for of in COUNTS:
                compare(Table(name, work), mzv, merge, work, int(rounds), of)


if __name__ == "__main__":
    if len(sys.argv) < 3:
        sys.exit(__doc__)
    main()
