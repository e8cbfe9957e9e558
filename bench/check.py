#!/usr/bin/env python3
"""Times `mzv check` beside the `mzv build` of the same table, and reads its peak memory.

    bench/check.py PATH_TO_MZV [ROUNDS [W:D ..]]

The tables are (10, 9), (11, 10), (12, 11), (13, 12) and (24, 4) where none are given. Files lie in a folder of memory. The best of the
rounds counts for each, build and check in turn. Take the ratios, not the seconds.
"""
import os
import sys
import tempfile

from build import TABLES, Table, built
from reduce import memory_of, seconds_of


def main():
    mzv, *given = sys.argv[1:]
    rounds, *tables = given or ["3"]
    mzv = os.path.abspath(mzv)
    for name in tables or TABLES:
        with tempfile.TemporaryDirectory(dir="/dev/shm" if os.path.isdir("/dev/shm") else None) as work:
            table, build, check = Table(name, work), float("inf"), float("inf")
            words = [mzv, "check", table.ours]
            for _ in range(int(rounds)):
                build = min(build, built(table, mzv, table.ours))
                check = min(check, seconds_of(words))
            print("check %s %s: %.3f s, build %.3f s, %.2f of it; peak memory %d KiB" % (
                table.weight, table.depth, check, build, check / build, memory_of(words)))


if __name__ == "__main__":
    if len(sys.argv) < 2:
        sys.exit(__doc__)
    main()
