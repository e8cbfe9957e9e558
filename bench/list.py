#!/usr/bin/env python3
"""Times `mzv list 13 12`, the longest listing, beside `cat` on its output in the same run.

    bench/list.py PATH_TO_MZV

The best of eighty runs counts for each. Take the ratios, not the seconds.
"""
import os
import subprocess
import sys
import tempfile
import time

RUNS = 80


def seconds_of(words):
    """The seconds that a program takes."""
    with open(os.devnull, "wb") as sink:
        begin = time.perf_counter()
        subprocess.run(words, stdout=sink, check=True)
        return time.perf_counter() - begin


def main():
    mzv = os.path.abspath(sys.argv[1])
    with tempfile.TemporaryDirectory() as work:
        path = os.path.join(work, "listing")
        with open(path, "wb") as out:
            subprocess.run([mzv, "list", "13", "12"], stdout=out, check=True)
        commands = {"cat": ["cat", path], "list 13 12": [mzv, "list", "13", "12"], "list 2 1": [mzv, "list", "2", "1"]}
        best = dict.fromkeys(commands, float("inf"))
        for _ in range(RUNS):
            for name, words in commands.items():
                best[name] = min(best[name], seconds_of(words))
        for name, seconds in best.items():
            print("%s: %.2f ms, %.1f times cat" % (name, 1000 * seconds, seconds / best["cat"]))
    told = subprocess.run(["time", "-f", "%M", mzv, "list", "13", "12"], stdout=subprocess.DEVNULL, stderr=subprocess.PIPE, check=True)
    print("peak memory of list 13 12: %d KiB" % int(told.stderr))


if __name__ == "__main__":
    main()
