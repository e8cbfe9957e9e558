#!/usr/bin/env python3
"""Times `mzv dual` beside `awk '{print $0}'` on the same file in the same run, and reads its peak memory at two sizes.

    bench/dual.py PATH_TO_MZV [LINES]

The best of five runs counts for each. Take the ratios, not the seconds.
"""
import os
import subprocess
import sys
import tempfile
import time

HERE = os.path.dirname(os.path.abspath(__file__))
RUNS = 5


def seconds_of(words, path):
    """The seconds that a program takes on a file."""
    with open(path, "rb") as given, open(os.devnull, "wb") as sink:
        begin = time.perf_counter()
        subprocess.run(words, stdin=given, stdout=sink, check=True)
        return time.perf_counter() - begin


def memory_of(words, path):
    """Its peak memory in KiB, as time(1) tells it."""
    with open(path, "rb") as given, open(os.devnull, "wb") as sink:
        told = subprocess.run(["time", "-f", "%M"] + words, stdin=given, stdout=sink, stderr=subprocess.PIPE, check=True)
    return int(told.stderr)


def make(folder, lines):
    path = os.path.join(folder, "lines%d" % lines)
    with open(path, "wb") as out:
        subprocess.run([sys.executable, os.path.join(HERE, "make_lines.py"), str(lines)], stdout=out, check=True)
    return path


def main():
    mzv = sys.argv[1]
    lines = int(sys.argv[2]) if len(sys.argv) > 2 else 1000000
    folder = "/dev/shm" if os.path.isdir("/dev/shm") else None
    with tempfile.TemporaryDirectory(dir=folder) as work:
        whole, tenth = make(work, lines), make(work, lines // 10)
        command = [mzv, "dual", "2305843009213693951"]
        awk = dual = float("inf")
        for _ in range(RUNS):
            awk = min(awk, seconds_of(["awk", "{print $0}"], whole))
            dual = min(dual, seconds_of(command, whole))
        print("lines %d, bytes %d" % (lines, os.path.getsize(whole)))
        print("awk  %.3f s" % awk)
        print("dual %.3f s, %.2f times awk" % (dual, dual / awk))
        print("peak memory of dual: %d KiB at %d lines, %d KiB at %d lines" % (
            memory_of(command, whole), lines, memory_of(command, tenth), lines // 10))


if __name__ == "__main__":
    main()
