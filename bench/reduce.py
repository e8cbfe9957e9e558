#!/usr/bin/env python3
"""Times `mzv reduce` with no lines, and on mixed lines of weight 8 and of weight 13, and reads its peak memory.

    bench/reduce.py PATH_TO_MZV [ROUNDS]

A line is a product of two or of three zetas, or a sum of three zetas with numbers and a fraction. The best of the rounds counts for
each; `list` of the same weight and depth stands beside each table, and an empty table beside the lines. Take the ratios, not the seconds.
"""
import os
import random
import resource
import subprocess
import sys
import tempfile

MODULUS = "2305843009213693951"
TABLES = ((10, 9), (11, 10), (12, 11), (13, 12), (24, 4))
LINES = ((8, 7, 100000), (13, 12, 100000))


def processor_time():
    """The seconds of a processor that the programs run so far have taken."""
    used = resource.getrusage(resource.RUSAGE_CHILDREN)
    return used.ru_utime + used.ru_stime


def seconds_of(words, path=os.devnull):
    """The seconds of a processor that a program takes on a file, whatever other jobs the machine has."""
    with open(path, "rb") as given, open(os.devnull, "wb") as sink:
        begin = processor_time()
        subprocess.run(words, stdin=given, stdout=sink, check=True)
        return processor_time() - begin


def memory_of(words, path=os.devnull):
    """Its peak memory in KiB, as time(1) tells it."""
    with open(path, "rb") as given, open(os.devnull, "wb") as sink:
        told = subprocess.run(["time", "-f", "%M"] + words, stdin=given, stdout=sink, stderr=subprocess.PIPE, check=True)
    return int(told.stderr)


def zeta(numbers, weight):
    """An admissible zeta of a weight."""
    index = [numbers.randint(2, weight)]
    while sum(index) < weight:
        index.append(numbers.randint(1, weight - sum(index)))
    return "z(%s)" % ",".join(map(str, index))


def line(numbers, weight, kind):
    """A mixed line of a weight."""
    if kind == 0:
        first = numbers.randint(2, weight - 2)
        return zeta(numbers, first) + "*" + zeta(numbers, weight - first)
    if kind == 1:
        first = numbers.randint(2, weight - 4)
        second = numbers.randint(2, weight - first - 2)
        return "*".join(zeta(numbers, part) for part in (first, second, weight - first - second))
    return "%d*%s-%d/%d*%s+%s" % (numbers.randint(1, 9), zeta(numbers, weight), numbers.randint(1, 9), numbers.randint(2, 8),
                                  zeta(numbers, weight), zeta(numbers, weight))


def make(folder, weight, count):
    """A file of mixed lines."""
    numbers, path = random.Random(1), os.path.join(folder, "lines%d" % weight)
    with open(path, "w") as out:
        out.writelines(line(numbers, weight, i % 3) + "\n" for i in range(count))
    return path


def main():
    mzv, rounds = sys.argv[1], int(sys.argv[2]) if len(sys.argv) > 2 else 5
    for weight, depth in TABLES:
        command = [mzv, "reduce", str(weight), str(depth), MODULUS, "lex"]
        table = min(seconds_of(command) for _ in range(rounds))
        names = min(seconds_of([mzv, "list", str(weight), str(depth)]) for _ in range(rounds))
        print("reduce %d %d, no lines: %.3f s, list %.4f s, peak memory %d KiB" % (weight, depth, table, names, memory_of(command)))
    folder = "/dev/shm" if os.path.isdir("/dev/shm") else None
    with tempfile.TemporaryDirectory(dir=folder) as work:
        for weight, depth, count in LINES:
            path, command = make(work, weight, count), [mzv, "reduce", str(weight), str(depth), MODULUS, "lex"]
            took = min(seconds_of(command, path) for _ in range(rounds)) - min(seconds_of(command) for _ in range(rounds))
            print("reduce %d %d, %d lines: %.3f s, %.0f lines a second" % (weight, depth, count, took, count / took))


if __name__ == "__main__":
    main()
