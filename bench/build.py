#!/usr/bin/env python3
"""Times `mzv build` beside other programs, and reads its peak memory and what its parts take.

    bench/build.py PATH_TO_MZV [PEERS [ROUNDS [W:D ..]]]

PEERS is a folder with three programs that are no part of this repository, or `-`: `fast`, a tuned program in C++ with the command `build
FILE W D M lex`, whose file has the same pages behind the Header; `dump matrix W D M FILE`, which writes the relations as rows of columns;
and `flint_peer FILE profile`, which makes of these by FLINT the numbers of the accepted relations, the reduced rows and their combinations,
and prints the seconds of each. The tables are (10, 9), (11, 10), (12, 11), (13, 12) and (24, 4) where none are given. Files lie in a folder
of memory, where syncs cost nothing. The best of the rounds counts for each, the programs in turn, FLINT three times at most. Take the ratios,
not the seconds.
"""
import os
import re
import subprocess
import sys
import tempfile
import time

from reduce import MODULUS, memory_of, processor_time, seconds_of

TABLES = ("10:9", "11:10", "12:11", "13:12", "24:4")
FLINT_TABLES = ("12:11", "13:12")
FORWARD = 2


class Table:
    """A table, the files of the two programs that build it, and the matrix of its relations."""

    def __init__(self, name, work):
        self.name, (self.weight, self.depth) = name, name.split(":")
        self.ours, self.theirs, self.matrix = (os.path.join(work, kind) for kind in ("ours", "theirs", "matrix"))

    def words(self, program, path):
        """The words that build it."""
        return [program, "build", path, self.weight, self.depth, MODULUS, "lex"]


def built(table, program, path):
    """The seconds of a build into a new file."""
    if os.path.exists(path):
        os.remove(path)
    return seconds_of(table.words(program, path))


def peak(table, mzv):
    """The peak memory of a build, in KiB."""
    os.remove(table.ours)
    return memory_of(table.words(mzv, table.ours))


def flint(table, peers):
    """The seconds of FLINT for the same rows and combinations: those that it tells by the clock, as far as it had a processor."""
    begin, used = time.perf_counter(), processor_time()
    told = subprocess.run([os.path.join(peers, "flint_peer"), table.matrix, "profile"], check=True, capture_output=True, text=True).stdout
    had = (processor_time() - used) / (time.perf_counter() - begin)
    return had * sum(float(seconds) for seconds in re.findall(r"([0-9.]+) s$", told, re.M))


def pages(path):
    """The kind of each page of a file, and the place where it ends."""
    with open(path, "rb") as file:
        contents = file.read()
    place = 0
    while place + 1 < len(contents):
        end = place + 6 + int.from_bytes(contents[place + 2:place + 6], "little")
        yield contents[place + 1], end
        place = end


def behind_header(path):
    """What stands behind the Header of a file."""
    end = next(pages(path))[1]
    with open(path, "rb") as file:
        return file.read()[end:]


def lengths(table, mzv):
    """The lengths that the file has while it is built, each with the seconds at which it was seen first."""
    os.remove(table.ours)
    begin, seen = time.perf_counter(), [(0, 0.0)]
    build = subprocess.Popen(table.words(mzv, table.ours), stdout=subprocess.DEVNULL)
    while build.poll() is None:
        length = os.path.getsize(table.ours) if os.path.exists(table.ours) else 0
        if length > seen[-1][0]:
            seen.append((length, time.perf_counter() - begin))
        time.sleep(0.0005)
    return seen + [(os.path.getsize(table.ours), time.perf_counter() - begin)]


def tell_parts(table, mzv):
    """Writes what the parts of one build take: up to the last Forward page, and the Final pages; and the rows alone, made in memory."""
    seen = lengths(table, mzv)
    forward = max([end for kind, end in pages(table.ours) if kind == FORWARD], default=0)
    until = next(seconds for length, seconds in seen if length >= forward)
    rows = seconds_of([mzv, "reduce", table.weight, table.depth, MODULUS, "lex"])
    names = seconds_of([mzv, "list", table.weight, table.depth])
    print("  parts: names %.3f s, rows alone %.3f s; Forward pages %.3f s, Final pages %.3f s, file %.1f MB" % (
        names, rows, until, seen[-1][1] - until, os.path.getsize(table.ours) / 1e6))


def compare(table, mzv, peers, rounds):
    """The least seconds of each program, in turn."""
    best = {}
    if peers and table.name in FLINT_TABLES:
        subprocess.run([os.path.join(peers, "dump"), "matrix", table.weight, table.depth, MODULUS, table.matrix], check=True)
    for i in range(rounds):
        took = {"mzv": built(table, mzv, table.ours)}
        if peers:
            took["fast"] = built(table, os.path.join(peers, "fast"), table.theirs)
        if i < 3 and os.path.exists(table.matrix):
            took["FLINT"] = flint(table, peers)
        best.update({name: min(seconds, best.get(name, seconds)) for name, seconds in took.items()})
    return best


def tell(table, best):
    """Writes the seconds and the ratios of a table."""
    line = "build %s %s: %.3f s" % (table.weight, table.depth, best["mzv"])
    if "fast" in best:
        same = "the same pages" if behind_header(table.ours) == behind_header(table.theirs) else "OTHER PAGES"
        line += "; tuned C++ %.3f s, %.2f times that, %s" % (best["fast"], best["mzv"] / best["fast"], same)
    if "FLINT" in best:
        line += "; FLINT %.3f s, which is %.2f times as slow" % (best["FLINT"], best["FLINT"] / best["mzv"])
    print(line)


def main():
    mzv, *given = sys.argv[1:]
    peers, rounds, *tables = given + ["-", "3"][len(given):]
    mzv, peers, before = os.path.abspath(mzv), None if peers == "-" else peers, None
    for name in tables or TABLES:
        with tempfile.TemporaryDirectory(dir="/dev/shm" if os.path.isdir("/dev/shm") else None) as work:
            table = Table(name, work)
            best = compare(table, mzv, peers, int(rounds))
            tell(table, best)
            print("  peak memory %d KiB" % peak(table, mzv))
            tell_parts(table, mzv)
        if before and int(table.weight) == before[0] + 1:
            print("  %.2f times the time of weight %d" % (best["mzv"] / before[1], before[0]))
        before = int(table.weight), best["mzv"]


if __name__ == "__main__":
    if len(sys.argv) < 2:
        sys.exit(__doc__)
    main()
