#!/usr/bin/env python3
"""Runs `mzv` on random words, lines, files and faults, and compares each run, byte for byte, with the plain program of tests/oracle.

    tests/random_lines.py --mzv PATH [--count N] [--seed S] [--areas dual,list,reduce,..] [--case K]

The areas are dual, list, reduce, build, check, rewrite, show, sample, rational, probe, usage, fault, prefixes and limit. Status, standard
output, standard error and the files of the folder in which it runs are compared; a run that should fail to read or to write is compared by
its status, its empty standard error and these files. Each case has its own generator, made from seed, area and number, so `--areas AREA
--seed S --case K` runs one case again. Two areas run on demand alone: a case of `prefixes` gives every prefix of one line of the whole
grammar to one run of `reduce`, and one of `limit` has an input of about 67,108,864 bytes. The last line is 'N passed, M failed'.
"""
import argparse
import os
import random
import subprocess
import sys
import tempfile

HERE = os.path.dirname(os.path.abspath(__file__))
sys.path.insert(0, HERE)
from oracle.program import WRITE_FAULT, whole_run  # noqa: E402
from random_cases import AREAS, Maker  # noqa: E402


def wanted(case):
    """The status and the output of a case; no output where the sink fails."""
    def read():
        if case.fails == "source":
            raise OSError
        return case.given
    status, output = whole_run(case.words, read)
    return (WRITE_FAULT, b"") if case.fails == "sink" and output else (status, output)


def run(mzv, case):
    """The status and the output of the program, and its error output."""
    words = [mzv] + [word.encode("utf-8", "surrogateescape") for word in case.words]
    if case.fails == "sink":
        with open("/dev/full", "wb") as full:
            done = subprocess.run(words, input=case.given, stdout=full, stderr=subprocess.PIPE, timeout=120)
        return (done.returncode, b""), done.stderr
    if case.fails == "source":
        # The master of a terminal without a slave fails when it is read.
        source, slave = os.openpty()
        os.close(slave)
        try:
            done = subprocess.run(words, stdin=source, capture_output=True, timeout=120)
        finally:
            os.close(source)
    else:
        done = subprocess.run(words, input=case.given, capture_output=True, timeout=120)
    return (done.returncode, done.stdout), done.stderr


def beside_a_file(case, act):
    """What some act gives in a folder with the case's file alone, and the files that are there behind it."""
    with tempfile.TemporaryDirectory() as folder:
        os.chdir(folder)
        try:
            if case.contents is not None:
                with open("t", "wb") as file:
                    file.write(case.contents)
            result, files = act(), {}
            for name in os.listdir("."):
                with open(name, "rb") as file:
                    files[name] = file.read()
            return result, files
        finally:
            os.chdir(HERE)


def difference(want, got):
    """The first place where two outputs differ."""
    at = next((i for i, (a, b) in enumerate(zip(want, got)) if a != b), min(len(want), len(got)))
    return "%d bytes, not %d; from byte %d %r, not %r" % (len(got), len(want), at, got[at:at + 60], want[at:at + 60])


def passes(mzv, case, name):
    """Runs one case, and says what differs."""
    (status, output), files = beside_a_file(case, lambda: wanted(case))
    ((got_status, got_output), error), got_files = beside_a_file(case, lambda: run(mzv, case))
    if (status, output, b"", files) == (got_status, got_output, error, got_files):
        return True
    print("MISMATCH %s: words %r, %d bytes of input %r%s" % (name, case.words, len(case.given), case.given[:300], case.fails and ", failing " + case.fails))
    if case.contents is not None:
        print("  the file t has %d bytes: %s" % (len(case.contents), case.contents[:300].hex()))
    if status != got_status:
        print("  status %d, not %d" % (got_status, status))
    if output != got_output:
        print("  output of " + difference(output, got_output))
    if error:
        print("  error output %r" % error[:200])
    for file in sorted(set(files) | set(got_files)):
        if files.get(file) != got_files.get(file):
            print("  file %r of %s" % (file, difference(files.get(file, b""), got_files.get(file, b""))))
    return False


def main():
    parser = argparse.ArgumentParser(description=__doc__.split("\n")[0])
    parser.add_argument("--mzv", required=True, help="the program")
    parser.add_argument("--count", type=int, default=300)
    parser.add_argument("--seed", default="1")
    parser.add_argument("--areas", default=",".join(AREAS))
    parser.add_argument("--case", type=int, help="this case alone")
    given = parser.parse_args()
    areas, mzv = given.areas.split(","), os.path.abspath(given.mzv)
    numbers = range(given.count) if given.case is None else [given.case]
    failed = 0
    for number in numbers:
        area = areas[number % len(areas)]
        case = getattr(Maker(random.Random("%s/%s/%d" % (given.seed, area, number))), area)()
        failed += not passes(mzv, case, "--areas %s --seed %s --case %d" % (area, given.seed, number))
    print("%d passed, %d failed" % (len(numbers) - failed, failed))
    sys.exit(failed > 0)


if __name__ == "__main__":
    main()
