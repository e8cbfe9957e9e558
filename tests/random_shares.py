#!/usr/bin/env python3
"""Runs `mzv_merge` on random words and files and compares each run, byte for byte, with the plain program of tests/oracle.

    tests/random_shares.py --merge PATH [--count N] [--seed S] [--areas share,usage,..] [--case K]

The areas are share, merge, usage and fault. Status, standard output, standard error and the files of the folder in which it runs are compared; a run
that should fail to write by its status, its empty standard error and these files. Each case has its own generator, made from seed, area and
number, so `--areas AREA --seed S --case K` runs one case again. The last line is 'N passed, M failed'.
"""
import argparse
import os
import random
import subprocess
import sys
import tempfile

HERE = os.path.dirname(os.path.abspath(__file__))
sys.path.insert(0, HERE)
from oracle.lyndon import NoInverse  # noqa: E402
from oracle.merge_program import whole_run  # noqa: E402
from oracle.pages import PER_PAGE  # noqa: E402
from oracle.program import WRITE_FAULT  # noqa: E402
from oracle.shares import share_bytes, share_pages  # noqa: E402
from oracle.tables import Broken  # noqa: E402
from random_cases import NOT_NUMBERS, Maker  # noqa: E402
from random_lines import difference  # noqa: E402

COMMANDS = ("share", "share", "merge", "merge", "Share", "shares", "", "build", "help")
FAULTY = ("share 3 2 5 lex 1 2", "share 3 2 5 lex 2 2", "share 4 3 100 lex 0 1", "share 4 3 15 lex 0 1", "share", "",
          "merge 3 2 5 lex 1 f0", "merge 3 2 5 lex 1 none", "merge 4 3 100 lex 1 f0", "merge 3 2 5 lex 0 f0", "merge 3 2 5 lex 1")
FILE_FAULTS = ("merge 3 2 5 lex 1 .", "merge 3 2 5 lex 1 f0/f0", "merge 3 2 5 lex 1 f0 .", "merge 3 2 5 lex 1 none .")
GOOD = ("3", "2", "101", "odd", "1", "2")


class Case:
    """The words, the files that are there, by their names, and whether the sink fails."""

    def __init__(self, words, files=(), full=False):
        self.words, self.files, self.full = list(map(str, words)), dict(files), full


class ShareMaker(Maker):
    """Random cases from one generator."""

    def number_of_shares(self):
        """How many shares there are, now and then a number that is refused."""
        return self.some(0, 257, 2**32, 2**64 - 1) if self.chance(0.04) else self.some(1, 2, 2, 3, 4, 8, 256, self.random.randrange(1, 257))

    def changed_rows(self, params, pages):
        """The pages of a share with an entry changed, taken away, repeated, or exchanged with the one before it."""
        rows = self.changed_entries(params, tuple(entry for page in pages for entry in page[2:] and page[2]))[:PER_PAGE]
        return [pages[0]] + [("Final", 0, rows)] * bool(rows) + [("Done", len(rows))]

    def spelled_share(self, params, index, of):
        """The bytes of a share, as it is made or with something changed."""
        try:
            pages = share_pages(params, index, of)
        except Broken:
            pages = [("Header", params), ("Done", 0)]
        kind = self.random.random()
        if kind < 0.75:
            return share_bytes(index, of, pages)
        if kind < 0.8:
            return share_bytes((index + 1) % of, of, pages)
        if kind < 0.83:
            return share_bytes(index, of + 1, pages)
        if kind < 0.88:
            return share_bytes(index, of, self.changed_rows(params, pages))
        try:
            contents = share_bytes(index, of, self.changed_pages(params, pages) or pages)
        except (OverflowError, ValueError):
            contents = share_bytes(index, of, pages)
        return contents if kind < 0.93 else self.changed_bytes(contents)

    # One method for each area.

    def merge(self):
        params = self.params(6)
        weight, most, modulus, mode, preferred = params = (*params[:4], params[4] if self.chance(0.03) else ())
        of, files = self.some(1, 1, 2, 2, 3, 4, 6), {}
        if self.chance(0.05):
            # each share is made, and the work on their rows may be broken
            params, of = (4, 3, self.some(15, 25, 35, 55), "lex", ()), self.some(3, 4)
            weight, most, modulus, mode, preferred = params
        try:
            files = {"f%d" % i: self.spelled_share(params, i, of) for i in range(of) if self.chance(0.97)}
        except NoInverse:
            files = {"f0": b""}
        names = list(files) + [self.some("none", ".", *files)] * self.chance(0.15) + [self.some("none", *files)] * self.chance(0.1)
        self.random.shuffle(names)
        words = [weight, most, modulus, mode] if self.chance(0.95) else self.table((weight, most))
        return Case(["merge", *words, of if self.chance(0.95) else self.number_of_shares(), *names], files)

    def share(self):
        of = self.number_of_shares()
        index = self.some(of, of + 1, 2**64 - 1) if self.chance(0.05) else self.below(of) if of else 0
        return Case(["share", *self.table(self.shape()), self.some("", "", "", "000") + str(min(index, 2**64 - 1)), of])

    def usage(self):
        words = [good if self.chance(0.85) else self.some(*NOT_NUMBERS, "z(2)") for good in GOOD]
        words = words[:self.below(7)] if self.chance(0.2) else words + ["2"] * self.some(0, 0, 0, 1)
        return Case([self.some(*COMMANDS)] + words if self.chance(0.95) else [])

    def fault(self):
        full = self.chance(0.7)
        return Case(self.some(*FAULTY if full else FILE_FAULTS).split(), {"f0": self.spelled_share((3, 2, 5, "lex", ()), 0, 1)}, full)


AREAS = ("share", "merge", "usage", "fault")


def wanted(case):
    """The status and the output of a case; no output where the sink fails."""
    status, output = whole_run(case.words)
    return (WRITE_FAULT, b"") if case.full and output else (status, output)


def run(program, case):
    """The status, the output and the error output of the program."""
    words = [program] + [word.encode("utf-8", "surrogateescape") for word in case.words]
    with open("/dev/full" if case.full else os.devnull, "wb") as full:
        done = subprocess.run(words, stdin=subprocess.DEVNULL, stdout=full if case.full else subprocess.PIPE, stderr=subprocess.PIPE, timeout=120)
    return done.returncode, done.stdout or b"", done.stderr


def files_here():
    """The files of this folder."""
    files = {}
    for name in os.listdir("."):
        with open(name, "rb") as file:
            files[name] = file.read()
    return files


def passes(program, case, name):
    """Runs one case in a folder with its files alone, and says what differs."""
    with tempfile.TemporaryDirectory() as folder:
        os.chdir(folder)
        try:
            for file, contents in case.files.items():
                with open(file, "wb") as there:
                    there.write(contents)
            (status, output), (got_status, got_output, error) = wanted(case), run(program, case)
            unchanged = files_here() == case.files
        finally:
            os.chdir(HERE)
    if (status, output, b"") == (got_status, got_output, error) and unchanged:
        return True
    print("MISMATCH %s: words %r%s%s" % (name, case.words, ", a full device" * case.full, "" if unchanged else ", files are changed"))
    if status != got_status:
        print("  status %d, not %d" % (got_status, status))
    if output != got_output:
        print("  output of " + difference(output, got_output))
    if error:
        print("  error output %r" % error[:200])
    return False


def main():
    parser = argparse.ArgumentParser(description=__doc__.split("\n")[0])
    parser.add_argument("--merge", required=True, help="the program")
    parser.add_argument("--count", type=int, default=300)
    parser.add_argument("--seed", default="1")
    parser.add_argument("--areas", default=",".join(AREAS))
    parser.add_argument("--case", type=int, help="this case alone")
    given = parser.parse_args()
    areas, program = given.areas.split(","), os.path.abspath(given.merge)
    numbers = range(given.count) if given.case is None else [given.case]
    failed = 0
    for number in numbers:
        area = areas[number % len(areas)]
        case = getattr(ShareMaker(random.Random("%s/%s/%d" % (given.seed, area, number))), area)()
        failed += not passes(program, case, "--areas %s --seed %s --case %d" % (area, given.seed, number))
    print("%d passed, %d failed" % (len(numbers) - failed, failed))
    sys.exit(failed > 0)


if __name__ == "__main__":
    main()
