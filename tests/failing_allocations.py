#!/usr/bin/env python3
"""Runs `mzv` and `mzv_merge` with each of their allocations failing in turn, and looks at what they say.

    tests/failing_allocations.py PATH_TO_MZV [PATH_TO_MZV_MERGE]

With ample memory a command gives its whole output. With one allocation that fails it has to end with status 1 and a first
part of that output, or, where the allocation does not matter, with the whole output and its status; words that fit no
command and parameters that fail their test have to be refused whatever memory there is, unless the words themselves could
not be had. A file that is built or gone on with has to hold the first pages of its table by then, and all of them where the run was not broken
off. The last line is 'N passed, M failed'.
"""
import os
import subprocess
import sys
import tempfile

HERE = os.path.dirname(os.path.abspath(__file__))
sys.path.insert(0, HERE)
from oracle.builds import built_pages  # noqa: E402
from oracle.files import contents_of, file_of, sealed_pages  # noqa: E402
from oracle.migrations import old_file_of  # noqa: E402
from oracle.shares import share_bytes, share_pages  # noqa: E402

# The files that are there: a table of 4 pages, its first 3 pages, the table with a bad page, with another combination beside its last row,
# and without its last row; and one whose words do not convert.
PAGES = built_pages((4, 3, 101, "lex", ()))[0]
TABLE = file_of(PAGES)
OLD = old_file_of(PAGES)
ROWS = PAGES[2][2]
FILES = {"table": TABLE, "stopped": TABLE[:-9], "bad": TABLE[:-8] + b"\0" * 8,
         "false": file_of(PAGES[:2] + [("Final", 0, ROWS[:-1] + ((ROWS[-1][0], ROWS[0][1]),)), PAGES[3]]),
         "short": file_of(PAGES[:2] + [("Final", 0, ROWS[:-1]), ("Done", len(ROWS) - 1)]),
         "unfit": file_of([("Header", (4, 3, 100, "lex", ())), ("Forward", 0, ()), ("Done", 0)])}
LINES = b"z(2,1)-z(3)\nz(2,1)+z(3)\n" + b"z(3,1)+z(2)\n" * 3 + b"z(25)\n-z(4)+" + b"+".join(
    b"z(%d,1)" % k for k in range(2, 24)) + b"\n" + b"z(2)-" * 400 + b"z(3)\nz(2,2)"
CASES = [
    (["dual", "101"], LINES),
    (["dual", "9223372036854775807"], LINES),
    (["dual", "101"], b""),
    (["list", "6", "5"], b""),
    (["list", "2", "1"], b""),
    (["list", "14", "13"], b""),
    (["reduce", "4", "3", "101", "lex"], b"z(3,1)\n1/2*z(2)^2-z(4)\nz(1,3)\nz(2)\n1/0\nz(4"),
    (["reduce", "3", "2", "100", "odd", "z(2,1)"], b"z(3)\n"),
    (["reduce", "4", "3", "15", "lex"], b"z(4)\n"),
    (["reduce", "4", "3", "100", "lex"], b"z(4)\n"),
    (["build", "built", "4", "3", "101", "lex"], b""),
    (["build", "built", "4", "3", "15", "lex"], b""),
    (["build", "built", "4", "3", "100", "lex"], b""),
    (["build", "table", "4", "3", "101", "lex"], b""),
    (["resume", "built", "4", "3", "101", "lex"], b""),
    (["resume", "built", "4", "3", "15", "lex"], b""),
    (["resume", "table", "4", "3", "101", "lex"], b""),
    (["resume", "table", "4", "3", "103", "lex", "z(2)"], b""),
    (["resume", "false", "4", "3", "101", "lex"], b""),
    (["resume", "bad", "4", "3", "101", "lex"], b""),
    (["migrate", "built"], OLD),
    (["migrate", "built"], OLD[:30]),
    (["migrate", "built"], OLD[:26] + TABLE[-10:]),
    (["migrate", "table"], OLD),
    (["check", "table"], b""),
    (["check", "stopped"], b""),
    (["check", "false"], b""),
    (["check", "short"], b""),
    (["check", "unfit"], b""),
    (["rewrite", "table"], b"z(3,1)\n1/2*z(2)^2-z(4)\nz(1,3)\nz(2)\n1/0\nz(4"),
    (["rewrite", "short"], b"z(4)\n"),
    (["rational", "table"], b"z(3,1)\n1/2*z(2)^2-z(4)\nz(2)"),
    (["show", "table"], b""),
    (["show", "stopped"], b""),
    (["show", "bad"], b""),
    (["show", "absent"], b""),
    (["sample", "3", "2", "5", "1", "20"], b""),
    (["probe", "20", "101"], b"z(2)*z(2)\n1/2*z(3,1)^2-z(4)\n1/0\nz(2"),
    (["probe", "5", "15"], b"z(2)\n"),
    (["list", "4"], b""),
    (["dual", "2"], LINES),
    (["reduce", "4", "3", "101", "best"], b"z(4)\n"),
    (["reduce", "4", "3", "101", "lex", "z(2)+z(2)"], b"z(4)\n"),
    (["sample", "3", "2", "5", "1", "100001"], b""),
    (["probe", "0", "101"], b"z(2)\n"),
    (["dual", "x"], LINES),
    ([], LINES),
]
# The shares of a table; a part of one, one with the number of another, and one without its rows; and shares whose rows together are broken.
SHARES = {"share%d" % i: share_bytes(i, 2, share_pages((4, 3, 101, "lex", ()), i, 2)) for i in range(2)}
SHARES["part"] = SHARES["share1"][:-1]
SHARES["turned"] = share_bytes(1, 2, share_pages((4, 3, 101, "lex", ()), 0, 2))
SHARES["empty"] = share_bytes(0, 2, share_pages((4, 3, 101, "lex", ()), 0, 2)[:1] + [("Done", 0)])
SHARES.update(("broken%d" % i, share_bytes(i, 3, share_pages((4, 3, 15, "lex", ()), i, 3))) for i in range(3))
MERGE_CASES = [
    "merge 4 3 101 lex 2 share1 share0",
    "merge 4 3 101 lex 2 share0 share1 share0",
    "merge 4 3 101 lex 2 share1",
    "merge 4 3 101 lex 2 share0 part",
    "merge 4 3 101 lex 2 share0 turned",
    "merge 4 3 101 lex 2 empty share1",
    "merge 4 3 101 lex 3 share0",
    "merge 4 3 101 lex 1 absent",
    "merge 4 3 101 lex 1 .",
    "merge 4 3 15 lex 3 broken0 broken1 broken2",
    "merge 4 3 100 lex 1 share0",
    "merge 4 3 101 lex 0 share0",
    "merge 4 3 101 lex 2",
    "share 3 2 5 lex 1 2",
    "share 3 2 5 lex 2 3",
    "share 6 5 2305843009213693951 odd 1 2",
    "share 5 4 9223372036854775807 lex 0 256",
    "share 4 3 100 lex 0 1",
    "share 4 3 15 lex 0 1",
    "share 3 2 5 lex 0 257",
    "share 3 2 5 lex 2 2",
    "share 4 4 5 lex 0 1",
    "share 3 2 5 lex 2",
    "",
]


def run(program, words, given, library, at, count_file):
    """The status, what is written, the pages of a file that is built, and how many allocations there were."""
    environment = dict(os.environ, LD_PRELOAD=library, FAIL_AT=str(at), FAIL_COUNT=count_file)
    folder = os.path.dirname(count_file)
    done = subprocess.run([program] + words, input=given, capture_output=True, env=environment, timeout=60, cwd=folder)
    with open(count_file) as told:
        count = int(told.read())
    built = os.path.join(folder, "built")
    pages = sealed_pages(contents_of(built))
    if os.path.exists(built):
        os.remove(built)
    return done.returncode, done.stdout, done.stderr, pages, count


def cases():
    """The programs with their words and their input."""
    mzv, *merge = map(os.path.abspath, sys.argv[1:])
    return [(mzv, words, given) for words, given in CASES] + [(program, line.split(), b"") for program in merge for line in MERGE_CASES]


def main():
    passed = failed = 0
    with tempfile.TemporaryDirectory() as work:
        library = os.path.join(work, "failing.so")
        subprocess.run(["cc", "-O1", "-shared", "-fPIC", "-o", library, os.path.join(HERE, "failing_allocations.c")], check=True)
        count_file = os.path.join(work, "count")
        for name, contents in {**FILES, **SHARES}.items():
            with open(os.path.join(work, name), "wb") as file:
                file.write(contents)
        for program, words, given in cases():
            status, output, error, pages, count = run(program, words, given, library, 0, count_file)
            assert error == b"", error
            seen = set()
            for at in range(1, count + 1):
                now, told, error, built, _ = run(program, words, given, library, at, count_file)
                seen.add(now)
                whole = now == status and told == output and built == pages
                if error == b"" and (whole or (now == 1 and output.startswith(told) and pages[:len(built)] == built)):
                    passed += 1
                else:
                    failed += 1
                    print("%s %s, allocation %d: status %d, %d bytes" % (os.path.basename(program), words, at, now, len(told)))
            print("%s %s: status %d, %d allocations, statuses with one failing: %s" % (
                os.path.basename(program), words, status, count, sorted(seen)))
    print("%d passed, %d failed" % (passed, failed))
    sys.exit(failed > 0)


if __name__ == "__main__":
    main()
