#!/usr/bin/env python3
"""Stops the real program at each of the calls that change its file, and looks whether `resume` makes the file whole.

    tests/stopped_calls.py PATH_TO_MZV

A build of each table is stopped at its first such call, then at its second, and so on until one ends by itself: the process ends there, half of
the bytes of a write being written, or the call and all behind it fail, which has to give status 5 and no line. What is left has to begin with the
first pages of the whole file. Then `resume` is stopped likewise at each call, over a copy; it loses no page, and one that is not stopped ends with
status 0 and leaves the whole file. The last line is 'N passed, M failed'.
"""
import os
import subprocess
import sys
import tempfile

HERE = os.path.dirname(os.path.abspath(__file__))
sys.path.insert(0, HERE)
from oracle.files import contents_of, file_of, sealed_pages  # noqa: E402

TABLES = (("2", "1", "3", "lex"), ("3", "2", "5", "lex"))
STOPPED, DISK_FAULT = 99, 5


class Program:
    """The program, with the library that stops it."""

    def __init__(self, mzv, library):
        self.mzv, self.library = mzv, library

    def run(self, command, path, table, at=0, fails=False):
        """The status of a run that is stopped at a call, or of one that is not where the number is 0, and what it writes."""
        environment = dict(os.environ, LD_PRELOAD=self.library, STOP_AT=str(at), **({"STOP_FAILS": "1"} if fails else {}))
        done = subprocess.run([self.mzv, command, path, *table], capture_output=True, env=environment, timeout=60)
        return done.returncode, done.stdout

    def stops(self, command, path, table, contents, fails):
        """What is left by runs over a file that are stopped at each call in turn, with whether they end as they have to."""
        at, status = 1, None
        while status != 0:
            with open(path, "wb") as file:
                file.write(contents)
            status, said = self.run(command, path, table, at, fails)
            yield contents_of(path), status == 0 or (status, said) == (DISK_FAULT if fails else STOPPED, b"")
            at += 1


def begins_whole(contents, whole, count):
    """Whether a file has so many sealed pages or more, and they are the first ones of the whole file."""
    pages = sealed_pages(contents)
    front = file_of(pages)[:-1]
    return len(pages) >= count and whole[:len(front)] == front


def table_holds(program, path, table):
    """For each stopped run over a table whether it holds what it has to."""
    if os.path.exists(path):
        os.remove(path)
    assert program.run("build", path, table)[0] == 0, "the whole build failed"
    whole = contents_of(path)
    for fails in (False, True):
        for built, ended in list(program.stops("build", path, table, b"", fails)):
            yield ended and begins_whole(built, whole, 0)
            count = len(sealed_pages(built))
            for left, ended in list(program.stops("resume", path, table, built, fails)):
                with open(path, "wb") as file:
                    file.write(left)
                status, _ = program.run("resume", path, table)
                yield ended and begins_whole(left, whole, count) and status == 0 and contents_of(path) == whole


def main():
    passed = failed = 0
    with tempfile.TemporaryDirectory() as work:
        library = os.path.join(work, "stopped.so")
        subprocess.run(["cc", "-O1", "-shared", "-fPIC", "-o", library, os.path.join(HERE, "stopped_calls.c")], check=True)
        for table in TABLES:
            program = Program(os.path.abspath(sys.argv[1]), library)
            for holds in table_holds(program, os.path.join(work, "table"), table):
                passed, failed = passed + holds, failed + (not holds)
    print("%d passed, %d failed" % (passed, failed))
    sys.exit(failed > 0)


if __name__ == "__main__":
    main()
