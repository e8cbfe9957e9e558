#!/usr/bin/env python3
"""Ends builds by a signal at random moments, and looks whether the first pages of the table's file are left and whether `resume` makes it
whole; meanwhile asks `show`.

    tests/stopped_builds.py PATH_TO_MZV [COUNT [W D]]

The table, (10, 9) where none is given, is built once whole. Then COUNT builds, 60 where no number is given, are ended within the time that this
took. What a killed program wrote is not lost, so this tries the order of writes and not the disk: sealed pages have to be the first ones of the
whole file, byte for byte. While a build goes on `show` has to tell no more pages than are left at the end, and status 8 for the next one alone,
which was written as `show` read. Then `resume` is ended so up to three times, and has to leave as many sealed pages as there were, or more; at last
it has to end with status 0 and leave the whole file. The last line is 'N passed, M failed'.
"""
import os
import random
import re
import signal
import subprocess
import sys
import tempfile
import time

HERE = os.path.dirname(os.path.abspath(__file__))
sys.path.insert(0, HERE)
from oracle.files import contents_of, file_of, sealed_pages  # noqa: E402

MODULUS = "2305843009213693951"


def start(mzv, path, shape, command="build"):
    """A build that was begun, or gone on with."""
    return subprocess.Popen([mzv, command, path, *shape, MODULUS, "lex"], stdout=subprocess.DEVNULL)


def shown(mzv, path):
    """How many pages `show` tells of a file that is being built, and whether it may tell so."""
    done = subprocess.run([mzv, "show", path], capture_output=True, text=True, timeout=60)
    found = re.search(r"^(?:pages |not complete: pages |not a table: page )([0-9]+)(| unreadable|, not done)$", done.stdout, re.M)
    fits = found and done.returncode == {"": 0, " unreadable": 8, ", not done": 9}[found.group(2)]
    return int(found.group(1)) if found else 0, bool(fits)


def stopped(mzv, path, shape, seconds):
    """What `show` told within some seconds of a build, and the bytes that its end then left."""
    if os.path.exists(path):
        os.remove(path)
    build, told, end = start(mzv, path, shape), [], time.monotonic() + seconds
    while time.monotonic() < end:
        told.append(shown(mzv, path))
    build.send_signal(signal.SIGKILL)
    build.wait()
    return told, contents_of(path)


def front_fault(pages, whole):
    """What is wrong with sealed pages, if something is."""
    front = file_of(pages)[:-1]
    return None if whole[:len(front)] == front else "%d sealed pages are not the first of the file" % len(pages)


def resumed(mzv, path, shape, numbers, took, whole):
    """What is wrong with a file with which a build goes on, ended a few times and then let to its end, if something is."""
    for _ in range(numbers.randrange(4)):
        before, going = len(sealed_pages(contents_of(path))), start(mzv, path, shape, "resume")
        time.sleep(numbers.random() * took / 2)
        going.send_signal(signal.SIGKILL)
        going.wait()
        pages = sealed_pages(contents_of(path))
        wrong = front_fault(pages, whole)
        if wrong or len(pages) < before:
            return wrong or "of %d sealed pages resume left %d" % (before, len(pages))
    status = start(mzv, path, shape, "resume").wait()
    return None if status == 0 and contents_of(path) == whole else "resume ended with status %d, and left another file" % status


def fault(told, contents, whole):
    """What is wrong with what was told and left, if something is."""
    pages = sealed_pages(contents)
    wrong = front_fault(pages, whole)
    if wrong:
        return wrong
    counts = [count for count, _ in told]
    if not all(fits for _, fits in told) or counts != sorted(counts) or max(counts, default=0) > len(pages):
        return "show told %r of %d sealed pages" % (told, len(pages))
    return None


def main():
    mzv, count, *shape = (sys.argv[1:] + ["60", "10", "9"][len(sys.argv) - 2:])[:4]
    mzv, passed, failed, numbers = os.path.abspath(mzv), 0, 0, random.Random(1)
    with tempfile.TemporaryDirectory() as folder:
        path, begin = os.path.join(folder, "table"), time.monotonic()
        assert start(mzv, path, shape).wait() == 0, "the whole build failed"
        took, whole = time.monotonic() - begin, contents_of(path)
        for _ in range(int(count)):
            wrong = fault(*stopped(mzv, path, shape, numbers.random() * took), whole) or resumed(mzv, path, shape, numbers, took, whole)
            passed, failed = passed + (not wrong), failed + bool(wrong)
            if wrong:
                print(wrong)
    print("%d passed, %d failed" % (passed, failed))
    sys.exit(failed > 0)


if __name__ == "__main__":
    main()
