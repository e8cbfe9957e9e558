#!/usr/bin/env python3
"""Runs `mzv check` on the file of a small table cut to each length, and with each of its bytes changed to each other value.

    tests/changed_bytes.py PATH_TO_MZV

The file is that of examples/weight3.hex, 131 bytes. Status and output are compared with those of the plain program of tests/oracle: some 33,500
runs, a minute or two. The last line is 'N passed, M failed'.
"""
import os
import subprocess
import sys
import tempfile

HERE = os.path.dirname(os.path.abspath(__file__))
sys.path.insert(0, HERE)
from oracle.command_line import Refused  # noqa: E402
from oracle.program import with_file  # noqa: E402


def small_file():
    """The bytes of the file."""
    with open(os.path.join(os.path.dirname(HERE), "examples", "weight3.hex")) as given:
        return bytes.fromhex(given.read())


def changes(contents):
    """What is done to the file, and its bytes then."""
    for length in range(len(contents) + 1):
        yield "cut to %d bytes" % length, contents[:length]
    for place, old in enumerate(contents):
        for new in range(256):
            if new != old:
                yield "byte %d is %d" % (place, new), contents[:place] + bytes([new]) + contents[place + 1:]


def wanted(contents):
    """The status and the output of `check` on some bytes."""
    try:
        status, (line,) = 0, with_file("check", contents)
    except Refused as refused:
        status, line = refused.args
    return status, line.encode() + b"\n"


def main():
    mzv, passed, failed = os.path.abspath(sys.argv[1]), 0, 0
    with tempfile.TemporaryDirectory() as folder:
        path = os.path.join(folder, "table")
        for change, contents in changes(small_file()):
            with open(path, "wb") as file:
                file.write(contents)
            done = subprocess.run([mzv, "check", path], stdin=subprocess.DEVNULL, capture_output=True, timeout=60)
            if (done.returncode, done.stdout, done.stderr) == (*wanted(contents), b""):
                passed += 1
            else:
                failed += 1
                print("%s: status %d, %r, and not %r" % (change, done.returncode, done.stdout, wanted(contents)))
    print("%d passed, %d failed" % (passed, failed))
    sys.exit(failed > 0)


if __name__ == "__main__":
    main()
