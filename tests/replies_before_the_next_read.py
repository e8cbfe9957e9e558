#!/usr/bin/env python3
"""The reply to a line comes before the next line is written.

replies_before_the_next_read.py PATH_TO_MZV

The program runs as `mzv dual 101`, `mzv reduce 4 3 101 lex`, `mzv rewrite table`, `mzv rational table` and `mzv probe 2 101` between two
pipes, as another program would use it: a line is written, and its reply is waited for before the next line. A line in two pieces gets
its reply once its end is there, and one without the byte 10 at the end of the input. Ends with status 0 where all replies came in time,
and with 1 else.
"""

import os
import select
import subprocess
import sys
import tempfile

HERE = os.path.dirname(os.path.abspath(__file__))
sys.path.insert(0, HERE)
from oracle.builds import built_pages  # noqa: E402
from oracle.files import file_of  # noqa: E402

SECONDS = 10

# The file `table` of the folder in which the program runs.
TABLE = file_of(built_pages((4, 3, 101, "lex", ()))[0])

# The words of each run, what is written and what is to come, and the last line, which nothing ends, with its reply.
TALKS = [
    ("dual 101", [
        (b"z(2,1)-z(3)\n", b"0\n"),
        (b"z(3,1)+z(2)\n", b"1*z(2)+1*z(3,1)\n"),
        (b"z(3\n", b"syntax 3\n"),
        (b"\n", b"syntax 0\n"),
        (b"z(2)\nz(4)\n", b"1*z(2)\n1*z(4)\n"),
        (b"z(2,1)+", b""),
        (b"z(3)\n", b"2*z(3)\n"),
    ], (b"z(5)", b"1*z(5)\n")),
    ("reduce 4 3 101 lex", [
        (b"z(3,1)\n", b"91*z(2)^2\n"),
        (b"2*z(4) - z(2,1", b""),
        (b",1)\nz(2)\n", b"61*z(2)^2\nweight 2\n"),
    ], (b"z(2)*z(2)", b"1*z(2)^2\n")),
    ("rewrite table", [
        (b"z(4)\n", b"61*z(2)^2\n"),
        (b"z(3,1)-z(4", b""),
        (b")\nz(2\n", b"30*z(2)^2\nsyntax 3\n"),
    ], (b"z(1,3)", b"50*z(2)^2\n")),
    ("rational table", [
        (b"z(4)\n", b"2/5*z(2)^2\n"),
        (b"-z(4)+", b""),
        (b"z(2)^2\n", b"3/5*z(2)^2\n"),
    ], (b"z(3,1)", b"91*z(2)^2\n")),
    ("probe 2 101", [
        (b"z(2)\n", b"77\n"),
        (b"2*z(2,2)+", b""),
        (b"z(4)\n", b"71\n"),
    ], (b"z(1)", b"52\n")),
]


def reply(pipe, wanted):
    """The bytes that come within the time, as many as are wanted."""
    read = b""
    while len(read) < len(wanted):
        if not select.select([pipe], [], [], SECONDS)[0]:
            break
        piece = os.read(pipe.fileno(), len(wanted) - len(read))
        if not piece:
            break
        read += piece
    return read


def fault_of(program, talk, end):
    """What went wrong in a conversation, if something did."""
    for line, wanted in talk:
        program.stdin.write(line)
        came = reply(program.stdout, wanted)
        if came != wanted:
            return f"{line!r}: {wanted!r} was to come before the next read, and {came!r} came"
    line, wanted = end
    program.stdin.write(line)
    program.stdin.close()
    came, status = program.stdout.read(), program.wait(SECONDS)
    return None if (came, status) == (wanted, 0) else f"at the end {came!r} came, with status {status}"


def first_fault(mzv, folder):
    """What went wrong first, if something did."""
    for words, talk, end in TALKS:
        program = subprocess.Popen([mzv] + words.split(), bufsize=0, stdin=subprocess.PIPE, stdout=subprocess.PIPE, cwd=folder)
        try:
            fault = fault_of(program, talk, end)
        finally:
            program.kill()
        if fault:
            return f"mzv {words}: {fault}"
    return None


def main():
    with tempfile.TemporaryDirectory() as folder:
        with open(os.path.join(folder, "table"), "wb") as file:
            file.write(TABLE)
        fault = first_fault(os.path.abspath(sys.argv[1]), folder)
    if fault:
        print(fault)
        return 1
    print(f"{sum(len(talk) + 1 for _, talk, _ in TALKS)} replies came in time")
    return 0


if __name__ == "__main__":
    if len(sys.argv) != 2:
        sys.exit(__doc__)
    sys.exit(main())
