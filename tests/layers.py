#!/usr/bin/env python3
"""Looks whether the pages know every crate of crates.txt.

    tests/layers.py

The map of docs/LAYERS.md has each crate once, in a row above those of the crates that it stands on; README.md has a row that begins with
it, alone or beside others, and docs/CLAIMS.md a heading or a sentence. Crates of tests, whose names end with _tests, promise nothing, and
docs/TESTING.md alone has a row for each. The last line is 'N passed, M failed'.
"""
import os
import re
import sys

HERE = os.path.dirname(os.path.abspath(__file__))
ROOT = os.path.dirname(HERE)
sys.path.insert(0, HERE)
from contracts import read  # noqa: E402


def listed():
    """The crates of crates.txt, each with those that it stands on."""
    lines = [line.split("#")[0].strip() for line in read(os.path.join(ROOT, "crates.txt")).split("\n")]
    crates = {line.split(":")[0].split()[0]: line.split(":")[1].split() for line in lines if ":" in line}
    return {name: [below for below in deps if below in crates] for name, deps in crates.items()}


def rows():
    """The rows of the map, the highest first."""
    block = re.search(r"^```text\n(.*?)^```", read(os.path.join(ROOT, "docs", "LAYERS.md")), re.M | re.S)
    return [row.split() for row in block.group(1).splitlines()]


def main():
    crates, shown = listed(), rows()
    place = {name: i for i, row in enumerate(shown) for name in row}
    cells = re.findall(r"^\| ((?:`\w+`(?:, )?)+) \|", read(os.path.join(ROOT, "README.md")), re.M)
    table = [name for cell in cells for name in re.findall(r"\w+", cell)]
    claims = read(os.path.join(ROOT, "docs", "CLAIMS.md"))
    tested = re.findall(r"^\| `(\w+_tests)` \|", read(os.path.join(ROOT, "docs", "TESTING.md")), re.M)
    wrong = ["docs/LAYERS.md: %s is no crate" % name for name in place if name not in crates]
    wrong += ["docs/TESTING.md: no row for %s" % name for name in crates if name.endswith("_tests") and name not in tested]
    for name, below in crates.items():
        if name.endswith("_tests"):
            continue
        if sum(row.count(name) for row in shown) != 1:
            wrong.append("docs/LAYERS.md: %s does not stand there once" % name)
        wrong += ["docs/LAYERS.md: %s is not above %s" % (name, other) for other in below if place.get(name, 0) >= place.get(other, len(shown))]
        if name not in table:
            wrong.append("README.md: no row for %s" % name)
        if "`%s`" % name not in claims:
            wrong.append("docs/CLAIMS.md: nothing of %s" % name)
    for line in wrong:
        print(line)
    print("%d passed, %d failed" % (len(crates), len(wrong)))
    sys.exit(bool(wrong))


if __name__ == "__main__":
    main()
