#!/usr/bin/env python3
"""Looks whether docs/definitions has every definition that a public clause cites, itself or through another definition.

    tests/definitions.py [FOLDER]

FOLDER, this repository where none is given, has the crates/ that are read. In docs/definitions a heading that ends with the path of
a file of specs/ in backticks begins a part, and a line `- ` with names in backticks up to a colon says what they mean. Each
such name has to stand in that file, and each cited definition has to have such a line, but those of a file Inner.antt, which
say what single steps of the code answer. The last line is 'N passed, M failed'.
"""
import glob
import os
import re
import sys

HERE = os.path.dirname(os.path.abspath(__file__))
sys.path.insert(0, HERE)
from contracts import WORD, contracts, libraries, read  # noqa: E402

ROOT = sys.argv[1] if len(sys.argv) > 1 else os.path.dirname(HERE)
DEFINED = re.compile(r"^ *(?:abbrev pub|unfoldable pub|pub record|pub data) (%s)\b" % WORD, re.M)
USES = re.compile(r"use Rattle\.(%s)\.specs\.(%s)\.\{([^}]*)\}" % (WORD, WORD))


def definitions():
    """Each definition of specs/ as (crate, file, name), with its text and the definitions that are in scope there."""
    found = {}
    for path in glob.glob(os.path.join(ROOT, "crates", "*", "specs", "*.antt")):
        crate, file = path.split(os.sep)[-3], os.path.basename(path)[:-5]
        text = read(path)
        marks = list(DEFINED.finditer(text))
        scope = {mark.group(1): (crate, file, mark.group(1)) for mark in marks}
        scope.update(imported(text))
        for mark, end in zip(marks, [m.start() for m in marks[1:]] + [len(text)]):
            found[crate, file, mark.group(1)] = (re.sub(r"--.*", "", text[mark.start():end]), scope)
    return found


def imported(text):
    """The names of this repository's specs/ that a file brings in."""
    scope = {}
    for crate, file, names in USES.findall(text):
        for name in names.split(","):
            name, _, other = name.strip().partition(" as ")
            scope[other.strip() or name] = (crate, file, name)
    return scope


def cited(found):
    """The definitions that public clauses cite, and those that these cite in turn."""
    waiting, seen = [], set()
    for crate in libraries(ROOT):
        for path, _, contract in contracts(ROOT, crate):
            scope = imported(read(path))
            waiting += [scope[name] for name in re.findall(WORD, contract) if name in scope]
    while waiting:
        at = waiting.pop()
        if at in seen or at not in found or at[1] == "Inner":
            continue
        seen.add(at)
        text, scope = found[at]
        waiting += [scope[name] for name in re.findall(WORD, text) if name in scope]
    return seen


def told():
    """The definitions that the pages tell."""
    for path in sorted(glob.glob(os.path.join(HERE, "..", "docs", "definitions", "*.md"))):
        parts = re.split(r"^#.*`crates/(%s)/specs/(%s)\.antt`$" % (WORD, WORD), read(path), flags=re.M)
        for crate, file, text in zip(parts[1::3], parts[2::3], parts[3::3]):
            for head in re.findall(r"^- ((?:`%s`(?:,\s+)?)+):" % WORD, text, re.M):
                for name in re.findall(r"`(%s)`" % WORD, head):
                    yield os.path.basename(path), (crate, file, name)


def main():
    found = definitions()
    pages = list(told())
    stands = {at for _, at in pages}
    wrong = ["%s: no definition %s in %s/specs/%s.antt" % (page, at[2], at[0], at[1]) for page, at in pages if at not in found]
    wrong += ["no page tells %s of %s/specs/%s.antt" % (at[2], at[0], at[1]) for at in sorted(cited(found) - stands)]
    for line in wrong:
        print(line)
    print("%d passed, %d failed" % (len(stands & set(found)), len(wrong)))
    sys.exit(bool(wrong))


if __name__ == "__main__":
    main()
