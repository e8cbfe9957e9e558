#!/usr/bin/env python3
"""Looks whether the pages of docs/crates quote the sources as they stand; with --write it puts what stands there into them.

    tests/crate_pages.py [--write]

A page is named as its crate. Under `## A caller` a path in backticks that is followed by a name in backticks says which function of the
sources the block of code quotes. Under `## Contracts` stand the contracts of the crate's public calls. The last line is 'N passed, M failed'.
"""
import glob
import os
import re
import sys
import textwrap

HERE = os.path.dirname(os.path.abspath(__file__))
sys.path.insert(0, HERE)
from contracts import WORD, contracts, read  # noqa: E402

ROOT = os.path.dirname(HERE)
CALLER = re.compile(r"(`(crates/[^`]*\.rt)`, `(%s)`[^`]*\n```rust\n)(.*?)(?=^```)" % WORD, re.M | re.S)
CONTRACTS = re.compile(r"(^## Contracts\n.*?^```text\n)(.*?)(?=^```)", re.M | re.S)


def function(path, name):
    """The text of a function, with the comments before it."""
    path = os.path.join(ROOT, path)
    found = os.path.exists(path) and re.search(r"^((?: *///?[^\n]*\n)*( *)(?:pub(?:\(crate\))? )?fn %s\b.*?^\2\}\n)" % name, read(path), re.M | re.S)
    return textwrap.dedent(found.group(1)) if found else "// not there: %s\n" % name


def public_calls(crate):
    """The contracts of a crate's public calls, one behind the other."""
    calls = []
    for _, owner, text in contracts(ROOT, crate):
        text = re.sub(r"^pub ", "", textwrap.dedent(text).rstrip(" ;\n"))
        text = re.sub(r"\n\s*\n", "\n", re.sub(r"\n\s*\n", "\n", text))
        if "ensures" not in text:
            continue
        text = re.sub(r"\(\n(.*?,)\n\)", lambda found: "(%s)" % " ".join(found.group(1).split()).rstrip(","), text, flags=re.S)
        calls.append(re.sub(r"^fn ", "fn %s::" % owner if owner else "fn ", text) + "\n")
    return "".join(calls)


def as_it_stands(page, crate):
    """The page, with what the sources say in its quotes."""
    page = CALLER.sub(lambda found: found.group(1) + function(found.group(2), found.group(3)), page)
    return CONTRACTS.sub(lambda found: found.group(1) + public_calls(crate), page)


def main():
    passed = failed = 0
    for path in sorted(glob.glob(os.path.join(ROOT, "docs", "crates", "*.md"))):
        page, crate = read(path), os.path.basename(path)[:-3]
        wanted = as_it_stands(page, crate)
        if "// not there" in wanted:
            failed += 1
            print("docs/crates/%s.md quotes a function that is not there" % crate)
        elif page == wanted:
            passed += 1
        elif "--write" in sys.argv[1:]:
            with open(path, "w", encoding="utf-8") as file:
                file.write(wanted)
            passed += 1
        else:
            failed += 1
            print("docs/crates/%s.md is not as the sources stand: tests/crate_pages.py --write" % crate)
    print("%d passed, %d failed" % (passed, failed))
    sys.exit(failed > 0)


if __name__ == "__main__":
    main()
