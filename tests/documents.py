#!/usr/bin/env python3
"""Runs every command that the documents show with its output, and compares.

    tests/documents.py PATH_TO_MZV [PATH_TO_MZV_MERGE]

In README.md and docs/ a line `$ mzv ..`, or one of a pipe or a loop with `mzv` or `mzv_merge` in it, in a block of code is typed in a folder
that has what stands at the top of the repository, and what follows it, up to the next such line or the end of the block, is what it prints.
A line `..` stands for any lines. Lines with a program that is not given are left out. Each page has a folder of its own, where the files
that its commands make stay up to its end. Each file of examples/ that ends with .sh has its output beside it. The last line is 'N passed, M
failed'.
"""
import os
import re
import subprocess
import sys
import tempfile

ROOT = os.path.dirname(os.path.dirname(os.path.abspath(__file__)))


def documents():
    """README.md and the pages of docs/."""
    yield os.path.join(ROOT, "README.md")
    for folder, _, files in sorted(os.walk(os.path.join(ROOT, "docs"))):
        for file in sorted(files):
            if file.endswith(".md"):
                yield os.path.join(folder, file)


def shown(path):
    """The commands with `mzv` or `mzv_merge` that a page shows, each with the lines that it prints."""
    with open(path, encoding="utf-8") as page:
        blocks = re.findall(r"^```[^\n]*\n(.*?)^```", page.read(), re.M | re.S)
    for block in blocks:
        for part in re.split(r"^\$ ", block, flags=re.M)[1:]:
            command, *lines = part.splitlines()
            if re.search(r"(^|[|;('] *|\bdo )mzv(_merge)?\b", command):
                yield command, lines


def scripts():
    """The scripts of examples/, each with the lines that it prints."""
    folder = os.path.join(ROOT, "examples")
    for file in sorted(os.listdir(folder)):
        if file.endswith(".sh"):
            with open(os.path.join(folder, file[:-3] + ".out")) as output:
                yield "sh examples/" + file, output.read().splitlines()


def is_shown(lines, printed):
    """Whether the lines are those that were printed; `..` stands for any number of lines."""
    pattern = "".join(r"(?:.*\n)*" if line == ".." else re.escape(line) + "\n" for line in lines)
    return re.fullmatch(pattern, printed) is not None


def folder_of(page, work):
    """The folder in which the commands of a page are typed. It is made at the first of them."""
    folder = os.path.join(work, page.replace(os.sep, "_"))
    if not os.path.isdir(folder):
        os.mkdir(folder)
        for name in os.listdir(ROOT):
            os.symlink(os.path.join(ROOT, name), os.path.join(folder, name))
    return folder


def main():
    given = dict(zip(("mzv", "mzv_merge"), map(os.path.abspath, sys.argv[1:])))
    commands = [(os.path.relpath(path, ROOT), *found) for path in documents() for found in shown(path)]
    commands += [("examples", *found) for found in scripts()]
    commands = [found for found in commands if "mzv_merge" in given or "mzv_merge" not in found[1]]
    failed = 0
    with tempfile.TemporaryDirectory() as work:
        programs = os.path.join(work, "bin")
        os.mkdir(programs)
        for name, path in given.items():
            os.symlink(path, os.path.join(programs, name))
        environment = dict(os.environ, PATH=programs + os.pathsep + os.environ["PATH"], TMPDIR=work)
        for page, command, lines in commands:
            words, folder = ["bash", "-c", command], folder_of(page, work)
            done = subprocess.run(words, cwd=folder, env=environment, capture_output=True, text=True, timeout=60)
            if not is_shown(lines, done.stdout):
                failed += 1
                print("%s: %s\n  prints %r\n  is shown with %r" % (page, command, done.stdout, "\n".join(lines)))
    print("%d passed, %d failed" % (len(commands) - failed, failed))
    sys.exit(failed > 0)


if __name__ == "__main__":
    main()
