#!/usr/bin/env python3
"""Runs the scripts of examples/shares, which make a table in shares and merge them, and compares with the table that `mzv build` makes.

    tests/shares_in_parallel.py PATH_TO_MZV PATH_TO_MZV_MERGE

One script is for make and one for GNU parallel; they are run where that is there. The one for Slurm is run with a stand-in for `sbatch` that
starts the tasks of an array one after the other, in an order by chance. Then one share is taken away and made again, and one is given to
`merge` twice. The last line is 'N passed, M failed'.
"""
import glob
import os
import random
import shutil
import subprocess
import sys
import tempfile

SCRIPTS = os.path.join(os.path.dirname(os.path.dirname(os.path.abspath(__file__))), "examples", "shares")
TABLE, COUNT = ["6", "5", "101", "lex"], "4"
SBATCH = '''#!/bin/sh
# Starts the tasks at once; a dependency has ended by then.
tasks=
while :; do
    case $1 in
    --array=*) tasks=$(seq $(echo "${1#--array=}" | tr - ' ') | shuf) ;;
    --parsable | --dependency=afterok:1) ;;
    *) break ;;
    esac
    shift
done
for task in ${tasks:-none}; do
    SLURM_ARRAY_TASK_ID=$task sh "$@" || exit 1
done
echo 1
'''


class Script:
    """A script of examples/shares: the tool that it needs, and how it is started."""

    def __init__(self, tool, words):
        self.tool, self.words = tool, words


MAKE = ["make", "-s", "-j", "4", "-f", os.path.join(SCRIPTS, "shares.mk")] + ["%s=%s" % pair for pair in zip("W D M ORDER S".split(), TABLE + [COUNT])]
NAMES = {"shares.mk": Script("make", MAKE),
         "parallel.sh": Script("parallel", ["sh", os.path.join(SCRIPTS, "parallel.sh"), *TABLE, COUNT]),
         "submit.sh": Script("sh", ["sh", os.path.join(SCRIPTS, "submit.sh"), *TABLE, COUNT])}


def wanted(mzv, work):
    """What merging is to print, by the file of the whole table."""
    table = os.path.join(work, "table")
    subprocess.run([mzv, "build", table, *TABLE], check=True, stdout=subprocess.DEVNULL)
    rows = subprocess.run([mzv, "show", table], check=True, capture_output=True).stdout.splitlines(keepends=True)[2:]
    return b"merged: rows %d\n" % len(rows) + b"".join(rows)


def made(script, environment, folder):
    """What stands in the file rows after a script, which is not there before."""
    rows = os.path.join(folder, "rows")
    if os.path.exists(rows):
        os.remove(rows)
    done = subprocess.run(script.words, cwd=folder, env=environment, stdin=subprocess.DEVNULL, capture_output=True, timeout=300)
    if done.returncode:
        return done.stderr
    with open(rows, "rb") as file:
        return file.read()


def results(script, environment, folder):
    """What a script gives: at first, after a share was lost, and where `merge` gets one share twice."""
    yield "at first", made(script, environment, folder)
    shares = sorted(glob.glob(os.path.join(folder, "share-*-of-" + COUNT)))
    os.remove(random.choice(shares))
    yield "with a share that was lost", made(script, environment, folder)
    words = ["mzv_merge", "merge", *TABLE, COUNT, *shares, random.choice(shares)]
    yield "with a share twice", subprocess.run(words, env=environment, capture_output=True, timeout=300).stdout


def main():
    mzv, merge = map(os.path.abspath, sys.argv[1:])
    passed = failed = 0
    with tempfile.TemporaryDirectory() as work:
        programs = os.path.join(work, "bin")
        os.mkdir(programs)
        os.symlink(merge, os.path.join(programs, "mzv_merge"))
        with open(os.path.join(programs, "sbatch"), "w") as file:
            file.write(SBATCH)
        os.chmod(os.path.join(programs, "sbatch"), 0o755)
        environment, want = dict(os.environ, PATH=programs + os.pathsep + os.environ["PATH"]), wanted(mzv, work)
        for name, script in NAMES.items():
            if not shutil.which(script.tool):
                print("%s: skipped, %s is missing" % (name, script.tool))
                continue
            folder = os.path.join(work, name)
            os.mkdir(folder)
            for kind, got in results(script, environment, folder):
                passed, failed = passed + (got == want), failed + (got != want)
                if got != want:
                    print("%s %s: %r" % (name, kind, got[:200]))
    print("%d passed, %d failed" % (passed, failed))
    sys.exit(failed > 0)


if __name__ == "__main__":
    main()
