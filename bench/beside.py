#!/usr/bin/env python3
"""Builds proved programs and their plain twins, and times them in turn.

    bench/beside.py NAME[:WORD..].. [RUNS]

NAME is a folder of bench/ with `proved.txt`, the main file of a Rattle program, `deps`, the crates that it uses, `proofs/`, its
proof files with the ending .txt, `plain.rs`, the twin, or `twin.txt` where that is a proved program too, and sometimes
`input.py`, which is called with the words and writes what both read. The program is built over a copy of crates/ in a folder
of its own, so that nothing here is a part of the gate. The best run counts for each; take the ratio. Of some programs parts
are timed apart: these write the name of each part and its nanoseconds to the standard error.
"""
import os
import shutil
import subprocess
import sys
import tempfile
import time

HERE = os.path.dirname(os.path.abspath(__file__))
ROOT = os.path.dirname(HERE)


def build_proved(source, work, main="proved.txt"):
    """The program of a folder, proved and built by LLVM."""
    name = os.path.basename(source)
    shutil.copytree(os.path.join(ROOT, "crates"), os.path.join(work, "crates"), ignore=shutil.ignore_patterns("out"))
    with open(os.path.join(ROOT, "crates.txt")) as given, open(os.path.join(work, "crates.txt"), "w") as listed:
        listed.write(given.read())
        listed.write("bench_%s: %s\n" % (name, open(os.path.join(source, "deps")).read().strip()))
    crate = os.path.join(work, "crates", "bench_" + name)
    os.makedirs(os.path.join(crate, "src"))
    shutil.copy(os.path.join(source, main), os.path.join(crate, "src", "main.rt"))
    proofs = os.path.join(source, "proofs")
    for folder, _, files in os.walk(proofs):
        to = os.path.join(crate, "proofs", os.path.relpath(folder, proofs))
        os.makedirs(to, exist_ok=True)
        for file in files:
            shutil.copy(os.path.join(folder, file), os.path.join(to, file[:-4] + ".antt"))
    # Without input some programs end with a code of their own, so what counts is that the program is there.
    subprocess.run(["rt", "run"], cwd=crate, stdin=subprocess.DEVNULL, stdout=subprocess.DEVNULL, stderr=subprocess.DEVNULL)
    program = os.path.join(crate, "out", "bench_" + name)
    if not os.path.exists(program):
        sys.exit("%s is not proved: call rt check in a copy" % name)
    return program


def build_twin(name, work):
    if os.path.exists(os.path.join(HERE, name, "twin.txt")):
        folder = os.path.join(work, "twin")
        os.mkdir(folder)
        return build_proved(os.path.join(HERE, name), folder, "twin.txt")
    plain = os.path.join(work, "plain")
    subprocess.run(["rustc", "--edition", "2021", "-O", "-o", plain, os.path.join(HERE, name, "plain.rs")], check=True)
    return plain


def write_input(name, words, path):
    """Writes what both programs read, nothing where the folder does not say."""
    script = os.path.join(HERE, name, "input.py")
    with open(path, "wb") as given:
        if os.path.exists(script):
            subprocess.run([sys.executable, script] + words, check=True, stdout=given)


def timed(program, given):
    """The seconds of a run and of its parts, and what it printed."""
    with open(given, "rb") as read:
        begin = time.perf_counter()
        run = subprocess.run([program], check=True, stdin=read, capture_output=True)
        seconds = {"all": time.perf_counter() - begin}
    parts = run.stderr.decode().split()
    seconds.update({part: int(n) / 1e9 for part, n in zip(parts[::2], parts[1::2])})
    return seconds, run.stdout


def build(tasks, work):
    """The two programs of each task and its input, by the task."""
    programs, inputs, built = {}, {}, {}
    for task in tasks:
        name, *words = task.split(":")
        if name not in built:
            folder = os.path.join(work, name)
            os.mkdir(folder)
            built[name] = {"proved": build_proved(os.path.join(HERE, name), folder), "plain": build_twin(name, folder)}
        programs[task] = built[name]
        inputs[task] = os.path.join(work, task + ".input")
        write_input(name, words, inputs[task])
    return programs, inputs


def tell(task, runs):
    """Writes the least time of each program, whole and of each part, and their ratio."""
    assert len({told for kind in runs for _, told in runs[kind]}) == 1, "the two differ"
    for part in runs["proved"][0][0]:
        proved, plain = (min(seconds[part] for seconds, _ in runs[kind]) for kind in ("proved", "plain"))
        called = task if part == "all" else "%s, %s" % (task, part)
        print("%s: proved %.2f ms, plain %.2f ms, ratio %.2f" % (called, proved * 1e3, plain * 1e3, proved / plain))


def main():
    tasks = sys.argv[1:]
    rounds = int(tasks.pop()) if tasks[-1].isdigit() else 7
    with tempfile.TemporaryDirectory() as work:
        programs, inputs = build(tasks, work)
        runs = {task: {"proved": [], "plain": []} for task in tasks}
        for _ in range(rounds):
            for task in tasks:
                for kind, program in programs[task].items():
                    runs[task][kind].append(timed(program, inputs[task]))
        for task in tasks:
            tell(task, runs[task])


if __name__ == "__main__":
    main()
