#!/usr/bin/env python3
"""Measures adds to shared cells and turns on several threads, beside the same work in plain Rust; run by hand.

In a copy of the repository the crate of thread_times/ is put among the crates, and rt run proves and builds it; its
files end in .txt here, since rt ci takes no source that crates.txt doesn't list. thread_times/plain.rs is built by
rustc -O. Of some runs the least whole time and the least processor time, less those of a run that does nothing.

    threads.py [RUNS]           by default 5 runs; a machine that does nothing else
    threads.py --keep FOLDER    builds both programs into the folder, as proved and plain
    threads.py --of FOLDER [RUNS]    measures the programs that were kept there
"""
import os
import shutil
import subprocess
import sys
import tempfile
import time

HERE = os.path.dirname(os.path.abspath(__file__))
TOP = os.path.join(HERE, "..")
CRATE = "thread_times"
NEEDS = "rma_types call_rules cell_face cell_words listed_values turn_lock"
# What is done, on how many threads, and how often on each.
CASES = [
    ("own", 1, 1000000),
    ("own", 2, 1000000),
    ("own", 4, 1000000),
    ("one", 4, 1000000),
    ("one", 16, 1000000),
    ("turns", 1, 1000000),
    ("turns", 4, 20000),
    ("turns", 16, 20000),
]
NAMES = {"own": "adds, a cell for each thread", "one": "adds, one cell for all", "turns": "turns"}


def ignored(folder, names):
    """What is no source."""
    return [name for name in names if name == "out"]


def put_crate(crate):
    """Puts the files of thread_times/ into the folder of a crate, without the ending .txt."""
    source = os.path.join(HERE, CRATE)
    for folder, _, names in os.walk(source):
        for name in names:
            stem, ending = os.path.splitext(name)
            if ending != ".txt":
                continue
            where = os.path.join(crate, os.path.relpath(folder, source))
            os.makedirs(where, exist_ok=True)
            shutil.copy(os.path.join(folder, name), os.path.join(where, stem))


def build_proved(program):
    """Proves and builds the program of thread_times/ in a copy of the repository."""
    with tempfile.TemporaryDirectory() as copy:
        crate = os.path.join(copy, "crates", CRATE)
        shutil.copytree(os.path.join(TOP, "crates"), os.path.join(copy, "crates"), ignore=ignored)
        put_crate(crate)
        shutil.copy(os.path.join(TOP, "HANDLES"), copy)
        shutil.copy(os.path.join(TOP, "crates.txt"), copy)
        with open(os.path.join(copy, "crates.txt"), "a") as file:
            file.write("%s: %s\n" % (CRATE, NEEDS))
        if subprocess.run(["rt", "run", "--", "own", "1", "0"], cwd=crate).returncode != 0:
            sys.exit("rt run did not prove, build and run %s" % CRATE)
        shutil.copy(os.path.join(crate, "out", CRATE), program)


def build_plain(program):
    """Builds the same in plain Rust."""
    source = os.path.join(HERE, CRATE, "plain.rs")
    subprocess.run(["rustc", "-O", "--edition", "2021", source, "-o", program], check=True)


def build_both(folder):
    """Builds both programs into a folder."""
    build_plain(os.path.join(folder, "plain"))
    build_proved(os.path.join(folder, "proved"))


def run(program, what, threads, times):
    """Runs a program once, and returns its whole time and its processor time in seconds."""
    begin = time.perf_counter()
    child = subprocess.Popen([program, what, str(threads), str(times)])
    _, status, used = os.wait4(child.pid, 0)
    end = time.perf_counter()
    if status != 0:
        sys.exit("%s %s ended with %d" % (program, what, os.waitstatus_to_exitcode(status)))
    return end - begin, used.ru_utime + used.ru_stime


def least(program, what, threads, times, runs):
    """The least whole time and the least processor time of some runs."""
    took = [run(program, what, threads, times) for _ in range(runs)]
    return min(whole for whole, _ in took), min(used for _, used in took)


def for_each(program, case, runs):
    """The whole time and the processor time for one add or turn, in nanoseconds."""
    what, threads, times = case
    whole, used = least(program, what, threads, times, runs)
    idle_whole, idle_used = least(program, what, threads, 0, runs)
    each = threads * times / 1e9
    return (whole - idle_whole) / each, (used - idle_used) / each


def measure(folder, runs):
    """Prints a table of what the two programs in a folder take."""
    print("Load before: %.1f" % os.getloadavg()[0])
    print("| what | threads | each | whole time for one, in ns | processor time for one, in ns "
          "| plain Rust: whole | plain Rust: processor |")
    print("|---|---|---|---|---|---|---|")
    for case in CASES:
        what, threads, times = case
        ours = for_each(os.path.join(folder, "proved"), case, runs)
        theirs = for_each(os.path.join(folder, "plain"), case, runs)
        print("| %s | %d | %d | %.1f | %.1f | %.1f | %.1f |" % (
            NAMES[what], threads, times, *ours, *theirs), flush=True)


def main():
    words = sys.argv[1:]
    if words[:1] == ["--keep"]:
        os.makedirs(words[1], exist_ok=True)
        build_both(words[1])
    elif words[:1] == ["--of"]:
        measure(words[1], int(words[2]) if len(words) > 2 else 5)
    else:
        with tempfile.TemporaryDirectory() as folder:
            build_both(folder)
            measure(folder, int(words[0]) if words else 5)


if __name__ == "__main__":
    main()
