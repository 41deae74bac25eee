#!/usr/bin/env python3
"""Measures the program over whole scripts of the benchmark; run by hand, not by the gate.

Of some runs the least user time and the least time from start to end, which a busy machine disturbs less; peak memory
by GNU time.

    measure.py [PROGRAM [RUNS [NAME...]]]    by default the program that rt ci leaves, 5 runs, and all scripts
"""
import os
import subprocess
import sys
import tempfile
import time

import scripts

PROGRAM = os.path.join(os.path.dirname(os.path.abspath(__file__)), "../crates/rma_runner/out/rma_runner")
# The script, its sizes, and the words of the command line; first whole scripts, then those that do little but one
# thing.
WHOLE = [
    ("cells", (30720, 61440), ""),
    ("cells", (30720, 61440), "--order seeded --delay seeded"),
    ("one_cell", (16000, 32000, 65472), ""),
    ("sums_and_swaps", (16000, 32000, 65472), ""),
    ("locks", (8000, 16000), ""),
    ("locked_puts", (8000, 16000), ""),
    ("rounds", (4800, 9600), ""),
    ("accumulates", (8000, 16000), ""),
    ("accumulates_of_one", (16000, 65500), ""),
    ("puts", (7200, 14400), "--delay end"),
    ("disjoint", (8000, 16000), ""),
    ("flushed_gets", (16020, 32040, 64080), ""),
    ("past_flushes", (16016, 32032, 64064), ""),
]
PARTS = [
    ("barriers", (32768, 65536), ""),
    ("fences", (32000, 64000), ""),
    ("windows", (16384, 32768), ""),
    ("flushes", (32000, 64000), ""),
    ("sums", (8000, 16000), ""),
    ("products", (8000, 16000), ""),
    ("pending_sums", (15000, 30000, 60000), "--delay end"),
    ("past_others", (10000, 20000, 40000), "--delay end"),
    ("chain", (4000, 8000, 16000), "--delay end"),
    ("range_tests", (1000, 32000), ""),
]


def run(words, script, report):
    """Runs the program once, and returns its user time and its whole time in seconds."""
    script.seek(0)
    report.seek(0)
    report.truncate()
    begin = time.perf_counter()
    child = subprocess.Popen(words, stdin=script, stdout=report)
    _, status, used = os.wait4(child.pid, 0)
    end = time.perf_counter()
    if os.waitstatus_to_exitcode(status) not in (0, 1):
        sys.exit("%s ended with %d" % (words[0], os.waitstatus_to_exitcode(status)))
    return used.ru_utime, end - begin


def peak(words, script, report):
    """The program's peak memory in KB. GNU time starts it, since a child of Python's would count Python's own peak."""
    with tempfile.NamedTemporaryFile() as told:
        run(["/usr/bin/time", "-f", "%M", "-o", told.name] + words, script, report)
        return int(told.read().split()[-1])


def measured(words, text, runs):
    """The least user time and the least whole time in seconds, the peak memory in KB, and the last line's words."""
    with tempfile.TemporaryFile() as script, tempfile.TemporaryFile() as report:
        script.write(text.encode())
        script.flush()
        took = [run(words, script, report) for _ in range(runs)]
        memory = peak(words, script, report)
        report.seek(0)
        last = report.read().decode().splitlines()[-1].split()
    return min(user for user, _ in took), min(whole for _, whole in took), memory, last


def print_table(title, cases, program, runs, names):
    print("| %s | words | accesses | touches | entries | refused | findings | user time in ms | whole time in ms | "
          "peak memory in MB |" % title)
    print("|---" * 10 + "|")
    for name, sizes, words in cases:
        for size in sizes:
            if names and name not in names:
                continue
            user, whole, memory, last = measured([program] + words.split(), scripts.FORMS[name](size), runs)
            print("| `%s %d` | %s | %s | %.0f | %.0f | %.1f |" % (
                name, size, words, " | ".join(last[2::2]), 1000 * user, 1000 * whole, memory / 1024), flush=True)


def main():
    program = sys.argv[1] if len(sys.argv) > 1 else PROGRAM
    runs = int(sys.argv[2]) if len(sys.argv) > 2 else 5
    names = sys.argv[3:]
    print_table("script", WHOLE, program, runs, names)
    print()
    print_table("script that does little but one thing", PARTS, program, runs, names)
    print()
    print("| name | what the script is |")
    print("|---|---|")
    for name in dict.fromkeys(name for name, _, _ in WHOLE + PARTS):
        if not names or name in names:
            print("| `%s` | %s |" % (name, scripts.FORMS[name].__doc__))


if __name__ == "__main__":
    main()
