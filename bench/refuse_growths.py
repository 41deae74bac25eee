#!/usr/bin/env python3
"""Refuses each allocation of a run in turn, on one script with every kind of call and on one with findings.

A run must end with status 6 and no output, or with the whole report and its status. rt try builds a program that
refuses one allocation, whose number is written into it: it is built once, and that number is then replaced.

    refuse_growths.py     takes a minute or two; run by hand, not by the gate
"""
import os
import struct
import subprocess
import sys
import tempfile

from tried import tried_program

HERE = os.path.dirname(os.path.abspath(__file__))
CRATE = os.path.join(HERE, "../crates/rma_runner")
EXAMPLES = os.path.join(HERE, "../examples")
SCRIPTS = ("every_kind_of_call", "a_finding_of_each_rule")
# No run has so many allocations: the program that is built refuses none.
NUMBER = 1234567891
# In rt try the program runs on this script, so long that it is found before it is removed.
LONG = "ranks 1\nrank 0\nallocate w0 4 4\nlock_all w0\nrepeat 12000\nput w0 0 0 int32 5\nend\nunlock_all w0\n"
# After so many whole reports in a row no allocation is left to be refused.
WHOLE_RUNS = 100
NO_MEMORY = 6


def compared(number):
    """The comparison of the count of allocations with a number, in machine code: cmp rax, number."""
    return b"\x48\x3d" + struct.pack("<I", number)


def run(program, code, text, number):
    """Runs the program so that this allocation is refused, and returns its status and its output."""
    with open(program, "wb") as file:
        file.write(code.replace(compared(NUMBER), compared(number)))
    os.chmod(program, 0o755)
    ended = subprocess.run([program], input=text, stdout=subprocess.PIPE, env={})
    return ended.returncode, ended.stdout


def example(name, kind):
    """What an example's file of this kind has."""
    with open(os.path.join(EXAMPLES, name + kind), "rb") as file:
        return file.read()


def refuse_each(program, code, name):
    """Refuses each allocation of the run of an example: how each run ended."""
    text = example(name, ".rma")
    report = int(example(name, ".status")), example(name, ".report")
    ends = []
    while ends[-WHOLE_RUNS:] != ["the report"] * WHOLE_RUNS:
        ended = run(program, code, text, len(ends) + 1)
        if ended == report:
            ends.append("the report")
        elif ended == (NO_MEMORY, b""):
            ends.append("status 6, no output")
        else:
            sys.exit("%s, allocation %d: status %d, output %r" % (name, len(ends) + 1, *ended))
    return ends


def print_rows(name, ends):
    """A row for each range of allocations whose refusals end alike; behind the last one none was refused."""
    first = 0
    for at in range(1, len(ends)):
        if ends[at] != ends[first]:
            numbers = str(at) if at == first + 1 else "%d to %d" % (first + 1, at)
            print("| `%s` | %s | %s |" % (name, numbers, ends[first]))
            first = at


def main():
    with tempfile.TemporaryDirectory() as folder:
        code = tried_program(["rma_runner", "--fail-alloc", str(NUMBER)], CRATE, LONG)
        if code.count(compared(NUMBER)) != 2:
            sys.exit("the program of this kit does not compare its allocations as this script expects")
        print("| script | allocation refused | end |")
        print("|---|---|---|")
        for name in SCRIPTS:
            print_rows(name, refuse_each(os.path.join(folder, "program"), code, name))


if __name__ == "__main__":
    main()
