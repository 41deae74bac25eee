#!/usr/bin/env python3
"""Runs of many calls, accesses, windows, requests and bytes, each against a report that is worked out by rule.

    sizes.py PROGRAM [CASE...]     without names all cases

It writes a line for each case, `passed NAME: ..` or `failed NAME: ..`, and ends with status 0 where all were tried. A
run has 2 GB of address space and two minutes.
"""
import os
import struct
import subprocess
import sys
import time
from collections import namedtuple

import ways

MOST_CALLS = 65536
RANKS = 16
EACH = MOST_CALLS // RANKS
EVERY = "rank " + " ".join(str(rank) for rank in range(RANKS))
ORDERS = ("--order robin", "--order reverse", "--order greedy", "--order seeded --seed 7")
SHUFFLES = tuple("--order seeded --delay seeded --seed %d" % seed for seed in (0, 1, 4294967295))
# A call that a signal interrupts is made again so many times.
MADE_AGAIN = 64

# The lines of a script and of its report, the status, the words of the command line that it is run by in turn, and the
# way in which its bytes come and go.
Run = namedtuple("Run", "script report status words way")


def run(script, report, status=0, words=("",), way=None):
    return Run(script, report, status, words, way or ways.through_pipes)


# Lines of scripts and of reports

def repeated(times, calls):
    return ["repeat %d" % times] + calls + ["end"]


def each(calls_of):
    """A block for each of 16 ranks, with the calls that the function gives for it."""
    return ["ranks %d" % RANKS] + [line for rank in range(RANKS) for line in ["rank %d" % rank] + calls_of(rank)]


def one(calls):
    return ["ranks 1", "rank 0"] + calls


def after(rank):
    return (rank + 1) % RANKS


def written(values):
    return " ".join(str(value) for value in values)


def memory(rank, content):
    """The lines of a rank's memory, a piece of 32 bytes each that is not all 0."""
    pieces = ((at, content[at:at + 32]) for at in range(0, len(content), 32))
    return ["memory %d %d %s" % (rank, at, piece.hex()) for at, piece in pieces if any(piece)]


def summary(accesses=0, touches=0, entries=0, refused=0, findings=0):
    return ["summary accesses %d touches %d entries %d refused %d findings %d" % (
        accesses, touches, entries, refused, findings)]


def same_place(rank, first, last):
    """The findings of a rank's puts to one place: each but the first is a forbidden pair with the first."""
    return ["finding S2 %d:%d %d:%d" % (rank, first, rank, call) for call in range(first + 1, last + 1)]


# Entries of the board

def barriers():
    """16 ranks at 4,096 barriers: the most entries that a run can have."""
    script = ["ranks 16", EVERY] + repeated(EACH, ["barrier"])
    yield run(script, ["ended"] + summary(entries=2 * MOST_CALLS), words=ORDERS)


def stuck():
    """16 ranks at 4,095 barriers, and then all but one at another."""
    script = ["ranks 16", EVERY] + repeated(EACH - 1, ["barrier"]) + [EVERY[:-len(" 15")], "barrier"]
    waits = ["%d:%d waits barrier" % (rank, EACH - 1) for rank in range(RANKS - 1)]
    yield run(script, ["stuck"] + waits + summary(entries=2 * RANKS * (EACH - 1) + RANKS - 1), 7, ORDERS)


def windows():
    """32,768 windows made and freed: of one name, of each name in turn, over a space, dynamic, and of 16 ranks."""
    most = ["ended"] + summary(entries=2 * MOST_CALLS)
    half = MOST_CALLS // 2
    names = range(32)
    every_name = ["allocate w%d 0 1" % name for name in names] + ["free w%d" % name for name in names]
    yield run(one(repeated(half, ["allocate w0 0 1", "free w0"])), most)
    yield run(one(repeated(half // 32, every_name)), most)
    yield run(["ranks 1", "space 0 8", "rank 0"] + repeated(half, ["create w31 0 8 1", "free w31"]), most)
    yield run(one(repeated(half, ["dynamic w0", "free w0"])), most)
    yield run(["ranks 16", EVERY] + repeated(half // RANKS, ["allocate w0 0 1", "free w0"]), most, words=ORDERS)


def windows_with_memory():
    """8,192 windows of one name, each with 8 bytes of its own and a put."""
    calls = ["allocate w0 8 1", "fence w0", "put w0 0 7 byte 9", "fence w0", "free w0"]
    content = memory(0, b"\0\0\0\0\0\0\0\t" * 8192)
    yield run(one(repeated(8192, calls)), ["ended"] + content + summary(8192, 8192, 8 * 8192))


def regions():
    """As many attached regions as a script can name, all live at once; then 32,767 of one place in turn."""
    begin, end = ["ranks 1", "space 0 65536", "rank 0", "dynamic w0"], ["load w0 30000 byte 256", "free w0"]
    attaches = ["attach w0 %d 1" % at for at in range(58000)]
    value = "0:58001 value" + " 0" * 256
    yield run(begin + attaches + end, ["ended", value] + summary(1, 256, 58000 + 4))
    turns = repeated(32767, ["attach w0 0 8", "detach w0 0"])
    yield run(begin + turns, ["ended"] + summary(entries=2 + 2 * 32767))


def groups():
    """16 ranks at 819 rounds of post, start, put, complete and wait, each with a group of all 16."""
    group = " ".join(str(rank) for rank in range(RANKS))
    script = each(lambda rank: ["allocate w0 4 4"] + repeated(819, [
        "post w0 " + group, "start w0 " + group, "put w0 %d 0 int32 %d" % (after(rank), rank + 1), "complete w0",
        "wait w0"]))
    content = [line for rank in range(RANKS) for line in memory(after(rank), bytes([rank + 1] + 7 * [0]))]
    content.sort(key=lambda line: int(line.split()[1]))
    accesses = RANKS * 819
    yield run(script, ["ended"] + content + summary(accesses, accesses, RANKS * (2 + 4 * 819)), words=ORDERS)


def fences():
    """16 ranks at 2,048 fences, with a put of each before each fence but the first."""
    script = each(lambda rank: ["allocate w0 4 4", "fence w0"] + repeated(2047, [
        "put w0 %d 0 int32 5" % after(rank), "fence w0"]))
    content = [line for rank in range(RANKS) for line in memory(rank, b"\5\0\0\0\0\0\0\0")]
    accesses = RANKS * 2047
    report = ["ended"] + content + summary(accesses, accesses, 2 * RANKS * 2049)
    yield run(script, report, words=ORDERS[:1] + SHUFFLES[:1])


def exclusive_locks():
    """16 ranks at 1,365 exclusive locks of one rank, each with a put to one cell."""
    script = ["ranks 16", EVERY, "allocate w0 4 4"] + repeated(1365, [
        "lock w0 exclusive 0", "put w0 0 0 int32 5", "unlock w0 0"])
    accesses = RANKS * 1365
    report = ["ended"] + memory(0, b"\5\0\0\0\0\0\0\0") + summary(accesses, accesses, 2 * RANKS * 1366)
    yield run(script, report, words=SHUFFLES[:1])


def held_locks():
    """8,192 locks that are held at once: by each of 16 ranks on each of 32 windows at each of 16 targets."""
    places = [(name, target) for name in range(32) for target in range(RANKS)]
    script = ["ranks 16", EVERY] + ["allocate w%d 0 1" % name for name in range(32)]
    script += ["lock w%d shared %d" % place for place in places]
    script += ["barrier"] + ["unlock w%d %d" % place for place in places] + ["free w%d" % name for name in range(32)]
    yield run(script, ["ended"] + summary(entries=RANKS * (64 + 512 + 2 + 512 + 64)), words=ORDERS[:1] + SHUFFLES[:1])


def windows_and_requests():
    """32 windows and 64 requests that live at once in each of 16 ranks, twenty times; each request has its own cell."""
    rounds, names, requests = 20, range(32), range(64)

    def request(rank, number):
        words = number, number % 32, (rank + 1 + number) % RANKS, 2 * rank + number // 32
        form = ("rput q%d w%d %d %d int32", "racc q%d w%d %d %d int32 sum", "rget q%d w%d %d %d int32",
                "rgetacc q%d w%d %d %d int32 sum")[number % 4]
        return form % words + " %d" % (1 if number % 4 == 2 else value(rank, number))

    def value(rank, number):
        return 64 * rank + number + 1

    ends = ["%s q%d" % (("waitreq", "testreq")[number % 2], number) for number in reversed(requests)]
    script = each(lambda rank: ["allocate w%d 128 4" % name for name in names] + repeated(
        rounds, ["lock_all w%d" % name for name in names] + [request(rank, number) for number in requests] + ends +
        ["unlock_all w%d" % name for name in names]) + ["free w%d" % name for name in names])
    lines, cells = [], [[0] * 1024 for _ in range(RANKS)]
    for rank in range(RANKS):
        for turn in range(rounds):
            for number in requests[2::4]:
                call = 32 + turn * 192 + 32 + number
                lines += ["%d:%d value 0" % (rank, call)]
                lines += ["%d:%d value %d" % (rank, call + 1, turn * value(rank, number + 1))]
        for number in requests:
            cell = number % 32 * 32 + 2 * rank + number // 32
            times = (1, rounds, 0, rounds)[number % 4]
            cells[(rank + 1 + number) % RANKS][cell] = times * value(rank, number)
    for rank in range(RANKS):
        lines += memory(rank, struct.pack("<1024I", *cells[rank]))
    accesses = RANKS * rounds * 64
    entries = RANKS * (32 * 4 + rounds * 64)
    yield run(script, ["ended"] + lines + summary(accesses, accesses, entries), words=("",) + SHUFFLES[:2])


# Accesses and what they read

def delayed_puts():
    """65,533 puts of one rank to one place, all pending until the last call; then 4,093 of each of 16 ranks."""
    calls = ["allocate w0 8 1", "lock_all w0"] + repeated(MOST_CALLS - 3, ["put w0 0 0 byte 5"]) + ["unlock_all w0"]
    found = same_place(0, 2, MOST_CALLS - 2)
    report = ["ended"] + memory(0, b"\5\0\0\0\0\0\0\0") + found + summary(
        MOST_CALLS - 3, MOST_CALLS - 3, 4, findings=len(found))
    yield run(one(calls), report, 1, ("--delay end",))
    script = each(lambda rank: ["allocate w0 4 4", "lock_all w0"] + repeated(EACH - 3, [
        "put w0 %d 0 int32 5" % after(rank)]) + ["unlock_all w0"])
    content = [line for rank in range(RANKS) for line in memory(rank, b"\5\0\0\0\0\0\0\0")]
    found = [line for rank in range(RANKS) for line in same_place(rank, 2, EACH - 2)]
    accesses = RANKS * (EACH - 3)
    report = ["ended"] + content + found + summary(accesses, accesses, 4 * RANKS, findings=len(found))
    yield run(script, report, 1, ("--delay end",) + SHUFFLES)


def shuffled():
    """16 ranks with 65,296 accesses: sums on shared cells, puts to cells of their own, and gets of what was stored."""
    block = range(62)

    def calls(rank):
        sums = ["acc w0 %d %d int32 sum %d" % ((rank + n) % RANKS, 1 + n % 15, rank + n) for n in block]
        gets = ["get w0 %d 0 int32 1" % ((rank + n) % RANKS) for n in range(2)]
        puts = ["put w0 %d %d int32 %d" % (target, 16 + 63 * rank + n, 99 + rank)
                for target in range(RANKS) for n in range(63)]
        return ["allocate w0 4096 4", "lock_all w0", "store w0 0 int32 %d" % -rank, "unlock_all w0", "barrier",
                "lock_all w0"] + repeated(48, sums + gets) + puts + ["unlock_all w0"]

    cells = [[-rank] + 15 * [0] + [99 + n // 63 for n in range(1008)] for rank in range(RANKS)]
    for rank in range(RANKS):
        for n in block:
            cells[(rank + n) % RANKS][1 + n % 15] += 48 * (rank + n)
    values = ["%d:%d value %d" % (rank, 6 + 64 * turn + 62 + n, -((rank + n) % RANKS))
              for rank in range(RANKS) for turn in range(48) for n in range(2)]
    content = [line for rank in range(RANKS) for line in memory(rank, struct.pack("<1024i", *cells[rank]))]
    accesses = RANKS * (1 + 64 * 48 + 1008)
    report = ["ended"] + values + content + summary(accesses, accesses, RANKS * 8)
    yield run(each(calls), report, words=SHUFFLES + ("--order reverse --delay end", "--order greedy"))


def sums():
    """65,472 sums of 16 ranks on one cell: as many accesses at one rank without a finding."""
    script = ["ranks 16", EVERY, "allocate w0 4 4", "lock_all w0"] + repeated(EACH - 4, ["acc w0 0 0 int32 sum 1"])
    accesses = RANKS * (EACH - 4)
    report = ["ended"] + memory(0, struct.pack("<q", accesses)) + summary(accesses, accesses, 4 * RANKS)
    yield run(script + ["unlock_all w0"], report, words=SHUFFLES[1:2])


def gets():
    """65,008 gets of 16 values by 16 ranks, of what each target stored: a report of more than 12 MB."""
    numbers = [written(-2000000000 - 16 * rank - n for n in range(16)) for rank in range(RANKS)]
    script = each(lambda rank: ["allocate w0 64 4", "lock_all w0", "store w0 0 int32 " + numbers[rank], "unlock_all w0",
                                "barrier", "lock_all w0"] + repeated(4063, ["get w0 %d 0 int32 16" % after(rank)]) +
                  ["unlock_all w0"])
    values = ["%d:%d value %s" % (rank, call, numbers[after(rank)])
              for rank in range(RANKS) for call in range(6, 6 + 4063)]
    content = [line for rank in range(RANKS)
               for line in memory(rank, struct.pack("<16i", *map(int, numbers[rank].split())))]
    accesses = RANKS * 4064
    report = ["ended"] + values + content + summary(accesses, 16 * accesses, RANKS * 8)
    yield run(script, report, words=("", SHUFFLES[1]))


def loads_and_stores():
    """16 ranks with 2,047 stores and as many loads of what was stored."""
    script = each(lambda rank: ["allocate w0 4 4"] + repeated(2047, [
        "store w0 0 int32 %d" % rank, "load w0 0 int32 1"]))
    values = ["%d:%d value %d" % (rank, call, rank) for rank in range(RANKS) for call in range(2, 2 * 2047 + 1, 2)]
    content = [line for rank in range(RANKS) for line in memory(rank, bytes([rank] + 7 * [0]))]
    accesses = 2 * RANKS * 2047
    yield run(script, ["ended"] + values + content + summary(accesses, accesses, 2 * RANKS))


def touches():
    """65,533 puts of 256 values: the most touches that a run of puts can have."""
    numbers = range(256)
    calls = ["allocate w0 256 1", "lock_all w0"] + repeated(
        MOST_CALLS - 3, ["put w0 0 0 byte " + written(numbers)]) + ["unlock_all w0"]
    found = same_place(0, 2, MOST_CALLS - 2)
    report = ["ended"] + memory(0, bytes(numbers)) + found + summary(
        MOST_CALLS - 3, 256 * (MOST_CALLS - 3), 4, findings=len(found))
    yield run(one(calls), report, 1)


def refusals():
    """65,536 refused calls."""
    lines = ["0:%d refused MPI_ERR_WIN" % call for call in range(MOST_CALLS)]
    yield run(one(repeated(MOST_CALLS, ["flush w0 0"])), ["ended"] + lines + summary(refused=MOST_CALLS), 1)


def false_tests():
    """65,533 tests of a window that no rank completes."""
    begin = ["ranks 2", "rank 0 1", "allocate w0 0 1", "rank 0", "post w0 1"]
    script = begin + repeated(MOST_CALLS - 3, ["testwin w0"])
    lines = ["0:%d test false" % call for call in range(2, MOST_CALLS - 1)]
    yield run(script, ["ended"] + lines + summary(entries=5), words=ORDERS)


# The text

def repeats():
    """Repeats to the limit of their number and of the calls, and one past each."""
    most = ["ended"] + summary(entries=2 * MOST_CALLS)
    yield run(one(repeated(MOST_CALLS, ["barrier"])), most)
    yield run(one(repeated(2, ["barrier"] * (MOST_CALLS // 2))), most)
    yield run(one(repeated(1, ["barrier"]) * 49000), ["ended"] + summary(entries=2 * 49000))
    yield run(one(repeated(MOST_CALLS, []) * 61000), ["ended"] + summary())
    yield run(one(repeated(MOST_CALLS, ["barrier"]) + ["barrier"]), ["script 6 limit"], 3)
    yield run(one(repeated(MOST_CALLS + 1, [])), ["script 3 limit"], 3)
    yield run(one(repeated(2, ["barrier"] * (MOST_CALLS // 2 + 1))), ["script 32773 limit"], 3)
    yield run(["ranks 16", EVERY] + repeated(EACH + 1, ["barrier"]), ["script 5 limit"], 3)


# Pipes: a small script, whose report has more than 64 KB

def small():
    """A script of 1,000 gets of 16 values, and its report."""
    numbers = written(range(-100000, -100016, -1))
    calls = ["allocate w0 64 4", "lock_all w0", "store w0 0 int32 " + numbers, "sync w0"]
    calls += ["get w0 0 0 int32 16"] * 1000 + ["unlock_all w0"]
    values = ["0:%d value %s" % (call, numbers) for call in range(4, 1004)]
    content = memory(0, struct.pack("<16i", *map(int, numbers.split())))
    return one(calls), ["ended"] + values + content + summary(1001, 16016, 4)


def pipes():
    """A pipe that gives 1 byte at a time, one that takes 1 byte at a time, and two whose waits are stopped."""
    for way in (ways.by_bytes, ways.to_bytes, ways.stopped_before_reads, ways.stopped_in_writes):
        yield run(*small(), way=way)


def interruptions():
    """Reads and writes of a socket that end with EINTR 64 times in a row, and one more."""
    script, report = small()
    yield run(script, report, way=ways.interrupted_reads(MADE_AGAIN))
    yield run(script, [], 4, way=ways.interrupted_reads(MADE_AGAIN + 1))
    yield run(script, report, way=ways.interrupted_writes(MADE_AGAIN))
    yield run(script, report, 5, way=ways.interrupted_writes(MADE_AGAIN + 1))


CASES = (barriers, stuck, windows, windows_with_memory, regions, groups, fences, exclusive_locks, held_locks,
         windows_and_requests, delayed_puts, shuffled, sums, gets, loads_and_stores, touches, refusals, false_tests,
         repeats, pipes, interruptions)


def faults(program, case):
    """What is wrong with the runs of a case."""
    for number, it in enumerate(case()):
        text = ("\n".join(it.script) + "\n").encode()
        report = "".join(line + "\n" for line in it.report).encode()
        for words in it.words:
            try:
                status, output = it.way([program] + words.split(), text)
            except (OSError, TimeoutError, subprocess.TimeoutExpired) as error:
                yield "script %d %s: %s" % (number, words, error)
                continue
            if status != it.status:
                yield "script %d %s: status %d (wanted %d)" % (number, words, status, it.status)
            elif output != report and not (status == ways.UNWRITTEN and report.startswith(output)):
                yield "script %d %s: another report" % (number, words)


def main():
    if len(sys.argv) < 2:
        sys.exit(__doc__)
    program = os.path.abspath(sys.argv[1])
    for case in CASES:
        if not sys.argv[2:] or case.__name__ in sys.argv[2:]:
            begin = time.monotonic()
            found = "; ".join(faults(program, case))
            result = "failed %s: %s," % (case.__name__, found) if found else "passed %s:" % case.__name__
            print("%s %.1f s" % (result, time.monotonic() - begin), flush=True)


if __name__ == "__main__":
    main()
