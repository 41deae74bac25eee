#!/usr/bin/env python3
"""Writes one of the scripts of the benchmark to standard output.

    scripts.py NAME SIZE

SIZE is about the number of calls of the kind that NAME says, over all ranks; a text has at most 1,048,576 bytes and a
script at most 65,536 calls. The ranks are 16, where nothing else is said.
"""
import sys

RANKS = 16
EVERY = " ".join(str(rank) for rank in range(RANKS))
OTHERS = " ".join(str(rank) for rank in range(1, RANKS))


def script(lines, ranks=RANKS):
    return "\n".join(["ranks %d" % ranks] + lines) + "\n"


def repeated(times, calls):
    return ["repeat %d" % times] + calls + ["end"]


def by_all(calls):
    """One block of calls for all ranks."""
    return script(["rank " + EVERY] + calls)


def by_each(calls_of):
    """A block for each rank, with the calls that the function gives for it."""
    return script([line for rank in range(RANKS) for line in ["rank %d" % rank] + calls_of(rank)])


def from_rank_0(calls):
    """Calls of rank 0 under a lock_all; the other ranks make the window alone."""
    return script(["rank 0", "allocate w0 4 4", "lock_all w0"] + calls + ["unlock_all w0"] +
                  ["rank " + OTHERS, "allocate w0 4 4"])


def under_lock_all(size, calls):
    """Calls of every rank under a lock_all, repeated up to SIZE of them over all ranks."""
    return ["allocate w0 4096 4", "lock_all w0"] + repeated(size // RANKS // len(calls), calls) + ["unlock_all w0"]


def after(rank):
    return (rank + 1) % RANKS


def values(count):
    return " ".join(str(n % 10) for n in range(count))


# Whole scripts

def cells(size):
    """fetch-and-ops on 1,024 cells of every rank"""
    return by_all(under_lock_all(size, ["fop w0 %d %d int32 sum 1" % (n % RANKS, n * 5 % 1024) for n in range(64)]))


def one_cell(size):
    """fetch-and-ops on one cell"""
    return by_all(under_lock_all(size, ["fop w0 0 0 int32 sum 1"]))


def sums_and_swaps(size):
    """fetch-and-ops and compare-and-swaps in turn on one cell"""
    return by_all(under_lock_all(size, ["fop w0 0 0 int32 sum 1", "cas w0 0 0 int32 0 1"]))


def locks(size):
    """an exclusive lock, a fetch-and-op and an unlock on one target, SIZE times"""
    calls = ["lock w0 exclusive 0", "fop w0 0 0 int32 sum 1", "unlock w0 0"]
    return by_all(["allocate w0 4 4"] + repeated(size // RANKS, calls))


def locked_puts(size):
    """an exclusive lock, a put and an unlock on one cell, SIZE times"""
    return by_all(["allocate w0 4 4"] + repeated(
        size // RANKS, ["lock w0 exclusive 0", "put w0 0 0 int32 1", "unlock w0 0"]))


def rounds(size):
    """post, start, put, complete and wait on a ring, SIZE times"""
    return by_each(lambda rank: ["allocate w0 4 4"] + repeated(size // RANKS, [
        "post w0 %d" % ((rank - 1) % RANKS), "start w0 %d" % after(rank), "put w0 %d 0 int32 1" % after(rank),
        "complete w0", "wait w0"]))


def accumulates(size):
    """accumulates of 256 values at one target, between two fences"""
    return by_all(["allocate w0 1024 4", "fence w0"] + repeated(
        size // RANKS, ["acc w0 0 0 int32 sum " + values(256)]) + ["fence w0"])


def accumulates_of_one(size):
    """accumulates of 256 values by the one rank that there is"""
    calls = ["allocate w0 1024 4", "lock_all w0"] + repeated(size, ["acc w0 0 0 int32 sum " + values(256)])
    return script(["rank 0"] + calls + ["unlock_all w0"], 1)


def puts(size):
    """puts of one value to the next rank, each to its own cell, between two fences"""
    return by_each(lambda rank: ["allocate w0 4096 4", "fence w0"] + [
        "put w0 %d %d int32 1" % (after(rank), n % 1024) for n in range(size // RANKS)] + ["fence w0"])


def disjoint(size):
    """puts of one value to rank 0, on 1,024 cells, under a lock_all"""
    return by_each(lambda rank: ["allocate w0 4096 4", "lock_all w0"] + [
        "put w0 0 %d int32 1" % ((rank + RANKS * n) % 1024) for n in range(size // RANKS)] + ["unlock_all w0"])


def flushed_gets(size):
    """half of them gets of rank 0 from ranks 1 to 15 in turn, each with a flush of its target"""
    block = [call % target for target in range(1, RANKS) for call in ("get w0 %d 0 int32 1", "flush w0 %d")]
    return from_rank_0(repeated(size // len(block), block))


def past_flushes(size):
    """half of them puts of rank 0 to ranks 1 to 14 in turn, each with a flush of rank 15"""
    block = [call for target in range(1, RANKS - 1) for call in ("put w0 %d 0 int32 1" % target, "flush w0 15")]
    return from_rank_0(repeated(size // len(block), block))


# Scripts that do little but one thing

def barriers(size):
    """two entries of the board for each barrier"""
    return by_all(repeated(size // RANKS, ["barrier"]))


def fences(size):
    """two entries of the board for each fence, and its epochs"""
    return by_all(["allocate w0 4 4"] + repeated(size // RANKS, ["fence w0"]))


def windows(size):
    """windows of one name that one rank makes and frees: four entries of the board for each, and a row of the tables"""
    return script(["rank 0"] + repeated(size, ["allocate w0 0 1", "free w0"]), 1)


def flushes(size):
    """flushes beside nothing: the tests of a call, and its item in the log"""
    return by_all(under_lock_all(size, ["flush w0 0"]))


def sums(size):
    """accumulates at the next rank: 256 touches by sum for each"""
    return by_each(lambda rank: under_lock_all(size, ["acc w0 %d 0 int32 sum %s" % (after(rank), values(256))]))


def products(size):
    """accumulates at the next rank: 256 touches by product for each"""
    return by_each(lambda rank: under_lock_all(size, ["acc w0 %d 0 int16 prod %s" % (after(rank), values(256))]))


def pending_sums(size):
    """sums of rank 0 on one cell of each other rank in turn: by `--delay end` each gives way to those before it"""
    return from_rank_0(repeated(size // (RANKS - 1), ["acc w0 %d 0 int32 sum 1" % to for to in range(1, RANKS)]))


def past_others(size):
    """sums of rank 0: half at ranks 1 to 7, which stay pending by `--delay end`, half at ranks 8 to 15, each flushed"""
    pending = ["acc w0 %d 0 int32 sum 1" % to for to in range(1, 8)]
    flushed = [call % to for to in range(8, RANKS) for call in ("acc w0 %d 0 int32 sum 1", "flush w0 %d")]
    return from_rank_0(repeated(size // 2 // len(pending), pending) + repeated(size // len(flushed), flushed))


def chain(size):
    """accumulates of two elements, each on a cell of the one before, then a fetch on the last and a wait for it"""
    calls = ["acc w0 0 %d int32 sum 1 1" % cell for cell in range(size)]
    last = ["rgetacc q0 w0 0 %d int32 sum 1 1" % size, "waitreq q0", "unlock_all w0"]
    return script(["rank 0", "allocate w0 %d 4" % (4 * size + 8), "lock_all w0"] + calls + last, 1)


def range_tests(size):
    """20,000 attaches and loads that are refused where SIZE ranges of one byte are attached: the search of a range"""
    attaches = ["attach w0 %d 1" % at for at in range(0, 2 * size, 2)]
    tried = range(0, 2 * size, size // 100 * 2)
    refused = [call % at for at in tried for call in ("attach w0 %d 2", "load w0 %d byte 2")][:200]
    return script(["space 0 65536", "rank 0", "dynamic w0"] + attaches + repeated(100, refused), 1)


FORMS = {form.__name__: form for form in (
    cells, one_cell, sums_and_swaps, locks, locked_puts, rounds, accumulates, accumulates_of_one, puts, disjoint,
    flushed_gets, past_flushes, barriers, fences, windows, flushes, sums, products, pending_sums, past_others,
    chain, range_tests)}


def main():
    if len(sys.argv) != 3 or sys.argv[1] not in FORMS:
        sys.exit(__doc__ + "\n" + "\n".join("    %-20s%s" % (name, form.__doc__) for name, form in FORMS.items()))
    sys.stdout.write(FORMS[sys.argv[1]](int(sys.argv[2])))


if __name__ == "__main__":
    main()
