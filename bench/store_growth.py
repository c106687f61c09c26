#!/usr/bin/env python3
"""How the time of the stores' calls grows with what the stores hold. No absolute time is judged.

Usage: bench/store_growth.py PROGRAM [VERSIONS KEYS TXS]      as in bench/store_growth.py crates/store_bench/out/store_bench

Each call is made many times over a store with VERSIONS versions of one key (1024), KEYS other keys with a version each (16384), written
by TXS transactions (1024), and over three stores where one of the three numbers is FOURFOLD. All versions are Final below the
snapshot, and the calls are of the one key. `insert` is an insertion and the removal of what came in, by a transaction that is new and
is named between the others; `finalise` is the same with finalising between; `new key` is `insert` where the one key has no version and
stands before the others. From each time that of the same program with no call is taken off; each is the least of REPEATS, taken in
turns so that load falls on all alike.
Printed: nanoseconds per call, and how that grows with each fourfold (1.00: not at all, 4.00: it is the time of a look at all). A growth
above LIMIT, which leaves room for a step more of halving and for memory that is further away, is marked, and then the status is 1.
"""
import os
import subprocess
import sys

LOOK_UPS = ("has", "newest", "visible", "undecided", "walk", "certify", "prepare")
CHANGES, LOOKS, REPEATS, FOURFOLD, LIMIT = 100_000, 5_000_000, 5, 4, 2.0


def timed(words, sums):
    """The processor time of one run, in seconds. Each run with these words prints the same sum."""
    child = subprocess.Popen(words, stdout=subprocess.PIPE)
    told = child.stdout.read()
    _, status, used = os.wait4(child.pid, 0)
    child.returncode = os.waitstatus_to_exitcode(status)
    if child.returncode != 0 or sums.setdefault(tuple(words), told) != told:
        sys.exit(f"status {child.returncode}, {told}: {' '.join(words)}")
    return used.ru_utime + used.ru_stime


def least(program, call, times, sizes):
    """The least time of the call over a store of each size, in nanoseconds."""
    best, sums = {}, {}
    for _ in range(REPEATS):
        for size in sizes:
            for n in (0, times):
                took = timed([program, call, *map(str, size), str(n)], sums)
                best[size, n] = min(took, best.get((size, n), took))
    return [(best[size, times] - best[size, 0]) / times * 1e9 for size in sizes]


def shown(growth):
    return f"{growth:12.2f}" + ("*" if growth > LIMIT else " ")


def main():
    if len(sys.argv) not in (2, 5):
        sys.exit(__doc__)
    versions, keys, txs = map(int, sys.argv[2:] or ("1024", "16384", "1024"))
    rows = [("insert", "insert", CHANGES, versions), ("finalise", "finalise", CHANGES, versions), ("new key", "insert", CHANGES, 0)]
    rows += [(call, call, LOOKS, versions) for call in LOOK_UPS]
    print(f"{'call':<10}{'ns':>10}{'its versions':>14}{'other keys':>13}{'transactions':>13}")
    bad = 0
    for name, call, times, own in rows:
        sizes = [(own, keys, txs), (own * FOURFOLD, keys, txs), (own, keys * FOURFOLD, txs), (own, keys, txs * FOURFOLD)]
        once, *more = least(sys.argv[1], call, times, sizes)
        growths = [after / once for after in more]
        bad += sum(growth > LIMIT for growth in growths)
        print(f"{name:<10}{once:>10.1f} " + "".join(map(shown, growths)), flush=True)
    return 1 if bad else 0


sys.exit(main())
