#!/usr/bin/env python3
"""How many looks a second eight readers make beside a writer at a board, and behind a lock, in one run. No absolute time is judged.

Usage: bench/look_ratio.py PROGRAM [REPEATS]      as in bench/look_ratio.py crates/look_bench/out/look_bench

Each of eight threads looks LOOKS times for one answer while a ninth shows entries, one at a time, for at least as long as they look. Counted is
the time of the slowest reader, the least of REPEATS (5), taken in turns so that load falls on both alike. Printed: both rates, and their ratio.
"""
import re
import subprocess
import sys

READERS, LOOKS = 8, 2_000_000


def took(program, way, entries):
    """The nanoseconds of the slowest reader and those of the writer."""
    run = subprocess.run([program, way, str(LOOKS), str(entries)], capture_output=True, text=True, check=True)
    assert run.stdout == f"found={READERS * LOOKS}\n"
    return tuple(map(int, re.fullmatch(r"looks=(\d+) entries=(\d+)\n", run.stderr).groups()))


def entries_for(program, way):
    """So many entries that the writer is the last to end."""
    entries = 1000
    while True:
        looks, showing = took(program, way, entries)
        if showing > 1.5 * looks or entries > 10_000_000:
            return entries
        entries *= 2


def main():
    if len(sys.argv) not in (2, 3):
        sys.exit(__doc__)
    program, repeats = sys.argv[1], int(sys.argv[2]) if len(sys.argv) == 3 else 5
    entries = {way: entries_for(program, way) for way in ("board", "lock")}
    best = dict.fromkeys(entries, 10**18)
    for _ in range(repeats):
        for way, count in entries.items():
            best[way] = min(best[way], took(program, way, count)[0])
    rate = {way: READERS * LOOKS / (best[way] / 1e9) for way in best}
    print(f"at the board {rate['board'] / 1e6:.2f} million looks a second, behind a lock {rate['lock'] / 1e6:.2f} million: {rate['board'] / rate['lock']:.2f} times as many")


if __name__ == "__main__":
    main()
