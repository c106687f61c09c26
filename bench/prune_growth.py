#!/usr/bin/env python3
"""How many versions `strun run --prune` keeps as a run grows, and what it costs as the keys grow. No absolute time is judged.

Usage: bench/prune_growth.py PROGRAM      as in bench/prune_growth.py crates/strun/out/strun

The first table has runs of twelve keys at three nodes, over n, 2n and 4n transactions: how many versions the transactions wrote at all nodes,
which is what a run keeps without pruning, and how many are kept with it. The second has runs with the same events, which write twelve keys,
over scenes with more and more other keys, which only transactions name that never begin. Each is timed with `run` and with `run --prune`, and
with its last line spelled `End`, which is read to the end and refused, so that the differences are the runs alone; each the least of REPEATS,
taken in turns so that load falls on all alike. Printed: milliseconds of both, and how much longer the second takes.
Status 1 where four times the transactions keep more than KEPT times as many versions, or where pruning over the most keys takes more than
LONGER times as much longer as over the fewest.
"""
import re
import subprocess
import sys
import tempfile

sys.dont_write_bytecode = True
from run_growth import text, timed

REPEATS, KEPT, LONGER, REPLICAS = 7, 2.0, 2.0, 2
ROWS = [(p % 3 + 1, (p + 1) % 3 + 1) for p in range(3)]


def busy(transactions, others):
    """Twelve sessions take turns, each with additions to a key of its own node: three events of the client and three messages for each. As many
    other keys stand in transactions that never begin."""
    sessions = [(s % 3 + 1, [[f"add k{s}@{s % 3 + 1} 1"]] * (transactions // 12)) for s in range(12)]
    events = []
    for e in range(transactions):
        events += [f"c {e % 12 + 1} {10 * e + 1}"] * 3 + [f"d {3 * e + m}" for m in (1, 2, 3)]
    idle = [[f"get o{16 * t + o}@{o % 3 + 1}" for o in range(16)] for t in range(others // 16)]
    return text(3, ROWS, sessions + [(1, idle)] * bool(idle), events, drain=False)


def written(program, file):
    """What the pruned run of a scene writes."""
    with open(file, encoding="ascii") as it:
        return subprocess.run([program, "run", "--prune"], stdin=it, capture_output=True, text=True, check=True).stdout


def kept_table(program, folder):
    """Versions written and kept."""
    print("transactions   versions written   kept")
    kept = []
    for n in (240, 480, 960):
        name = f"{folder}/kept{n}"
        with open(name, "w", encoding="ascii") as file:
            file.write(busy(n, 0))
        out = written(program, name)
        kept.append(int(re.search(r"kept versions=(\d+)", out)[1]))
        print(f"{n:12}{REPLICAS * len(re.findall(' commit ', out)):19}{kept[-1]:7}")
    return kept[-1] / kept[0]


def cost_table(program, folder):
    """The time of both runs over more and more keys."""
    sizes, best = (0, 1536, 6144), {}
    for others in sizes:
        scene = busy(480, others)
        for end, name in (("end\n", "o"), ("End\n", "x")):
            with open(f"{folder}/{others}{name}", "w", encoding="ascii") as file:
                file.write(scene[:-4] + end)
    for _ in range(REPEATS):
        for others in sizes:
            for name in "ox":
                for words in (("run",), ("run", "--prune")):
                    it = others, name, words
                    best[it] = min(best.get(it, 1e9), timed([program, *words], f"{folder}/{others}{name}"))
    print("other keys   run (ms)   run --prune (ms)   times")
    times = []
    for others in sizes:
        once, more = (max(best[others, "o", words] - best[others, "x", words], 1e-4) for words in (("run",), ("run", "--prune")))
        times.append(more / once)
        print(f"{others:10}{once * 1e3:11.2f}{more * 1e3:19.2f}{times[-1]:8.2f}")
    return times[-1] / times[0]


def main():
    if len(sys.argv) != 2:
        sys.exit(__doc__)
    program, folder = sys.argv[1], tempfile.mkdtemp()
    kept = kept_table(program, folder)
    print(f"4 times the transactions keep {kept:.2f} times as many versions")
    longer = cost_table(program, folder)
    print(f"over the most keys pruning takes {longer:.2f} times as much longer as over the fewest")
    sys.exit(kept > KEPT or longer > LONGER)


if __name__ == "__main__":
    main()
