#!/usr/bin/env python3
"""How the time and the memory of `strun run` grow with the scene. No absolute time is judged.

Usage: bench/run_growth.py PROGRAM [WORDS..]      as in bench/run_growth.py crates/strun/out/strun run

Each family makes scenes of size n, 2n and 4n. A scene is timed as it is, and with its last line spelled `End`, which is read to the
end and refused, so that the difference is the run alone; each the least of REPEATS, taken in turns so that load falls on all alike.
Printed: nanoseconds of run per event at n, and how the time per event grows from n to 4n (1.00: linear, 2.00: it doubles with each
doubling of the rest); bytes per message, from the peak memory at n and 4n. At the end: the peak memory of a scene at the limits. Status 1
where a growth is above LIMIT, or that peak above PEAK.
"""
import math
import os
import random
import re
import subprocess
import sys
import tempfile

REPEATS, LIMIT, PEAK = 5, 1.35, 250_000_000


def text(nodes, rows, sessions, events, drain=True):
    out = ["str 1", f"nodes {nodes}"] + [f"part {p} {' '.join(map(str, r))}" for p, r in enumerate(rows, 1)]
    for node, txs in sessions:
        out.append(f"session {node}")
        for ops in txs:
            out += ["tx", *ops]
    return "\n".join(out + ["schedule", *events] + ["drain"] * drain + ["end", ""])


def idle(n):
    """Few transactions, many idle entries."""
    r = random.Random(n)
    sessions = [(s % 3 + 1, [[f"add k{(s + t) % 20}@{(s + t) % 6 + 1} 1"] for t in range(4)]) for s in range(12)]
    events = [f"d {r.randrange(1, 99)}" if e % 2 else f"c {r.randrange(1, 13)} {e}" for e in range(16384 * n)]
    return text(3, [(p % 3 + 1, (p + 1) % 3 + 1) for p in range(6)], sessions, events)


def hot(n):
    """Many sessions over few keys at three nodes with slaves: reads, additions, refusals, evictions."""
    r = random.Random(n)
    key = lambda: (lambda k: f"k{k}@{k % 3 + 1}")(r.randrange(6))
    sessions = [(s % 3 + 1, [[f"get {key()}", f"add {key()} 1"] for _ in range(5 * n)]) for s in range(48)]
    events = [f"c {r.randrange(1, 49)} {10 * e}" for e in range(1000 * n)]
    return text(3, [(p % 3 + 1, (p + 1) % 3 + 1) for p in range(3)], sessions, events)


def one_key(n):
    """One node, one key: its versions are the history."""
    sessions = [(1, [["get k@1", "add k@1 1"] for _ in range(256 * n)])]
    return text(1, [(1,)], sessions, [])


def spread(n):
    """Every key once, all replicas at all nodes: versions, done pairs and messages in great number."""
    k, sessions = 0, []
    for s in range(64):
        txs = []
        for _ in range(4 * n):
            txs.append([f"put k{k + o}@{2 * o + 1 + (k // 16) % 2} 1" for o in range(16)])
            k += 16
        sessions.append((s % 8 + 1, txs))
    return text(8, [[(p + i) % 8 + 1 for i in range(8)] for p in range(32)], sessions, [])


def unheard(n):
    """No message is delivered until the drain: waiters and undecided versions pile up."""
    r = random.Random(n)
    sessions = [(s % 3 + 1, [[f"get k{r.randrange(40)}@1"] if r.random() < 0.5 else [f"put k{r.randrange(40)}@1 1"] for _ in range(5 * n)]) for s in range(48)]
    events = [f"c {r.randrange(1, 49)} {10 * e}" for e in range(2000 * n)]
    return text(3, [(1, 2)], sessions, events)


def at_limits():
    """As many transactions, keys, partitions, replicas and entries as a scene may have, and so the most messages."""
    events = [f"d {e + 1}" if e % 2 else f"c {e % 64 + 1} {e}" for e in range(65_536)]
    return spread(4).replace("\nschedule\n", "\nschedule\n" + "\n".join(events) + "\n")


def measured(words, file):
    """The processor time in seconds, the peak memory in bytes, and what was written."""
    done = subprocess.run(["/usr/bin/time", "-f", "%U %S %M", *words], stdin=open(file), capture_output=True, text=True)
    user, system, peak = done.stderr.strip().splitlines()[-1].split()
    return float(user) + float(system), int(peak) * 1024, done.stdout


def timed(words, file):
    """The processor time of one run, in seconds."""
    with open(file) as it:
        child = subprocess.Popen(words, stdin=it, stdout=subprocess.DEVNULL, stderr=subprocess.DEVNULL)
        _, _, used = os.wait4(child.pid, 0)
        child.returncode = 0
    return used.ru_utime + used.ru_stime


def main():
    words, bad = sys.argv[1:], 0
    folder = tempfile.mkdtemp()
    print("family     events at n   run ns/event   growth n to 4n   bytes/message")
    for family in (idle, hot, one_key, spread, unheard):
        files, ran = [], []
        for n in (1, 2, 4):
            name = f"{folder}/{family.__name__}{n}"
            scene = family(n)
            open(name, "w").write(scene)
            open(name + "x", "w").write(scene[:-4] + "End\n")
            files.append(name)
        best = {}
        for _ in range(REPEATS):
            for f in files:
                for it in (f, f + "x"):
                    best[it] = min(best.get(it, 1e9), timed(words, it))
        for f in files:
            _, peak, out = measured(words, f)
            messages = int(re.search(r"messages=(\d+)", out.splitlines()[-1])[1])
            scene = open(f).read()
            steps = scene.count("\nc ") + scene.count("\nd ") + messages + sum(scene.count(f"\n{w}") for w in ("get ", "put ", "add ", "tx\n", "tx\n"))
            ran.append((max(best[f] - best[f + "x"], 1e-5), steps, peak, messages))
        per = [t / s for t, s, _, _ in ran]
        growth = math.sqrt(per[2] / per[0])
        more = ran[2][3] - ran[0][3]
        each = f"{(ran[2][2] - ran[0][2]) / more:10.0f}" if more > 5000 else "         -"
        bad |= growth > LIMIT
        print(f"{family.__name__:10} {ran[0][1]:10} {per[0] * 1e9:14.0f} {growth:16.2f} {each}")
    name = f"{folder}/limits"
    with open(name, "w") as it:
        it.write(at_limits())
    _, peak, out = measured(words, name)
    print(f"at the limits: {peak / 1e6:.0f} MB at most, {out.splitlines()[-1]}")
    return int(bad or peak > PEAK)


if __name__ == "__main__":
    sys.exit(main())
