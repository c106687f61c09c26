#!/usr/bin/env python3
"""How much sooner the rounds of a race are done on four processors than on one, in one run. No absolute time is judged.

Usage: bench/race_ratio.py PROGRAM [REPEATS]      as in bench/race_ratio.py crates/strrace/out/strrace

The scene has 8 nodes, 64 sessions and 1,024 transactions of 16 operations over few keys, so that each node has much to do in a round. It is
raced for ROUNDS rounds, by `taskset` on four processors and on one. The time without rounds is taken off: it is that of a scene with the same
text whose last line is spelled `End`, which is read to the end and refused. Merging and writing stay in, and are done in one thread. Each time
is the least of REPEATS (5), taken in turns so that load falls on both alike. Printed: both times, and their ratio.
"""
import random
import subprocess
import sys
import tempfile
import time

ROUNDS, NODES, SESSIONS, EACH = 256, 8, 64, 16


def text():
    draw = random.Random(1)
    key = lambda: f"k{draw.randrange(40)}@{1 + draw.randrange(16)}"
    lines = ["str 1", f"nodes {NODES}"] + [f"part {p + 1} " + " ".join(str(1 + (p + r) % NODES) for r in range(4)) for p in range(16)]
    for session in range(SESSIONS):
        lines.append(f"session {1 + session % NODES}")
        for _ in range(EACH):
            lines += ["tx", *(f"{draw.choice(('get', 'get', 'add'))} {key()}" for _ in range(16))]
    lines = [line + " 1" if line.startswith("add") else line for line in lines]
    return "\n".join([*lines, "schedule", "end", ""])


def timed(words, file):
    """How long one run takes, in seconds."""
    with open(file) as it:
        begun = time.perf_counter()
        subprocess.run(words, stdin=it, stdout=subprocess.DEVNULL, stderr=subprocess.DEVNULL)
        return time.perf_counter() - begun


def main():
    if len(sys.argv) not in (2, 3):
        sys.exit(__doc__)
    program, repeats = sys.argv[1], int(sys.argv[2]) if len(sys.argv) == 3 else 5
    folder = tempfile.mkdtemp()
    scene = text()
    for name, told in (("race", scene), ("read", scene[: -len("end\n")] + "End\n")):
        with open(f"{folder}/{name}", "w", encoding="ascii") as file:
            file.write(told)
    on = {"four": "0-3", "one": "0"}
    best = {}
    for _ in range(repeats):
        for name, processors in on.items():
            for kind in ("race", "read"):
                taken = timed(["taskset", "-c", processors, program, str(ROUNDS)], f"{folder}/{kind}")
                best[name, kind] = min(best.get((name, kind), 1e9), taken)
    with open(f"{folder}/race") as file:
        last = subprocess.run([program, str(ROUNDS)], stdin=file, capture_output=True, text=True, check=True).stdout.splitlines()[-1]
    took = {name: best[name, "race"] - best[name, "read"] for name in on}
    print(f"{ROUNDS} rounds of {NODES} nodes, {last}")
    print(f"on four processors {took['four'] * 1000:.0f} ms, on one {took['one'] * 1000:.0f} ms: {took['one'] / took['four']:.2f} times as long")


if __name__ == "__main__":
    main()
