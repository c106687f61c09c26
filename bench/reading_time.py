#!/usr/bin/env python3
"""How long `strun run` takes for scenes of about 10 kB, 100 kB and 1 MB.

Usage: bench/reading_time.py PROGRAM [REPEATS]     PROGRAM is the built program, crates/strun/out/strun

Each scene is timed twice: as it is, and with its last line spelled `End`, which is read to the end and then refused, so that the
second time is that of reading alone. The shortest of the repeats is printed.
"""
import subprocess
import sys
import time

SESSIONS = 16
MOST_EVENTS = 65536


def scene(size):
    """The text of a first scene of about so many bytes: some transactions, and client steps for the rest."""
    scripts = []
    transactions = min(1024, max(16, size // 1000))
    for session in range(SESSIONS):
        scripts.append("session 1\n")
        for number in range(transactions // SESSIONS):
            key = (session * 31 + number) % 200
            scripts.append(f"tx\nget key_{key}@1\nput key_{key}@1 {number}\n")
    head = "str 1\nnodes 1\npart 1 1\n" + "".join(scripts) + "schedule\n"
    events, length = [], len(head)
    while length < size - 10 and len(events) < MOST_EVENTS:
        event = f"c {len(events) % SESSIONS + 1} {10**9 + len(events)}\n"
        events.append(event)
        length += len(event)
    return head + "".join(events) + "drain\nend\n"


def shortest(program, text, status, repeats):
    """The shortest time of the repeats, in milliseconds."""
    best = None
    for _ in range(repeats):
        start = time.perf_counter()
        done = subprocess.run([program, "run"], input=text.encode(), capture_output=True)
        taken = (time.perf_counter() - start) * 1000
        if done.returncode != status:
            sys.exit(f"status {done.returncode} in place of {status}: {done.stderr.decode()}")
        best = taken if best is None else min(best, taken)
    return best


def main():
    if len(sys.argv) < 2:
        sys.exit(__doc__)
    program = sys.argv[1]
    repeats = int(sys.argv[2]) if len(sys.argv) > 2 else 5
    print("bytes      lines   read and run   read alone (ms)")
    for size in (10_000, 100_000, 1_000_000):
        text = scene(size)
        bad = text[: -len("end\n")] + "End\n"
        whole = shortest(program, text, 0, repeats)
        reading = shortest(program, bad, 3, repeats)
        print(f"{len(text):>8} {text.count(chr(10)):>8} {whole:>12.1f} {reading:>12.1f}")


main()
