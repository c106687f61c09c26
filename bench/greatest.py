#!/usr/bin/env python3
"""Runs the greatest inputs, each beside one of half its size. No absolute time is judged.

Usage: bench/greatest.py PROGRAM      as in bench/greatest.py crates/strun/out/strun

For each: the status and the last line, the processor time and the peak memory, and how the time grows from the half to the whole (2.0: linear). Each time
is the least of REPEATS, taken in turns. Status 1 where an input that is in the limits isn't run, one beyond them isn't refused with its line, or
a time grows by more than LIMIT.
"""
import os
import subprocess
import sys
import tempfile

sys.dont_write_bytecode = True
from run_growth import measured, spread, text, timed

REPEATS, LIMIT, BYTES = 15, 3.0, 1_048_576


def of_bytes(size):
    """A text of exactly so many bytes: entries whose readings have as many digits as it takes."""
    left = size - len(text(1, [(1,)], [(1, [["put a@1 1"]])], []))
    count = -(-left // 24)
    return text(1, [(1,)], [(1, [["put a@1 1"]])], ["c 1 " + "1" * (left // count - 5 + (e < left % count)) for e in range(count)])


def entries(n):
    """So many entries, half of which repeat a delivery that nobody sent."""
    return text(1, [(1,)], [(1, [["put a@1 1"]])], [f"d {e + 1}" if e % 2 else "c 1 5" for e in range(n)])


def transactions(n):
    """So many transactions of one operation."""
    return text(8, [(p % 8 + 1,) for p in range(32)], [(s % 8 + 1, [[f"add k{(s + t) % 7}@{(s + t) % 32 + 1} 1"] for t in range(n // 64)]) for s in range(64)], [])


def long_values(n):
    """So many strings of 64 bytes under names of 16 bytes."""
    sessions = [(s % 8 + 1, [[f"puts k{(s * 1000 + t * 16 + o):015}@{p} x{(s * 7919 + o) % 251:02x}{'ab' * 63}" for o in range(16)] for t in range(n // 1024)]) for s in range(64) for p in [s % 32 + 1]]
    return text(8, [(p % 8 + 1, (p + 1) % 8 + 1) for p in range(32)], sessions, []).replace("str 1", "str 2", 1)


def numbers(n):
    """The greatest and least numbers wherever one may stand."""
    operations = ["put a@1 9223372036854775807", "add a@1 1", "get a@1", "put a@1 -9223372036854775808", "add a@1 -1", "get a@1", "need a@1 9223372036854775807"]
    sessions = [(1, [operations] * n)]
    return text(1, [(1,)], sessions, ["d 18446744073709551615", "c 1 18446744073709551615"] * n)


def main():
    if len(sys.argv) != 2:
        sys.exit(__doc__)
    program, folder, bad, files = sys.argv[1], tempfile.mkdtemp(), 0, {}
    inputs = {"bytes": (of_bytes, BYTES), "entries": (entries, 65_536), "transactions": (transactions, 1024), "keys": (lambda n: spread(n // 4096), 16_384),
              "long names and strings": (long_values, 6144), "numbers": (numbers, 512)}
    for name, (make, size) in inputs.items():
        for part in (1, 2):
            files[name, part] = f"{folder}/{name.replace(' ', '_')}{part}"
            with open(files[name, part], "w", encoding="ascii") as file:
                file.write(make(size // part))
    assert os.path.getsize(files["bytes", 1]) == BYTES
    best = {}
    for _ in range(REPEATS):
        for at, file in files.items():
            best[at] = min(best.get(at, 1e9), timed([program, "run"], file))
    print("input                       bytes   seconds   growth from half   MB   last line")
    for name in inputs:
        _, peak, out = measured([program, "run"], files[name, 1])
        growth = best[name, 1] / max(best[name, 2], 1e-3)
        last = out.splitlines()[-1] if out else "nothing"
        bad |= not last.startswith("end ") or growth > LIMIT
        print(f"{name:24}{os.path.getsize(files[name, 1]):9}{best[name, 1]:10.2f}{growth:19.2f}{peak / 1e6:5.0f}   {last}")
    bad |= refused(program, folder)
    return int(bad)


def refused(program, folder):
    """Whether an input beyond a limit isn't refused with its line."""
    wrong = 0
    beyond = {"one byte more": (of_bytes(BYTES + 1), "strun: more than 1048576 bytes"),
              "one entry more": (entries(65_537), f"strun: line {7 + 65_537}: count"),
              "a name of 17 bytes": (text(1, [(1,)], [(1, [["put " + "a" * 17 + "@1 1"]])], []), "strun: line 6: form"),
              "a string of 65 bytes": (text(1, [(1,)], [(1, [["puts a@1 x" + "00" * 65]])], []).replace("str 1", "str 2", 1), "strun: line 6: range"),
              "2^64": (entries(2).replace("d 2", "d 18446744073709551616"), "strun: line 9: range")}
    for name, (given, line) in beyond.items():
        done = subprocess.run([program, "run"], input=given.encode(), capture_output=True)
        said = done.stderr.decode().strip()
        right = (done.returncode, done.stdout, said) == (3, b"", line)
        wrong += not right
        print(f"{name}: status {done.returncode}, {said}" + ("" if right else f"; wanted {line}"))
    return wrong > 0


if __name__ == "__main__":
    sys.exit(main())
