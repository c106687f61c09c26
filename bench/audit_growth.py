#!/usr/bin/env python3
"""How the time of `strun audit` grows with the answers, and with their gets. No absolute time is judged.

Usage: bench/audit_growth.py PROGRAM      as in bench/audit_growth.py crates/strun/out/strun

Each history is that of a scene of one node and eight keys, all of whose transactions commit. It is timed as it is, and with its last line
spelled `End`, which is read to the end and refused, so that the difference is the audit alone; each the least of REPEATS, taken in turns.
Printed: milliseconds of audit for 256, 512 and 1,024 answers with one get each, and for 1,024 answers with 1, 4 and 15 gets each.
Status 1 where four times the answers take more than ANSWERS times as long (16: quadratic), or 15 times the gets more than GETS times.
"""
import os
import subprocess
import sys
import tempfile

sys.dont_write_bytecode = True
from run_growth import text, timed

REPEATS, ANSWERS, GETS = 7, 20.0, 18.0


def scene(answers, gets):
    """So many transactions in sixteen sessions of one node, each with a write and so many gets of eight keys."""
    ops = lambda n: [f"put k{n % 8}@1 {n}"] + [f"get k{(n + g) % 8}@1" for g in range(gets)]
    sessions = [(1, [ops(16 * t + s) for t in range(answers // 16)]) for s in range(16)]
    return text(1, [(1,)], sessions, [])


def main():
    if len(sys.argv) != 2:
        sys.exit(__doc__)
    program, folder = sys.argv[1], tempfile.mkdtemp()
    cases = {(answers, 1) for answers in (256, 512, 1024)} | {(1024, gets) for gets in (1, 4, 15)}
    for answers, gets in cases:
        name = f"{folder}/{answers}_{gets}"
        its = scene(answers, gets)
        run = subprocess.run([program, "run"], input=its, capture_output=True, text=True, check=True).stdout
        with open(name, "w", encoding="ascii") as file:
            file.write(its + run)
        with open(name + "x", "w", encoding="ascii") as file:
            file.write(its + run.replace("\nend ", "\nEnd "))
        with open(name, encoding="ascii") as file:
            told = subprocess.run([program, "audit"], stdin=file, capture_output=True, text=True, check=True).stdout
        assert told == f"si yes answers={answers}\n", told
    best = {}
    for _ in range(REPEATS):
        for answers, gets in cases:
            for file in (f"{folder}/{answers}_{gets}", f"{folder}/{answers}_{gets}x"):
                best[file] = min(best.get(file, 1e9), timed([program, "audit"], file))
    alone = lambda answers, gets: max(best[f"{folder}/{answers}_{gets}"] - best[f"{folder}/{answers}_{gets}x"], 1e-4)
    print("answers   gets   audit alone (ms)")
    for answers, gets in sorted(cases):
        print(f"{answers:7}{gets:7}{alone(answers, gets) * 1e3:19.2f}")
    by_answers, by_gets = alone(1024, 1) / alone(256, 1), alone(1024, 15) / alone(1024, 1)
    print(f"4 times the answers: {by_answers:.1f} times as long (16: quadratic); 15 times the gets: {by_gets:.1f} times")
    sys.exit(by_answers > ANSWERS or by_gets > GETS)


if __name__ == "__main__":
    main()
