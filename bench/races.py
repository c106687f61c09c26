#!/usr/bin/env python3
"""Races of made scenes, each of which is run again as the schedule that its journal spells.

Usage: bench/races.py STRRACE STRUN [COUNT]      as in bench/races.py crates/strrace/out/strrace crates/strun/out/strun 50

Each of COUNT (50) scenes of 1 to 8 nodes is made by tools/make_scene, and raced for 1 to 256 rounds. The lines `j ..` of what the race
writes are put in place of the scene's schedule and drain, and `strun run --journal` of that text must write the same bytes. The last line
must have `held=0 unbegun=0`. One line is printed; status 1 where a race differs, and its scene is kept.
"""
import pathlib
import random
import subprocess
import sys
import tempfile

MAKE = pathlib.Path(__file__).resolve().parent.parent / "tools" / "make_scene"


def made(seed):
    """A made scene, and a number of rounds for it."""
    draw = random.Random(seed)
    nodes = draw.randint(1, 8)
    words = {
        "nodes": nodes, "partitions": draw.randint(1, 12), "replicas": draw.randint(1, nodes), "sessions": draw.randint(1, min(16 * nodes, 24)),
        "transactions": draw.randint(1, 8), "keys": draw.randint(1, 6), "reads": draw.randint(0, 60), "entries": 1, "seed": seed,
    }
    ask = [sys.executable, MAKE, *(word for name, value in words.items() for word in (f"--{name}", str(value)))]
    return subprocess.run(ask, capture_output=True, text=True, check=True).stdout, draw.choice((1, 2, 4, 8, 16, 40, 100, 256))


def with_schedule(scene, journal):
    """The scene with the events of a journal as its schedule, and without a drain."""
    events = [line[2:].removesuffix(" idle") for line in journal.splitlines() if line.startswith("j ")]
    return "\n".join([scene.split("\nschedule\n")[0], "schedule", *events, "end", ""])


def main():
    if len(sys.argv) not in (3, 4):
        sys.exit(__doc__)
    race, run, count = sys.argv[1], sys.argv[2], int(sys.argv[3]) if len(sys.argv) == 4 else 50
    ask = lambda words, text: subprocess.run(words, input=text, capture_output=True, text=True)
    events = rounds = aborts = differ = 0
    for seed in range(1, count + 1):
        scene, number = made(seed)
        raced = ask([race, str(number)], scene)
        again = ask([run, "run", "--journal"], with_schedule(scene, raced.stdout))
        last = raced.stdout.splitlines()[-1] if raced.stdout else ""
        if raced.returncode or again.returncode or raced.stdout != again.stdout or " held=0 unbegun=0 " not in last:
            differ += 1
            kept = tempfile.NamedTemporaryFile("w", prefix=f"race_{seed}_", suffix=".scene", delete=False)
            kept.write(scene)
            print(f"race {seed} of {number} rounds differs: {kept.name}: {raced.stderr or again.stderr or last}")
        events += sum(line.startswith("j ") for line in raced.stdout.splitlines())
        rounds += number
        aborts += raced.stdout.count(" abort ")
    print(f"{count - differ} of {count} races ({rounds} rounds, {events} events, {aborts} aborts) are written again by the run of their journal")
    return int(differ > 0)


if __name__ == "__main__":
    sys.exit(main())
