#!/usr/bin/env python3
"""Doors of made scenes, each of which is run again as the schedule that its journal spells.

Usage: bench/doors.py DOOR STRUN [COUNT]      as in bench/doors.py crates/door/out/door crates/strun/out/strun 50

Each of COUNT (50) scenes of 1 to 8 nodes is made by tools/make_scene and given to the door. The lines `j ..` of what it writes are put in place
of the scene's schedule and drain, and `strun run --journal` of that text must write the same bytes. The last line must have
`held=0 unbegun=0`, each session must have made 8 client steps, and the message of each turn of each node must have been given. One line is
printed; status 1 where a door differs, and its scene is kept.
"""
import collections
import subprocess
import sys
import tempfile

sys.dont_write_bytecode = True
from races import made, with_schedule

TURNS = 8


def has_acts(scene, events):
    """Whether each session made a client step in each turn, and each of the messages of all turns was given."""
    clients = collections.Counter(event.split()[1] for event in events if event.startswith("c "))
    nodes = int(scene.split("\nnodes ")[1].split("\n")[0])
    sessions = scene.count("\nsession ")
    given = {event for event in events if event.startswith("d ")}
    return all(clients[str(s + 1)] >= TURNS for s in range(sessions)) and all(f"d {n + 1}" in given for n in range(TURNS * nodes))


def main():
    if len(sys.argv) not in (3, 4):
        sys.exit(__doc__)
    door, run, count = sys.argv[1], sys.argv[2], int(sys.argv[3]) if len(sys.argv) == 4 else 50
    ask = lambda words, text: subprocess.run(words, input=text, capture_output=True, text=True)
    total = aborts = differ = 0
    for seed in range(1, count + 1):
        scene = made(seed)[0]
        acted = ask([door], scene)
        again = ask([run, "run", "--journal"], with_schedule(scene, acted.stdout))
        lines = acted.stdout.splitlines()
        events = [line[2:].removesuffix(" idle") for line in lines if line.startswith("j ")]
        is_whole = bool(lines) and " held=0 unbegun=0 " in lines[-1] and has_acts(scene, events)
        if acted.returncode or again.returncode or acted.stdout != again.stdout or not is_whole:
            differ += 1
            kept = tempfile.NamedTemporaryFile("w", prefix=f"door_{seed}_", suffix=".scene", delete=False)
            kept.write(scene)
            print(f"door {seed} differs: {kept.name}: {acted.stderr or again.stderr or lines[-1:]}")
        total += len(events)
        aborts += acted.stdout.count(" abort ")
    print(f"{count - differ} of {count} doors ({total} events, {aborts} aborts) are written again by the run of their journal")
    return int(differ > 0)


if __name__ == "__main__":
    sys.exit(main())
