#!/usr/bin/env python3
"""How long an entry takes in a made scene of 6,000 entries, and in one of 65,536, side by side. No absolute time is judged.

Usage: bench/made_scenes.py PROGRAM [REPEATS]      as in bench/made_scenes.py crates/strun/out/strun

The short scene is that of `gen 7`. The long one is joined from made scenes: the transactions of `gen 7`, `gen 8` and `gen 9`, session by
session, as many as a scene may have, and the entries of `gen 7` to `gen 17`, with later readings and message numbers, as many as a scene may
have. Whole is `gen 7 --run`, and `run` of the long text, each without the time of a call that is refused at once; run alone is `run`
of each text without the time of reading it, which is that of the text with its last line spelled `End`. Each time is the least of REPEATS
(7), taken in turns so that load falls on all alike.
Printed: nanoseconds per entry of both, and the ratios. Status 1 where an entry of the long scene takes more than LIMIT times as long, whole.
"""
import os
import subprocess
import sys
import tempfile

sys.dont_write_bytecode = True
from run_growth import timed

ENTRIES, SEEDS, SCRIPTS, LIMIT = 65_536, range(7, 18), 3, 1.3


def parts_of(text):
    """The head of a made scene, its sessions with their transactions as lines, and its entries as words."""
    scripts, schedule = text.split("\nschedule\n")
    head, *sessions = scripts.split("\nsession ")
    entries = [line.split(" ") for line in schedule.splitlines() if line[:2] in ("c ", "d ")]
    return head, [session.split("\n") for session in sessions], entries


def joined(texts, sent):
    """The long scene of the made ones, of which each sends about so many messages."""
    made = [parts_of(text) for text in texts]
    head, sessions, _ = made[0]
    lines = head.split("\n")
    for number, (node, *_) in enumerate(sessions):
        lines.append(f"session {node}")
        for _, others, _ in made[:SCRIPTS]:
            lines += others[number][1:]
    entries, before = [], 0
    for turn, (_, _, its) in enumerate(made):
        for words in its:
            if words[0] == "c":
                entries.append(f"c {words[1]} {int(words[2]) + 10 * before}")
            else:
                entries.append(f"d {int(words[1]) + sent * min(turn, SCRIPTS - 1)}")
        before += len(its)
    return "\n".join([*lines, "schedule", *entries[:ENTRIES], "drain", "end", ""])


def main():
    if len(sys.argv) not in (2, 3):
        sys.exit(__doc__)
    program, repeats = sys.argv[1], int(sys.argv[2]) if len(sys.argv) == 3 else 7
    ask = lambda *words: subprocess.run([program, *words], stdin=subprocess.DEVNULL, capture_output=True, text=True, check=True).stdout
    texts = [ask("gen", str(seed)) for seed in SEEDS]
    sent = int(ask("gen", "7", "--run").rsplit("messages=", 1)[1])
    folder = tempfile.mkdtemp()
    calls = {"start": ([program], os.devnull), "gen": ([program, "gen", "7", "--run"], os.devnull)}
    for name, text in (("short", texts[0]), ("long", joined(texts, sent))):
        for kind, told in ((name, text), (name + " read", text[: -len("end\n")] + "End\n")):
            with open(f"{folder}/{kind}", "w", encoding="ascii") as file:
                file.write(told)
            calls[kind] = ([program, "run"], f"{folder}/{kind}")
        with open(f"{folder}/{name}") as file:
            last = subprocess.run([program, "run"], stdin=file, capture_output=True, text=True, check=True).stdout.splitlines()[-1]
        print(f"{name}: {text.count(chr(10) + 'tx')} transactions, {last}")
    best = {}
    for _ in range(repeats):
        for name, (words, file) in calls.items():
            best[name] = min(best.get(name, 1e9), timed(words, file))
    entries = {name: sum(line[:2] in ("c ", "d ") for line in open(f"{folder}/{name}")) for name in ("short", "long")}
    each = lambda taken, name: max(taken, 1e-6) / entries[name] * 1e9
    whole = each(best["gen"] - best["start"], "short"), each(best["long"] - best["start"], "long")
    alone = each(best["short"] - best["short read"], "short"), each(best["long"] - best["long read"], "long")
    print("                  entries   whole ns/entry   run alone ns/entry")
    for row, name in enumerate(("short", "long")):
        print(f"{name:15}{entries[name]:10}{whole[row]:17.0f}{alone[row]:21.0f}")
    print(f"{'long to short':25}{whole[1] / whole[0]:17.2f}{alone[1] / alone[0]:21.2f}")
    return int(whole[1] > LIMIT * whole[0])


if __name__ == "__main__":
    sys.exit(main())
