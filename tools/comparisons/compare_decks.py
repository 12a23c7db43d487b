#!/usr/bin/env python3
"""Compares decks with a plain reading of definition files, on many random files and edits.

    tools/comparisons/compare_decks.py [DECKS] [SEED]

Makes DECKS sets of small files (300 by default) from SEED (1 by default), with includes, blocks, variables, faulty
lines and continuations. The program of crates/test_calls loads one, edits it and answers calls after each edit. Each
answer is compared with that of plain lists, which are searched in full. Prints the first differences and a line with
the counts. The status is 1 if there is a difference.

    tools/comparisons/compare_decks.py --answer < CALLS

Answers calls with the lists and the files of the current folder.
"""

import os
import random
import subprocess
import sys
import tempfile
from collections import Counter
from pathlib import Path

sys.path[:0] = [str(Path(__file__).resolve().parents[1] / name) for name in (".", "models")]
from built import program  # noqa: E402
from decks_at_random import EDITS, LEAVES, NAMES, random_calls, random_file  # noqa: E402
from plain_decks import Board, joined  # noqa: E402

PROGRAM, KIND = "test_calls", "decks"
SHOWN = 5  # how many differences are printed


def without_order(answer):
    """The answer with changed keys sorted, since no contract fixes their order."""
    word, _, keys = answer.partition(": ")
    return f"{word}: {joined(sorted(keys.split(' | ')))}" if word == "changed" else answer


def compare(r, folder):
    """The calls on a set of files, and the answers of the program that differ, with their places."""
    os.chdir(folder)
    for name in ("dir", "sub", "sub/dir"):
        os.makedirs(name, exist_ok=True)
    for name in NAMES + LEAVES:
        Path(name).write_bytes(random_file(r, name).encode("latin-1"))
    calls = list(random_calls(r, Board(), 12))
    spelled = "".join(call + "\n" for call, _ in calls)
    run = subprocess.run([program(PROGRAM), KIND], input=spelled.encode("latin-1"), stdout=subprocess.PIPE, check=False)
    answers = run.stdout.decode("latin-1").split("\n")[:-1]
    if run.returncode != 0 or len(answers) != len(calls):
        sys.exit(f"the program ended with status {run.returncode} after {len(answers)} answers to {calls}")
    wrong = [
        (at, want, got)
        for at, ((_, want), got) in enumerate(zip(calls, answers))
        if without_order(want) != without_order(got)
    ]
    return calls, wrong


def show(calls, at, want, got):
    """Prints a difference, the files, and the edits before it."""
    for name in NAMES + LEAVES:
        print(f"    {name}: {Path(name).read_bytes()!r}")
    edits = [call for call, answer in calls[:at] if answer == "ok" or answer.startswith("changed")]
    print(f"    after {edits}\n    {calls[at][0]!r}: {got!r}, not {want!r}")


def main():
    if sys.argv[1:] == ["--answer"]:
        board = Board()
        for line in sys.stdin.buffer.read().decode("latin-1").split("\n")[:-1]:
            sys.stdout.buffer.write((board.answer(line) + "\n").encode("latin-1"))
        return
    decks = int(sys.argv[1]) if len(sys.argv) > 1 else 300
    r = random.Random(sys.argv[2] if len(sys.argv) > 2 else "1")
    tally, differences = Counter(), 0
    for _ in range(decks):
        with tempfile.TemporaryDirectory() as folder:
            calls, wrong = compare(r, folder)
            for difference in wrong[: max(0, SHOWN - differences)]:
                show(calls, *difference)
            os.chdir("/")
        differences += len(wrong)
        tally.update(call.split()[0] + (" refused" if is_refused(call, answer) else "") for call, answer in calls)
    print(f"{decks} decks, {differences} differences: " + ", ".join(f"{n} {word}" for word, n in sorted(tally.items())))
    sys.exit(differences > 0)


def is_refused(call, answer):
    return call.split()[0] in EDITS and answer != "ok" and not answer.startswith("changed")


if __name__ == "__main__":
    main()
