#!/usr/bin/env python3
"""Refuses each allocation of the program of crates/test_calls in turn, over each edit of a live table, and over each
kind of edit that a history takes back and makes again.

    tools/checks/check_edits.py

If an edit, an undo or a redo says `out of memory`, the counts, the lines, the value of each name, and all that can be
undone and redone have to stay the same. The repeated edit has to succeed, with the same answers as if nothing had been
refused. A run in which another call is out of memory ends without an answer. Needs gcc, for an allocator that takes the
place of the C library's. A case is an edit; the last line is `N passed, M failed`.
"""

import os
import subprocess
import sys
import tempfile
from pathlib import Path
from typing import NamedTuple

ROOT = Path(__file__).resolve().parents[2]
DECK = ["m !", "k- 1000", "!locale en_GB", "b 2 m", "!endlocale", "b 3 km", "d b kb", "f(x) x b", "g() f"]
MORE = ["b 4 km", "e 5 d", "k- 100"]
VALUES = ["value b", "value d", "value kd", "value f(2)", "value e"]
EDITS = ["define b 7 km", "define e 7 d", "drop b", "switch en_GB", "append more.units"]


class Case(NamedTuple):
    """The calls before an edit, the edit, and the call that repeats it after it was refused."""

    before: list[str]
    edit: str
    again: str


class Program(NamedTuple):
    """The kind of its calls, its first calls, calls that show the state, calls that show the rest, and its edits."""

    kind: str
    start: list[str]
    questions: list[str]
    last: list[str]
    cases: list[Case]


LIVE = Program(
    "values",
    ["load deck.units", "settle"],
    ["counts", *VALUES, "value g(3)", "counts"],
    [],
    [
        *(Case([], edit, edit) for edit in [*EDITS, "define k- 10", "define b kd"]),
        Case([], "splice 5 2 b 7 km;e 2 m", "back"),
        Case(["splice 5 2 b 7 km;e 2 m", "settle"], "back", "back"),
    ],
)
# After its first calls, a history has an edit that can be undone and one that can be redone.
HISTORY = Program(
    "history",
    ["load deck.units", "define c 2 b", "define c 3 b", "undo"],
    ["lines", *VALUES, "value c"],
    [*["redo", "lines"] * 3, *["undo", "lines"] * 4, *["redo", "lines"] * 4],
    [
        *(Case([], edit, edit) for edit in EDITS),
        *(Case([edit], "undo", "undo") for edit in EDITS),
        *(Case([edit, "undo"], "redo", "redo") for edit in EDITS),
    ],
)


def give_up(why):
    print(f"check_edits: {why}")
    print("0 passed, 1 failed")
    sys.exit(1)


def built(name):
    """Returns the path of a proved program."""
    done = subprocess.run([ROOT / "tools/built.sh", name], stdout=subprocess.PIPE, check=False)
    if done.returncode != 0:
        give_up(f"the program {name} is not built")
    return done.stdout.decode().strip()


def run(command, calls, number=0):
    """Returns the status, the answers, and whether the allocation of this number was refused."""
    given = "".join(call + "\n" for call in calls).encode()
    settings = {"LD_PRELOAD": str(Path("refuse.so").resolve()), "REFUSED": str(number)}
    with open("refused", "w+b") as log:
        os.dup2(log.fileno(), 9)
        streams = {"stdout": subprocess.PIPE, "stderr": subprocess.DEVNULL, "pass_fds": [9]}
        done = subprocess.run(command, input=given, env=settings, check=False, **streams)
        os.close(9)
        return done.returncode, done.stdout.decode().split("\n")[:-1], os.fstat(log.fileno()).st_size > 0


def refusals(command, calls, at, expected):
    """Refuses each allocation in turn. Returns how often the call at this place says `out of memory`, or None if a run
    is wrong. After `out of memory` the answers have to be the expected ones."""
    status, full, _ = run(command, calls)
    if status != 0 or len(full) != len(calls) or full[at] != "ok":
        return None
    count, number = 0, 0
    while True:
        number += 1
        status, answers, was_refused = run(command, calls, number)
        if not was_refused:
            return count
        if status != 0:
            agrees = answers == []
        elif answers[at : at + 1] == ["out of memory"]:
            count += 1
            agrees = answers == expected
        else:
            agrees = answers == full or "out of memory" in answers
        if not agrees:
            print(f"check_edits: {calls[at]}, with allocation {number} refused: status {status}, {answers[at:]}")
            return None


def is_right(command, program, case):
    """Returns whether an edit is right with each allocation refused, and how often the edit itself was refused."""
    start = [*program.start, *case.before, *program.questions]
    report = [*program.questions, *program.last]
    at = len(start)
    _, unchanged, _ = run(command, [*start, *report])
    _, changed, _ = run(command, [*start, case.edit, *report])
    refused = [*unchanged[:at], "out of memory"]
    alone = refusals(command, [*start, case.edit, *report], at, [*refused, *unchanged[at:]])
    repeated = refusals(command, [*start, case.edit, case.again, *report], at, [*refused, *changed[at:]])
    return bool(alone) and alone == repeated, alone or 0


def main():
    path = built("test_calls")
    passed = failed = 0
    with tempfile.TemporaryDirectory() as folder:
        os.chdir(folder)
        Path("deck.units").write_text("".join(line + "\n" for line in DECK))
        Path("more.units").write_text("".join(line + "\n" for line in MORE))
        gcc = ["gcc", "-O1", "-shared", "-fPIC", "-o", "refuse.so", ROOT / "tools/checks/refuse.c"]
        compiler = subprocess.run(gcc, check=False)
        if compiler.returncode != 0:
            give_up("gcc did not build the allocator")
        for program in [LIVE, HISTORY]:
            for case in program.cases:
                right, count = is_right([path, program.kind], program, case)
                title = f"{program.kind}: {' and '.join([*case.before, case.edit])}"
                print(f"{title}: refused {count} times{'' if right else ', and wrong'}")
                passed, failed = (passed + 1, failed) if right else (passed, failed + 1)
        os.chdir("/")
    print(f"{passed} passed, {failed} failed")
    return failed > 0


if __name__ == "__main__":
    sys.exit(main())
