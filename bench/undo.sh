#!/usr/bin/env bash
# Times the program of crates/test_calls over decks of 100,000 lines `u_i C u_j`: 30,000 lines are defined, undone
# one by one and redone one by one; a dropped line, another locale and an appended file of one line are each undone and
# redone. Prints the lowest of a few runs, less the time of the load.
#   bench/undo.sh
set -u
root=$(cd "$(dirname "${BASH_SOURCE[0]}")/.." && pwd)
program=$("$root/tools/built.sh" test_calls) || exit
PYTHONPATH="$root/bench" PYTHONDONTWRITEBYTECODE=1 exec python3 - "$program" <<'PYTHON'
import functools
import os
import sys
import tempfile
from pathlib import Path

import timing
from timing import say

COUNT, EDITS, PASSES = 100_000, 30_000, 20
timed = functools.partial(timing.timed, [sys.argv[1], "history"])


def definitions():
    calls = [f"define u_{i * 3 + 1} {i % 7 + 1} u_{i}" for i in range(EDITS)]
    loading = timed(["load shorter", "value 1"], "1", runs=2)
    define_time = timed(["load shorter", *calls], "ok", runs=2)
    say(f"{EDITS} lines defined", define_time.less(loading))
    undo_time = timed(["load shorter", *calls, *["undo"] * EDITS], "ok", runs=2)
    say(f"{EDITS} of them undone, one by one", undo_time.less(define_time))
    redo_time = timed(["load shorter", *calls, *["undo"] * EDITS, *["redo"] * EDITS], "ok", runs=2)
    say(f"{EDITS} of them made again", redo_time.less(undo_time))


def others():
    for title, name, edit in [
        ("a line dropped", "deck", "drop u_50000"),
        ("another locale", "deck", "switch en_GB"),
        ("a file of a line appended", "shorter", "append line"),
    ]:
        edit_time = timed([f"load {name}", edit], "ok")
        both = timed([f"load {name}", edit, *["undo", "redo"] * PASSES], "ok")
        say(f"{title}, undone and made again", both.less(edit_time, PASSES))


with tempfile.TemporaryDirectory() as folder:
    os.chdir(folder)
    lines = ["u_0 !\n", *(f"u_{i} {1 + i % 3} u_{i // 2}\n" for i in range(1, COUNT))]
    Path("deck").write_text("".join(lines))
    Path("shorter").write_text("".join(lines[: COUNT - EDITS]))
    Path("line").write_text("u_1 5 u_0\n")
    definitions()
    others()
PYTHON
