#!/usr/bin/env bash
# Times reports of the program of crates/test_calls over 20,000 names, each a multiple of the one at half its number:
# checks, searches and lists of conforming units, the first and later ones, and a check in which each name depends on an
# unknown one; also a check of the definitions of GNU units, if installed. Prints the lowest of a few runs, less the
# time of the load.
#   bench/reports.sh [DEFINITIONS]
# DEFINITIONS are those of Debian's package units unless they are given.
set -u
root=$(cd "$(dirname "${BASH_SOURCE[0]}")/.." && pwd)
program=$("$root/tools/built.sh" test_calls) || exit
definitions=$(realpath -ms -- "${1:-/usr/share/units/definitions.units}") || exit
PYTHONPATH="$root/bench" PYTHONDONTWRITEBYTECODE=1 exec python3 - "$program" "$definitions" <<'PYTHON'
import functools
import os
import sys
import tempfile
from pathlib import Path

import timing
from timing import say

REAL = sys.argv[2]
COUNT, LATER = 20_000, 20
timed = functools.partial(timing.timed, [sys.argv[1], "answers"], runs=15)


def real():
    if not os.path.exists(REAL):
        print(f"no file {REAL}; on Debian: apt-get install units")
        return
    loading = timed([f"load {REAL}", "options"], "ok")
    say("the definitions of GNU units, checked", timed([f"load {REAL}", "check", "options"], "ok").less(loading))


def many():
    names = [f"u_{i} {1 + i % 3} u_{i // 2}" for i in range(1, COUNT + 1)]
    for file, first in [("sound", "u_0 !"), ("faulty", "u_0 nosuch")]:
        Path(file).write_text("".join(line + "\n" for line in [first, *names]))
    loading = timed(["load sound", "options"], "ok")
    say(f"{COUNT} names, loaded", loading, f", {loading.memory >> 20} MiB")
    for title, call in [
        ("a check", "check"),
        ("what conforms to each of them", "conformable u_0"),
        ("what conforms to none of them", "conformable 1"),
        ("a search for a text that is in no name", "search nosuch"),
        ("a search for one that is in each name", "search u"),
    ]:
        first = timed(["load sound", call, "options"], "ok")
        say(title, first.less(loading), f", {first.memory - loading.memory >> 10} KiB")
        later = timed(["load sound", call, *[call] * LATER, "options"], "ok")
        say("    a later one", later.less(first, LATER))
    loading = timed(["load faulty", "options"], "ok")
    say("a check where each has a fault", timed(["load faulty", "check", "options"], "ok").less(loading))


with tempfile.TemporaryDirectory() as folder:
    os.chdir(folder)
    real()
    many()
PYTHON
