#!/usr/bin/env bash
# Times the program of crates/test_calls on three inputs: the definitions of GNU units, if installed; decks of 25,000,
# 50,000 and 100,000 lines `u_i C u_j`, which are loaded, made by as many calls of `define`, switched to another locale,
# and lose and gain lines; and a file of 16 MiB of line feeds that includes itself. Prints the lowest time of a few
# runs, of the whole process or of the calls alone, by the clock and by the processor, and the memory.
#   bench/decks.sh [DEFINITIONS]
# DEFINITIONS are those of Debian's package units unless they are given.
set -u
root=$(cd "$(dirname "${BASH_SOURCE[0]}")/.." && pwd)
program=$("$root/tools/built.sh" test_calls) || exit
definitions=$(realpath -ms -- "${1:-/usr/share/units/definitions.units}") || exit
PYTHONPATH="$root/bench" PYTHONDONTWRITEBYTECODE=1 exec python3 - "$program" "$definitions" <<'PYTHON'
import functools
import os
import sys
import tempfile
from pathlib import Path

import timing
from timing import say

REAL = sys.argv[2]
SIZES = [25_000, 50_000, 100_000]
PASSES = 40  # calls on the whole deck are timed in groups of this size

timed = functools.partial(timing.timed, [sys.argv[1], "decks"])


def lines(count):
    """A primitive unit, and units, each a multiple of the one with half its number."""
    return ["u_0 !", *(f"u_{i} {1 + i % 3} u_{i // 2}" for i in range(1, count))]


def real():
    if not os.path.exists(REAL):
        print(f"no file {REAL}; on Debian: apt-get install units")
        return
    cost = timed([f"load {REAL}", "count"], " lists, ", runs=20)
    say("the definitions of GNU units", cost, f", {cost.memory >> 20} MiB")


def decks(count):
    file_lines = [line + "\n" for line in lines(count)]
    Path("first").write_text(file_lines[0])
    Path("deck").write_text("".join(file_lines))
    Path("shorter").write_text("".join(file_lines[: count - PASSES]))
    counts = f"{count} units, 0 prefixes, 0 functions, 0 lists, {count} lines, 0 notices"
    loading = timed(["load deck", "count"], counts)
    say(f"{count} lines, loaded", loading, f", {loading.memory // count} bytes a line")
    defines = [f"define {line}" for line in lines(count)[1:]]
    unread = timed(["load first", *("X" + call for call in defines)], "bad call")
    say("as many calls that are none", unread)
    say(f"{count} lines, each defined, less those", timed(["load first", *defines, "count"], counts).less(unread))
    for title, name, passes, last in [
        ("switched", "deck", ["locale en_GB", "switch", "locale en_US", "switch"] * (PASSES // 2), "changed: none"),
        ("a line dropped", "deck", [f"drop u_{i * (count // PASSES) + 1}" for i in range(PASSES)], "changed: u_"),
        ("a file of a line appended", "shorter", ["append first"] * PASSES, "changed: none"),
    ]:
        say(f"{count} lines, {title}", timed([f"load {name}", *passes], last).less(loading, PASSES))


def itself():
    Path("itself").write_bytes(b"\n" * ((1 << 24) - 16) + b"!include itself\n")
    cost = timed(["load itself", "notices"], "include too deep: itself", runs=2)
    say("16 MiB of line feeds that include themselves", cost, f", {cost.memory >> 20} MiB")


with tempfile.TemporaryDirectory() as folder:
    os.chdir(folder)
    real()
    for size in SIZES:
        decks(size)
    itself()
PYTHON
