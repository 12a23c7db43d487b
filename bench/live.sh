#!/usr/bin/env bash
# Times the program of crates/test_calls. Over a chain of 60,000 names, each a multiple of the one before: the first
# query of the last name, later queries, queries of all names in both orders, and the memory of a name; if valgrind is
# installed, also the instructions and cache misses of the first query, which do not depend on the load. Over a ring of
# as many names: a query, which ends in a cycle of all. Over the definitions of GNU units, if installed: the values of
# all names. Prints the lowest of a few runs, less the time of the load.
#   bench/live.sh [DEFINITIONS]
# DEFINITIONS are those of Debian's package units unless they are given.
set -u
root=$(cd "$(dirname "${BASH_SOURCE[0]}")/.." && pwd)
program=$("$root/tools/built.sh" test_calls) || exit
definitions=$(realpath -ms -- "${1:-/usr/share/units/definitions.units}") || exit
PYTHONPATH="$root/bench" PYTHONDONTWRITEBYTECODE=1 exec python3 - "$program" "$definitions" <<'PYTHON'
import functools
import os
import sys
import tempfile
from pathlib import Path

import timing
from timing import counted, say

REAL = sys.argv[2]
COUNT, LATER = 60_000, 200_000
timed = functools.partial(timing.timed, [sys.argv[1], "values"])


def say_each(title, cost):
    print(f"{title:44} {cost.clock * 1e6:8.2f} µs, {cost.processor * 1e6:8.2f} of the processor", flush=True)


def say_counts(title, loading, first):
    if loading and first:
        instructions, misses = ((count - load) / COUNT for count, load in zip(first, loading))
        print(f"{title:44} {instructions:8.0f} instructions, {misses:.1f} misses of a cache of 1 MB", flush=True)


def real():
    if not os.path.exists(REAL):
        print(f"no file {REAL}; on Debian: apt-get install units")
        return
    loading = timed([f"load {REAL}", "counts"], "0 settled, ", runs=40)
    settling = timed([f"load {REAL}", "settle"], "ok", runs=40)
    say("the definitions of GNU units, all settled", settling.less(loading))


def chain():
    lines = ["u_0 !", *(f"u_{i} {'2' if i % 2 else '0.5'} u_{i - 1}" for i in range(1, COUNT + 1))]
    Path("chain").write_text("".join(line + "\n" for line in lines))
    Path("ring").write_text("".join(line + "\n" for line in [f"u_0 u_{COUNT}", *lines[1:]]))
    last = f"value u_{COUNT}"
    loading = timed(["load chain", "counts"], "0 settled, ")
    say(f"{COUNT} names, loaded", loading, f", {loading.memory >> 20} MiB")
    first = timed(["load chain", last], "1 u_0")
    settled = f"{COUNT + 1} settled, {COUNT + 1} names, {COUNT + 1} reductions"
    memory = timed(["load chain", last, "counts"], settled).memory
    say("the first query of the last one", first.less(loading), f", {(memory - loading.memory) // COUNT} bytes a name")
    say_counts("  a name of it", *(counted([sys.argv[1], "values"], ["load chain", call]) for call in ("counts", last)))
    later = timed(["load chain", last, *[last] * LATER], "1 u_0").less(first, LATER)
    say_each("a later one, with its line and its answer", later)
    unread = timed(["load chain", last, *["X" + last] * LATER], "bad call").less(first, LATER)
    say_each("a line that is no call", unread)
    for end, order in [("first", range(COUNT + 1)), ("last", range(COUNT, -1, -1))]:
        queries = timed(["load chain", *(f"value u_{i}" for i in order), "counts"], settled)
        say(f"queries of all, from the {end} on", queries.less(loading))
    say("all settled, by one call", timed(["load chain", "settle", "counts"], settled).less(loading))
    ring = timed(["load ring", "counts"], "0 settled, ")
    say("a query of a ring of as many", timed(["load ring", last], f"cycle: u_{COUNT} -> ").less(ring))


with tempfile.TemporaryDirectory() as folder:
    os.chdir(folder)
    real()
    chain()
PYTHON
