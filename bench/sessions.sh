#!/usr/bin/env bash
# Times sessions: 50,000 pairs of lines over GNU's definitions, compared with GNU units; and alone a chain of 60,000
# names with 30,000 rounds of an edit and two queries, a chain and a ring of 20,000 names, and 1,000,000 blank lines.
# Prints the seconds by the processor and by the clock, each the lowest of three runs.
#   bench/sessions.sh [GNU [DEFINITIONS]]
# GNU is the command of GNU units and DEFINITIONS its file; by default the command `units` and Debian's file.
set -u
root=$(cd "$(dirname "${BASH_SOURCE[0]}")/.." && pwd)
program=$("$root/tools/built.sh" units) || exit
gnu=$(command -v "${1:-units}")
definitions=$(realpath -m -- "${2:-/usr/share/units/definitions.units}") || exit
exec python3 - "$program" "$gnu" "$definitions" <<'PYTHON'
import os
import resource
import subprocess
import sys
import tempfile
import time
from pathlib import Path

program, gnu, definitions = sys.argv[1:]


def busy():
    usage = resource.getrusage(resource.RUSAGE_CHILDREN)
    return usage.ru_utime + usage.ru_stime


def measure(title, command, lines, last=""):
    """The lowest seconds of three runs, by the processor and by the clock. The output has to end with `last`."""
    text = "".join(line + "\n" for line in lines).encode()
    rounds = []
    for _ in range(3):
        start, busy_before = time.perf_counter(), busy()
        process = subprocess.run(command, input=text, stdout=subprocess.PIPE, stderr=subprocess.DEVNULL, check=False)
        rounds.append((busy() - busy_before, time.perf_counter() - start))
        if not process.stdout.decode(errors="replace").endswith(last):
            sys.exit(f"{title}: ended with {process.stdout[-200:]!r}")
    times = [min(row) for row in zip(*rounds)]
    print(f"{title:52} {times[0]:7.3f} s of the processor {times[1]:7.3f} s passed", flush=True)
    return times


def chain(count):
    return ["u_0 !", *(f"u_{i} u_{i - 1}" for i in range(1, count + 1))]


def file_of(name, lines):
    Path(name).write_text("".join(line + "\n" for line in lines))
    return name


with tempfile.TemporaryDirectory() as folder:
    os.chdir(folder)
    if gnu and os.path.exists(definitions):
        names = ["mile", "acre", "horsepower", "gallon", "btu", "lightyear", "psi", "knot", "calorie", "stone"]
        to = ["m", "m^2", "W", "m^3", "J", "m", "Pa", "m/s", "J", "kg"]
        pairs = [line for i in range(50_000) for line in (f"{i + 1} {names[i % 10]}", to[i % 10])]
        ours = measure("50,000 pairs over GNU's definitions", [program, "-q", "-f", definitions], pairs)
        theirs = measure("  GNU units", [gnu, "-q", "-f", definitions], pairs)
        print(f"  the part of GNU's time: {ours[0] / theirs[0]:.3f}, {ours[1] / theirs[1]:.3f}")
    long = file_of("long.units", chain(60_000))
    rounds = [line for k in range(1, 30_001) for line in (f":define w {k} u_0", "u_60000", "u_0")]
    stats = "settled 60001 of 60002, reductions 60001\n"
    measure("a chain of 60,000 names, 30,000 rounds", [program, "-q", "-f", long], [*rounds, ":stats"], stats)
    short = file_of("short.units", chain(20_000))
    queries = ["u_20000", "u_0", ":stats", ":define u_1 2 u_0", ":stats", "u_20000", "u_0", ":stats"]
    measure("a chain of 20,000 names, edited", [program, "-q", "-f", short], queries, "reductions 40001\n")
    ring = file_of("ring.units", ["u_0 u_20000", *chain(20_000)[1:]])
    queries = ["u_0", ":define u_0 !", "u_20000", "u_0"]
    measure("a ring of 20,000 names, broken", [program, "-q", "-f", ring], queries, "/ 1\n")
    measure("1,000,000 blank lines", [program, "-q", "-f", short], [""] * 1_000_000)
    measure("a trial of 20,000", [program, "--trial", "20000"], [])
PYTHON
