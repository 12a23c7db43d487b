#!/usr/bin/env bash
# Compares conversions with GNU units in one run: over GNU's own definitions, over the library of share/units (GNU units
# over its own definitions), over the example, the check of GNU's definitions, and one query of the last of a chain of
# 60,000 names. Prints the milliseconds of a run by the processor and by the clock, each the lowest of some rounds, and
# their ratio to GNU's.
#   bench/conversions.sh [GNU [DEFINITIONS]]
# GNU is the command of GNU units and DEFINITIONS its file; by default the command `units` and Debian's file.
set -u
root=$(cd "$(dirname "${BASH_SOURCE[0]}")/.." && pwd)
program=$("$root/tools/built.sh" units) || exit
gnu=$(command -v "${1:-units}") || { echo 'no GNU units; on Debian: apt-get install units'; exit 1; }
definitions=$(realpath -- "${2:-/usr/share/units/definitions.units}") || exit
exec python3 - "$root" "$program" "$gnu" "$definitions" <<'PYTHON'
import resource
import subprocess
import sys
import tempfile
import time

root, program, gnu, definitions = sys.argv[1:]
QUIET = {"stdin": subprocess.DEVNULL, "stdout": subprocess.DEVNULL, "stderr": subprocess.DEVNULL}


def busy():
    usage = resource.getrusage(resource.RUSAGE_CHILDREN)
    return usage.ru_utime + usage.ru_stime


def run_times(command, runs):
    """The lowest milliseconds of a run, by the processor and by the clock."""
    rounds = []
    for _ in range(7):
        start, busy_before = time.perf_counter(), busy()
        for _ in range(runs):
            subprocess.run(command, check=False, **QUIET)
        rounds.append((busy() - busy_before, time.perf_counter() - start))
    return [min(times) / runs * 1e3 for times in zip(*rounds)]


def compare(title, runs, *words, of_gnu=None):
    """Prints the times of both programs with these words, or of GNU units with words of its own."""
    ours, theirs = run_times([program, *words], runs), run_times([gnu, *(of_gnu or words)], runs)
    for name, times in (("", ours), ("  GNU units", theirs)):
        print(f"{name or title:44} {times[0]:9.2f} ms of the processor {times[1]:9.2f} ms passed", flush=True)
    print(f"  the part of GNU's time{'':21} {ours[0] / theirs[0]:9.3f}{'':21} {ours[1] / theirs[1]:9.3f}", flush=True)


def chain(count):
    return ["u_0 !", *(f"u_{i} {'2' if i % 2 else '0.5'} u_{i - 1}" for i in range(1, count + 1))]


with tempfile.NamedTemporaryFile("w", suffix=".units") as file:
    file.write("".join(line + "\n" for line in chain(60_000)))
    file.flush()
    compare("a conversion over GNU's definitions", 20, "-f", definitions, "10 meters", "feet")
    library = f"{root}/share/units/standard.units"
    own = ["-f", definitions, "10 meters", "feet"]
    compare("a conversion over the library", 20, "-f", library, "10 meters", "feet", of_gnu=own)
    compare("a conversion over the example", 50, "-f", f"{root}/examples/first.units", "yd", "m")
    compare("the check of GNU's definitions", 5, "--check", "-f", definitions)
    compare("one query on a chain of 60,000 names", 1, "-f", file.name, "u_60000", "u_0")
PYTHON
