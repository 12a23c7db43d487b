#!/usr/bin/env bash
# Times the program of crates/test_calls, which splits a definition file into lines, parses each definition and list,
# and counts those that are refused. The inputs are 16 MiB of several kinds of lines, the definitions of GNU units, if
# installed, and single lines of 1 and 2 MiB. Prints the seconds by the clock and by the processor, the lower of two
# runs, the peak memory, and the last line of the report.
set -u
root=$(cd "$(dirname "${BASH_SOURCE[0]}")/.." && pwd)
program=$("$root/tools/built.sh" test_calls) || exit
exec python3 - "$program" <<'PYTHON'
import os
import subprocess
import sys
import tempfile
import time

MEBI = 1 << 20
REAL = "/usr/share/units/definitions.units"


def filled(front, pattern, size, back=""):
    """The pattern repeated between a front and a back, with this size in all."""
    room = size - len(front) - len(back)
    return (front + (pattern * (room // len(pattern) + 1))[:room] + back).encode()


def timed(name, file):
    best, busy, memory = float("inf"), float("inf"), 0
    with tempfile.TemporaryFile() as given, tempfile.TemporaryFile() as report:
        given.write(file)
        for _ in range(2):
            given.seek(0)
            report.seek(0)
            report.truncate()
            start = time.perf_counter()
            run = subprocess.Popen([sys.argv[1], "entries"], stdin=given, stdout=report)
            _, status, usage = os.wait4(run.pid, 0)
            best = min(best, time.perf_counter() - start)
            busy = min(busy, usage.ru_utime + usage.ru_stime)
            memory = max(memory, usage.ru_maxrss >> 10)
            if status != 0:
                sys.exit(f"{name}: status {status}")
        report.seek(max(0, report.seek(0, os.SEEK_END) - 60))
        last = report.read().decode().splitlines()[-1]
    print(f"{name:44} {best:7.3f} s  {busy:7.3f} s of the processor  {memory:5} MiB of memory, {last}")


def points(size):
    """A table of 1,000 points, with blanks before each, of this size."""
    room = (size - 8) // 1000
    return ("t[m]" + "".join(f"{f'{i} {i}':>{room}}" for i in range(1000))).encode()


for name, pattern in [
    ("empty lines", "\n"),
    ("lines of one byte, unknown directives", "!\n"),
    ("lines of one byte, refused definitions", "a\n"),
    ("lines `m !`", "m !\n"),
    ("one line of continuations, empty", "\\\n"),
    ("one line of continuations, a definition", "a\\\n"),
    ("comments of one byte", "#\n"),
    ("comments of 64 bytes", "#" + " comment" * 7 + "......\n"),
    ("one comment", "#"),
]:
    timed(f"16 MiB, {name}", filled("", pattern, 16 * MEBI))
if os.path.exists(REAL):
    with open(REAL, "rb") as real:
        timed("the definitions of GNU units", real.read())
for size in [MEBI, 2 * MEBI]:
    for name, line in [
        ("table of 1,000 points and blanks", points(size)),
        ("table of too many points", filled("t[m]", " 1 2", size)),
        ("list", filled("!unitlist z m", ";m", size, " m")),
        ("list of one part, with many factors", filled("!unitlist z m", " m", size)),
        ("list of empty parts", filled("!unitlist z ", ";", size)),
        ("name, which is too long", filled("", "a", size, " !")),
        ("body", filled("a ", "m ", size)),
        ("function", filled("f(x) ", "x ", size)),
    ]:
        timed(f"{size // MEBI} MiB, {name}", line)
PYTHON
