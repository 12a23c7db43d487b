#!/usr/bin/env python3
"""Measures how time and memory of the program grow with its input.

    bench/scaling.sh [--program PROGRAM] [--static PROGRAM] [ROW..]

Each row is run at three sizes in turns, seven times each. A line for each size has the size, the least processor time
and the least peak memory; then a line has the exponents between the larger two: 1 is linear, 2 quadratic. The cost of
the smallest input is subtracted, so that the start of the program does not hide the growth. A row with an easier input
has the ratio of the times, which may be at most 2, and a row with a bound on its memory has both. The static program,
which users run, may take at most 1.25 times the memory of the measured one for the largest size. If GNU units is
installed and has the operation, its time for the largest size follows. A row ends in `ok` or `over`, according to its
bounds. If the time of a row grows faster than its bound and valgrind is installed, the exponent of the instructions
follows: time also grows when data leaves a cache, and with what else the machine does. The last row counts the
instructions of a small conversion by the static program, which users run, and beside them those of the measured
program. By default all rows are run, which takes three minutes.
"""

from __future__ import annotations

import argparse
import math
import os
import re
import resource
import shutil
import subprocess
import sys
import tempfile
from collections.abc import Callable, Sequence
from dataclasses import dataclass
from pathlib import Path

from scaling_rows import ROWS, Row, Run

ROOT = Path(__file__).resolve().parent.parent
MOST_TIMES = 2
MOST_OF_DYNAMIC = 1.25
REPEATS = 7
MOST_INSTRUCTIONS = 450_000
START = "start of a conversion"
GNU_UNITS = "/usr/bin/units"
MOST_GNU_SECONDS = 30


@dataclass(frozen=True)
class Cost:
    """Processor seconds and peak bytes."""

    seconds: float
    bytes: int


def words_of(run: Run, folder: Path) -> list[str]:
    """Writes the files of a run, and returns its words."""
    words = list(run.words)
    if run.definitions is not None:
        (folder / "definitions.units").write_text(run.definitions)
        words[:0] = ["-f", str(folder / "definitions.units")]
    (folder / "input").write_text(run.input)
    return words


def instructions_of(program: str, run: Run, folder: Path) -> int:
    """The number of instructions of a run, counted by valgrind."""
    words = words_of(run, folder)
    log = folder / "instructions"
    command = [shutil.which("valgrind"), "--tool=cachegrind", "--cache-sim=no", "--cachegrind-out-file=/dev/null"]
    with open(folder / "input", "rb") as source, open(os.devnull, "wb") as sink:
        subprocess.run(
            [*command, f"--log-file={log}", program, *words],
            stdin=source, stdout=sink, stderr=sink, env=run.variables, check=False,
        )
    return int(re.search(r"I +refs: +([\d,]+)", log.read_text())[1].replace(",", ""))


def exponent_of_instructions(program: str, row: Row, folder: Path) -> float:
    """The exponent of a row by its instructions. Those of the smallest input are subtracted."""
    base, *counts = (instructions_of(program, row.make(size), folder) for size in (row.base, *row.sizes[1:]))
    return exponent(counts[0] - base, counts[1] - base, growth_of(row))


def least(costs: list[Cost]) -> Cost:
    """The least of some costs, since other programs can only add to them."""
    return Cost(min(cost.seconds for cost in costs), min(cost.bytes for cost in costs))


def costs_of(program: str, make: Callable[[int], Run], sizes: Sequence[int], folder: Path) -> list[Cost]:
    """The least cost of each size. The sizes take turns, since the processor may be slower for a while."""
    turns = [[cost_of_run(program, make(size), folder) for size in sizes] for _ in range(REPEATS)]
    return [least(list(costs)) for costs in zip(*turns)]


def cost_of_run(program: str, run: Run, folder: Path) -> Cost:
    """The cost of a run. GNU time starts the program: the peak memory of a process counts from its fork, so a child of
    this interpreter would have the peak of the interpreter."""
    words = words_of(run, folder)
    peak = folder / "peak"
    with open(folder / "input", "rb") as source, open(os.devnull, "wb") as sink:
        command = ["/usr/bin/time", "--quiet", "--format=%M", f"--output={peak}", program, *words]
        process = subprocess.Popen(command, stdin=source, stdout=sink, stderr=sink, env=run.variables)
        _, _, usage = os.wait4(process.pid, 0)
    process.returncode = 0
    return Cost(usage.ru_utime + usage.ru_stime, int(peak.read_text().split()[-1]) * 1024)


def growth_of(row: Row) -> float:
    """How many times the larger of two sizes is the smaller, both less the subtracted size."""
    _, smaller, larger = row.sizes
    base = row.base if row.start is None else 0
    return (larger - base) / (smaller - base)


def exponent(smaller: float, larger: float, growth: float) -> float:
    """The exponent of growth between two costs."""
    return math.log(larger / smaller) / math.log(growth) if smaller > 0 and larger > 0 else 0.0


def times_of_easier(program: str, row: Row, seconds: float, folder: Path) -> float:
    """How many times as long the largest size takes as its easier input, whose start is subtracted."""
    size = row.sizes[2]
    [easier] = costs_of(program, row.easier, [size], folder)
    [start] = costs_of(program, row.easier_start or row.make, [size if row.easier_start else row.base], folder)
    return seconds / max(easier.seconds - start.seconds, 0.001)


def time_of_gnu(row: Row, folder: Path) -> str:
    """The time of GNU units for the largest size, if it has the operation and is installed."""
    if not row.in_gnu or not os.path.exists(GNU_UNITS):
        return ""
    run = row.make(row.sizes[2])
    words, begin = words_of(run, folder), resource.getrusage(resource.RUSAGE_CHILDREN)
    with open(os.devnull, "r+b") as null:
        command = ["timeout", str(MOST_GNU_SECONDS), GNU_UNITS, *words]
        status = subprocess.run(command, stdin=null, stdout=null, stderr=null, env=run.variables, check=False).returncode
    if status == 124:
        return f", GNU units over {MOST_GNU_SECONDS} s"
    end = resource.getrusage(resource.RUSAGE_CHILDREN)
    return f", GNU units {end.ru_utime + end.ru_stime - begin.ru_utime - begin.ru_stime:.3f} s"


def static_memory(static: str, row: Row, dynamic: Cost, folder: Path) -> float:
    """How many times the memory of the dynamic program the static one takes for the largest size."""
    return costs_of(static, row.make, row.sizes[2:], folder)[0].bytes / dynamic.bytes


def measure(program: str, static: str, row: Row, folder: Path) -> bool:
    """Prints the lines of a row, and returns whether it is within its bounds."""
    program = static if row.is_static else program
    if row.start is None:
        bases = costs_of(program, row.make, [row.base], folder) * len(row.sizes)
    else:
        bases = costs_of(program, row.start, row.sizes, folder)
    costs = costs_of(program, row.make, row.sizes, folder)
    seconds = [max(cost.seconds - base.seconds, 0.001) for cost, base in zip(costs, bases)]
    bytes_beyond = [max(cost.bytes - base.bytes, 100_000) for cost, base in zip(costs, bases)]
    time = exponent(*seconds[1:], growth_of(row))
    memory = exponent(*bytes_beyond[1:], growth_of(row))
    # A few milliseconds or megabytes show no exponent.
    is_quick = time <= row.time or costs[2].seconds < 0.03
    is_within = is_quick and (memory <= row.memory or bytes_beyond[2] < 4e6)
    comparison = ""
    if not is_quick and row.start is None and shutil.which("valgrind"):
        comparison = f", instructions {exponent_of_instructions(program, row, folder):.2f}"
    if row.easier is not None:
        times = times_of_easier(program, row, seconds[2], folder)
        is_within = is_within and times <= MOST_TIMES
        comparison += f", {times:.1f} times the easier input"
    if row.most_bytes is not None:
        most = row.most_bytes(row.sizes[2])
        is_within = is_within and bytes_beyond[2] <= most
        comparison += f", {bytes_beyond[2] / 1e6:.1f} of at most {most / 1e6:.1f} MB"
    print(f"{row.name}:")
    for size, cost in zip(row.sizes, costs):
        print(f"  {size:>8,}  {cost.seconds:8.3f} s  {cost.bytes / 1e6:8.1f} MB")
    if not row.is_static:
        times = static_memory(static, row, costs[2], folder)
        is_within = is_within and times <= MOST_OF_DYNAMIC
        comparison += f", static program {times:.2f} times the memory"
    comparison += time_of_gnu(row, folder)
    verdict = "ok" if is_within else "over"
    print(f"  exponents: time {time:.2f}, memory {memory:.2f}{comparison}: {verdict}", flush=True)
    return is_within


def measure_start(program: str, static: str, folder: Path) -> bool:
    """Prints the instructions of a conversion over the built-in definitions in an environment of usual size. The bound
    is for the static program, which users run: the loader of a dynamic one takes a third of it."""
    variables = {f"VARIABLE_{i}": "a value of usual length" for i in range(35)}
    run = Run(("10 m", "ft"), variables=variables)
    count, other = (instructions_of(name, run, folder) for name in (static, program))
    is_within = count <= MOST_INSTRUCTIONS
    verdict = "ok" if is_within else "over"
    counts = f"{count:,} instructions, at most {MOST_INSTRUCTIONS:,}; {other:,} by the measured program"
    print(f"{START}:\n  {counts}: {verdict}", flush=True)
    return is_within


def built_program(*options: str) -> str:
    process = subprocess.run([ROOT / "tools/built.sh", *options, "units"], stdout=subprocess.PIPE, check=True)
    return process.stdout.decode().strip()


def main() -> int:
    parser = argparse.ArgumentParser(description=__doc__, formatter_class=argparse.RawDescriptionHelpFormatter)
    parser.add_argument("rows", nargs="*", metavar="ROW", help="a part of the name of a row; without it, all rows")
    parser.add_argument("--program", help="the program to measure, instead of the built one")
    parser.add_argument("--static", help="the static program to compare, instead of the built one")
    arguments = parser.parse_args()
    program, static = arguments.program or built_program(), arguments.static or built_program("--static")
    resource.setrlimit(resource.RLIMIT_STACK, (8 << 20, resource.RLIM_INFINITY))

    def is_asked_for(name: str) -> bool:
        return not arguments.rows or any(part in name for part in arguments.rows)

    with tempfile.TemporaryDirectory() as folder:
        results = [measure(program, static, row, Path(folder)) for row in ROWS if is_asked_for(row.name)]
        if is_asked_for(START) and shutil.which("valgrind"):
            results.append(measure_start(program, static, Path(folder)))
    print(f"{sum(results)} of {len(results)} rows are within their bounds")
    return 0 if all(results) else 1


if __name__ == "__main__":
    sys.exit(main())
