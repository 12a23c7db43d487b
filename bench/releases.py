#!/usr/bin/env python3
"""Compares the static program with that of an earlier release.

    bench/releases.sh [COMMIT]

COMMIT has the earlier release; by default it is the last release of an earlier day. Both programs run each row in
turns, so that a slower machine does not look like a slower program. A row has the milliseconds of the processor of
both, the lowest of 21 turns, and their ratio. If valgrind is installed, it has the ratio of the instructions too, which does
not depend on the machine.
"""

from __future__ import annotations

import os
import re
import shutil
import subprocess
import sys
import tempfile
from collections.abc import Iterable
from dataclasses import dataclass
from pathlib import Path

ROOT = Path(__file__).resolve().parent.parent
RELEASE = "release/units-x86_64-linux-static"
GNU = Path("/usr/share/units/definitions.units")
TURNS = 21


@dataclass(frozen=True)
class Row:
    """What is compared: the words of a run, and its lines of input."""

    name: str
    words: tuple[str, ...]
    lines: tuple[str, ...] = ()


def text(lines: Iterable[str]) -> str:
    return "".join(line + "\n" for line in lines)


def rows(folder: Path) -> list[Row]:
    chain, deck, gnu = folder / "chain.units", folder / "deck.units", ("-f", str(GNU))
    chain.write_text(text(["u_0 !", *(f"u_{i} u_{i - 1}" for i in range(1, 60_001))]))
    deck.write_text(text(["m !", *(f"v_{i}a {i} m" for i in range(8000))]))
    pairs = tuple(line for i in range(20_000) for line in (f"{i + 1} mile", "m"))
    edits = tuple(line for i in range(1, 10_001) for line in (f":define w {i} u_0", "u_60000", "u_0"))
    cells = tuple(f"{i},{i % 997 / 4}" for i in range(100_000))
    drops = tuple(f":drop v_{i}a" for i in range(8000))
    return [
        Row("a conversion over GNU's definitions", (*gnu, "10 meters", "feet")),
        Row("a conversion over the library", ("-f", str(ROOT / "share/units/standard.units"), "10 meters", "feet")),
        Row("a conversion over the example", ("-f", str(ROOT / "examples/first.units"), "yd", "m")),
        Row("the check of GNU's definitions", ("--check", *gnu)),
        Row("20,000 pairs over GNU's definitions", ("-q", *gnu), pairs),
        Row("a chain of 60,000 names, 10,000 edits", ("-q", "-f", str(chain)), edits),
        Row("100,000 rows of a column", ("--column", "2", "feet", "m"), cells),
        Row("8,000 drops over a deck of 8,000 lines", ("-q", "-f", str(deck)), drops),
    ]


def seconds(program: Path, row: Row, source: Path) -> float:
    with open(source, "rb") as lines, open(os.devnull, "wb") as sink:
        process = subprocess.Popen([program, *row.words], stdin=lines, stdout=sink, stderr=sink, env={})
        _, _, usage = os.wait4(process.pid, 0)
    process.returncode = 0
    return usage.ru_utime + usage.ru_stime


def instructions(program: Path, row: Row, source: Path) -> int:
    command = ["valgrind", "--tool=cachegrind", "--cache-sim=no", "--cachegrind-out-file=/dev/null"]
    with open(source, "rb") as lines:
        run = subprocess.run([*command, program, *row.words], stdin=lines, capture_output=True, check=False)
    return int(re.search(rb"I +refs: +([\d,]+)", run.stderr)[1].replace(b",", b""))


def compare(row: Row, programs: list[Path], folder: Path) -> str:
    source = folder / "input"
    source.write_text(text(row.lines))
    turns = [[seconds(program, row, source) for program in programs] for _ in range(TURNS)]
    before, now = (min(times) * 1e3 for times in zip(*turns))
    counts = [instructions(program, row, source) for program in programs] if shutil.which("valgrind") else []
    ratio = f"{counts[1] / counts[0]:.3f}" if counts else "-"
    return f"{row.name:40}  {before:.2f} ms  {now:.2f} ms  {now / before:.2f}  {ratio}"


def git(*words: str) -> bytes:
    return subprocess.run(["git", *words], cwd=ROOT, stdout=subprocess.PIPE, check=True).stdout


def earlier_release() -> str:
    """The last commit of a release before the day of the last one."""
    commits = [line.split() for line in git("log", "--format=%h %cs", "--", RELEASE).decode().splitlines()]
    earlier = (commit for commit, day in commits if day != commits[0][1])
    return next(earlier, "") or sys.exit("releases.py: the history has no release of an earlier day; name a commit")


def main(words: list[str]) -> int:
    commit = words[0] if words else earlier_release()
    built = subprocess.run([ROOT / "tools/built.sh", "--static", "units"], stdout=subprocess.PIPE, check=True).stdout.decode()
    with tempfile.TemporaryDirectory() as name:
        folder = Path(name)
        earlier = folder / "units"
        earlier.write_bytes(git("show", f"{commit}:{RELEASE}"))
        earlier.chmod(0o755)
        day = git("log", "-1", "--format=%cs", commit).decode().strip()
        print(f"row  release of {day} ({commit})  this program  ratio  ratio of instructions", flush=True)
        for row in rows(folder):
            if str(GNU) not in row.words or GNU.exists():
                print(compare(row, [earlier, Path(built.strip())], folder), flush=True)
    return 0


if __name__ == "__main__":
    sys.exit(main(sys.argv[1:]))
