#!/usr/bin/env python3
"""Converts random columns with units_convert_column from C and with the program's --column. The rows have to be the
same, byte for byte, and so does the status, which says whether a cell is an error.

    tools/comparisons/compare_c_columns.py [--numbers N] [--seed S] [--definitions FILE] [--units FOLDER]

N is the number of cells, 20,000 by default; some are not numbers. FILE has no includes; it is Debian's definition file
of GNU units by default, or examples/first.units if that is not installed. FOLDER is the output of tools/c_library.sh,
which runs if there is none. The last line is `N passed, M failed`, which counts columns.
"""

from __future__ import annotations

import argparse
import random
import subprocess
import sys
import tempfile
from pathlib import Path
from typing import List, NamedTuple, Tuple

ROOT = Path(__file__).resolve().parents[2]
GNU = Path("/usr/share/units/definitions.units")
RECORDS = 500

# Linear pairs, functions, a list, and pairs that are refused in all cells or in some.
PAIRS = [
    ("ft", "m"),
    ("mile/hour", "m/s"),
    ("m", "ft;inch"),
    ("tempF", "tempC"),
    ("tempC", "K"),
    ("K", "tempF"),
    ("1|3 inch", "mm"),
    ("-7 kg m", "N s^2"),
    ("m", "s"),
    ("nosuchunit", "m"),
    ("m", "2 +"),
    ("1e38 m", "1e-3 m"),
    ("1/s", "s"),
]
FAULTS = ["", "-", "+5", "1|3", "5 ft", "1,234", "0x10", "NaN", "1e99", "9" * 1100, '"', "é", "\0", "- 1", "--1"]


class Column(NamedTuple):
    """A text of records, the units of a conversion, and its options."""

    text: bytes
    source: str
    target: str
    number: int
    has_header: bool
    digits: int
    is_exact: bool
    is_rounded: bool

    def options(self) -> List[str]:
        """Return the options of the program."""
        words = ["--column", str(self.number), "--digits", str(self.digits)]
        words += ["--header"] * self.has_header + ["--exact"] * self.is_exact + ["--round"] * self.is_rounded
        return words

    def words(self) -> List[str]:
        """Return the arguments of tests/c/column.c."""
        flags = [self.digits, int(self.is_exact), int(self.is_rounded), int(self.has_header), self.number]
        return [*map(str, flags), self.source, self.target]


def random_number(rng: random.Random) -> str:
    """Return a random number in one of the forms that a column may have."""
    kind = rng.random()
    if kind < 0.3:
        return repr(rng.uniform(-1e6, 1e6))
    if kind < 0.5:
        return str(rng.randrange(-1000, 1000))
    if kind < 0.7:
        return f"{rng.randrange(10**9)}e{rng.randrange(-20, 20)}"
    if kind < 0.9:
        return f"{'-' * rng.randrange(2)}{rng.randrange(1000)}.{rng.randrange(10**6):06}"
    return f" .{rng.randrange(10**rng.randrange(1, 30))}\t"


def quote(rng: random.Random, field: str) -> str:
    """Return a field of a record, sometimes with needless quotes."""
    if any(byte in field for byte in ',"\r\n') or rng.random() < 0.05:
        return '"' + field.replace('"', '""') + '"'
    return field


def random_column(rng: random.Random, number: int) -> Column:
    """Return a column with `number` cells, which are numbers or faults."""
    source, target = rng.choice(PAIRS)
    place = rng.choice([1, 1, 1, 2, 3])
    share_of_faults = rng.choice([0, 0.05])
    records = []
    for _ in range(number):
        cell = rng.choice(FAULTS) if rng.random() < share_of_faults else random_number(rng)
        fields = [rng.choice(["", "a", "b,c", "12"]) for _ in range(rng.randrange(1, 5))]
        if place == 1 and rng.random() < 0.7:
            fields = [cell]
        elif len(fields) >= place:
            fields[place - 1] = cell
        records.append(",".join(quote(rng, field) for field in fields))
    if records and rng.random() < 0.1:
        records[rng.randrange(len(records))] = 'a quote " here and one, "that is not closed'
    text = rng.choice(["", "\ufeff"]) + rng.choice(["\n", "\r\n"]).join(records) + rng.choice(["", "\n"])
    digits, *flags = rng.choice([8, 8, 1, 17, 36]), *(rng.random() < 0.3 for _ in range(3))
    return Column(text.encode(), source, target, place, flags[0], digits, flags[1], flags[2])


def rows_of(command: List[str], column: Column) -> Tuple[int, bytes]:
    """Return the status and the output of a command that reads the column."""
    process = subprocess.run(command, input=column.text, stdout=subprocess.PIPE, stderr=subprocess.DEVNULL, check=False)
    return process.returncode, process.stdout


def build(units: Path, folder: Path) -> Path:
    """Build the C program and return its path."""
    if not units.exists():
        subprocess.run([ROOT / "tools" / "c_library.sh", units], check=True)
    program = folder / "column"
    flags = ["-O1", f"-I{units / 'include'}", "-o", program, ROOT / "tests" / "c" / "column.c"]
    subprocess.run(["gcc", *flags, units / "lib" / "libunits.a"], check=True)
    return program


def main() -> int:
    parser = argparse.ArgumentParser(description=__doc__, formatter_class=argparse.RawDescriptionHelpFormatter)
    parser.add_argument("--numbers", type=int, default=20_000)
    parser.add_argument("--seed", type=int, default=1)
    parser.add_argument("--definitions", type=Path, default=GNU if GNU.exists() else ROOT / "examples" / "first.units")
    parser.add_argument("--units", type=Path)
    arguments = parser.parse_args()
    definitions = str(arguments.definitions)
    output = subprocess.run([ROOT / "tools" / "built.sh", "units"], stdout=subprocess.PIPE, text=True, check=True)
    rng = random.Random(arguments.seed)
    counts = [min(RECORDS, arguments.numbers - start) for start in range(0, arguments.numbers, RECORDS)]
    wrong = refused = 0
    with tempfile.TemporaryDirectory() as name:
        program = build(arguments.units or Path(name, "units"), Path(name))
        for count in counts:
            column = random_column(rng, count)
            by_c = rows_of([str(program), *column.words(), definitions], column)
            own = [output.stdout.strip(), "--file", definitions, *column.options(), "--", column.source, column.target]
            by_program = rows_of(own, column)
            refused += by_c[1].count(b"error: ")
            if by_c != by_program or by_c[0] > 1:
                wrong += 1
                print(f"{column.options()} {column.source!r} to {column.target!r}: {by_c[0]} and {by_program[0]}")
    print(f"{arguments.numbers} records over {definitions}, {refused} of their cells refused")
    print(f"{len(counts) - wrong} passed, {wrong} failed")
    return int(wrong > 0)


if __name__ == "__main__":
    sys.exit(main())
