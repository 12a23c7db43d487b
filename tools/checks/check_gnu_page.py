#!/usr/bin/env python3
"""Runs each row of the tables of docs/COMING_FROM_GNU.md with this program and with GNU units.

    tools/checks/check_gnu_page.py [PAGE]

A row is run if its table begins with the column `Question`. Its first cell has the words after `units` in backquotes,
or `session:` and the lines of a session, each in backquotes. The second cell has the lines that this program writes,
and the third those of GNU units, each in backquotes; `...` means all further lines. Blanks at both ends of a line and
the stream of a line are not compared. This program reads a copy of GNU's definitions made by tools/import_gnu.sh.

The last line is `N passed, M failed, K skipped`. All rows are skipped if Debian's package units is not installed.
"""

import os
import re
import shlex
import shutil
import subprocess
import sys
import tempfile
from dataclasses import dataclass
from pathlib import Path

ROOT = Path(__file__).resolve().parents[2]
PAGE = ROOT / "docs/COMING_FROM_GNU.md"
GNU = "/usr/bin/units"
DEFINITIONS = Path("/usr/share/units/definitions.units")
REST = "..."
SECONDS = 900  # limit for a run, which only stops one that hangs


@dataclass
class Row:
    line: int
    is_session: bool
    question: list[str]
    ours: list[str]
    gnus: list[str]


def spans_in(cell: str) -> list[str]:
    """The texts in backquotes, with the bars that a table has to escape."""
    return [span.replace("\\|", "|") for span in re.findall(r"`([^`]*)`", cell)]


def rows_of(page: Path) -> list[Row]:
    rows = []
    is_question = False
    for number, text in enumerate(page.read_text(encoding="utf-8").splitlines(), 1):
        cells = [cell.strip() for cell in re.split(r"(?<!\\)\|", text)[1:-1]]
        if not cells:
            is_question = False
        elif cells[0] == "Question":
            is_question = True
        elif is_question and not set(cells[0]) <= set("-"):
            spans = [spans_in(cell) for cell in cells]
            rows.append(Row(number, cells[0].startswith("session:"), *spans[:3]))
    return rows


def lines_of(program: list[str], row: Row) -> list[str]:
    """The lines that a program writes on both streams, without empty lines and without blanks at their ends."""
    if row.is_session:
        words, text = ["-q"], "".join(line + "\n" for line in row.question)
    else:
        words, text = shlex.split(row.question[0]), ""
    process = subprocess.run(
        [*program, *words],
        input=text.encode(),
        stdout=subprocess.PIPE,
        stderr=subprocess.STDOUT,
        timeout=SECONDS,
        check=False,
        env={**os.environ, "LC_ALL": "C"},
    )
    output = process.stdout.decode(errors="replace").splitlines()
    return [line.strip() for line in output if line.strip()]


def agrees(expected: list[str], lines: list[str]) -> bool:
    if expected[-1:] == [REST]:
        return lines[: len(expected) - 1] == expected[:-1]
    return lines == expected


def main() -> int:
    page = Path(sys.argv[1]) if len(sys.argv) > 1 else PAGE
    rows = rows_of(page)
    if not rows:
        print(f"{page}: there is no row to run")
        print("0 passed, 1 failed, 0 skipped")
        return 1
    if not shutil.which(GNU) or not DEFINITIONS.exists():
        print("check_gnu_page: skipped: Debian's package units is not installed")
        print(f"0 passed, 0 failed, {2 * len(rows)} skipped")
        return 0
    passed = failed = 0
    with tempfile.TemporaryDirectory() as folder:
        copy = f"{folder}/gnu.units"
        subprocess.run([ROOT / "tools/import_gnu.sh", DEFINITIONS, copy], stdout=subprocess.DEVNULL, check=True)
        programs = {"here": [str(ROOT / "bin/units"), "-f", copy], "GNU units": [GNU]}
        for row in rows:
            for (name, program), expected in zip(programs.items(), (row.ours, row.gnus)):
                lines = lines_of(program, row)
                if agrees(expected, lines):
                    passed += 1
                    continue
                failed += 1
                print(f"{page.name}:{row.line}: {name}: {row.question}\n  page:    {expected}\n  program: {lines[:6]}")
    print(f"{passed} passed, {failed} failed, 0 skipped")
    return 1 if failed else 0


if __name__ == "__main__":
    sys.exit(main())
