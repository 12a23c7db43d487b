#!/usr/bin/env python3
"""Asks the questions in the tables of docs/WHY.md again, this program and the other converters that are installed.

    tools/checks/check_why_page.py

A row is run if its table begins with the column `From, to`. Its first cell has both in backquotes, and each further
cell the lines that the program at the head of its column prints, each in backquotes; `...` means anything more. A
program of another version than the page names, or none, is skipped by name. Blanks at both ends of a line are not
compared.

The last line is `N passed, M failed, K skipped`.
"""

from __future__ import annotations

import os
import re
import subprocess
import sys
import tempfile
from collections.abc import Callable
from dataclasses import dataclass
from pathlib import Path

sys.path.insert(0, str(Path(__file__).resolve().parent))
from check_gnu_page import ROOT, spans_in  # noqa: E402

PAGE = ROOT / "docs/WHY.md"
SECONDS = 900  # limit for a run, which only stops one that hangs
PINT = """
import sys, pint
units = pint.UnitRegistry()
for start, end in zip(sys.argv[1::2], sys.argv[2::2]):
    try:
        print(units(start).to(end))
    except Exception as fault:
        print(type(fault).__name__)
"""
PINT_VERSION = ["/usr/bin/python3", "-c", "import pint; print(pint.__version__)"]


@dataclass(frozen=True)
class Question:
    """A cell of a table: its line, what is converted to what, and the lines that the program of the column prints."""

    number: int
    start: str
    end: str
    expected: list[str]


def output_of(command: list[str]) -> str:
    """What a command prints on both streams, or nothing if it does not exist."""
    with tempfile.TemporaryDirectory() as home:
        environment = {**os.environ, "HOME": home, "XDG_CONFIG_HOME": home, "LC_ALL": "C.UTF-8"}
        try:
            process = subprocess.run(
                command,
                stdin=subprocess.DEVNULL,
                stdout=subprocess.PIPE,
                stderr=subprocess.STDOUT,
                timeout=SECONDS,
                check=False,
                env=environment,
            )
        except FileNotFoundError:
            return ""
    return process.stdout.decode(errors="replace")


def pint_answers(questions: list[Question]) -> list[str]:
    """The lines that pint prints, in one run, since it takes long to start."""
    words = [word for question in questions for word in (question.start, question.end)]
    return output_of(["/usr/bin/python3", "-c", PINT, *words]).splitlines()


def answers(command: Callable[[str, str], list[str]]) -> Callable[[list[Question]], list[str]]:
    """What a command prints for each question."""
    return lambda questions: [output_of(command(question.start, question.end)) for question in questions]


# For the first word of a column's head: the command that prints the version, and the answers of the program.
PROGRAMS: dict[str, tuple[list[str], Callable[[list[Question]], list[str]]]] = {
    "qunits": ([], answers(lambda start, end: [f"{ROOT}/bin/qunits", "--one-line", "--", start, "to", end])),
    "GNU": (["/usr/bin/units", "--version"], answers(lambda start, end: ["/usr/bin/units", "-1", "--", start, end])),
    "pint": (PINT_VERSION, pint_answers),
    "qalc": (["qalc", "--version"], answers(lambda start, end: ["qalc", "-t", "--", f"{start} to {end}"])),
}


def is_installed(head: str) -> bool:
    """Whether the program at the head of a column is there, in the version that the head names."""
    name, version = head.strip("`").split()[0], head.split()[-1]
    command = PROGRAMS[name][0]
    return not command or re.search(rf"\b{re.escape(version)}\b", output_of(command)) is not None


def agrees(expected: list[str], output: str) -> bool:
    """Whether the lines of a cell, joined, are those of the output."""
    lines = " ".join(line.strip() for line in output.splitlines() if line.strip())
    pattern = ".*".join(re.escape(part) for part in " ".join(expected).split("..."))
    return re.fullmatch(pattern.replace(r"\ .*", ".*"), lines) is not None


def questions_in(page: str) -> dict[str, list[Question]]:
    """The questions of all tables, by the heads of their columns."""
    heads: list[str] = []
    questions: dict[str, list[Question]] = {}
    for number, text in enumerate(page.splitlines(), 1):
        cells = [cell.strip() for cell in text.split("|")[1:-1]]
        if cells[:1] == ["From, to"] or not cells:
            heads = cells[1:]
        elif heads and not set(cells[0]) <= set("-"):
            for head, cell in zip(heads, cells[1:]):
                questions.setdefault(head, []).append(Question(number, *spans_in(cells[0]), spans_in(cell)))
    return questions


def main() -> int:
    passed = failed = skipped = 0
    for head, questions in questions_in(PAGE.read_text(encoding="utf-8")).items():
        if not is_installed(head):
            print(f"check_why_page: {len(questions)} questions are skipped: {head} is not installed")
            skipped += len(questions)
            continue
        outputs = PROGRAMS[head.strip("`").split()[0]][1](questions)
        for question, output in zip(questions, outputs + [""] * (len(questions) - len(outputs))):
            if agrees(question.expected, output):
                passed += 1
                continue
            failed += 1
            print(f"{PAGE.name}:{question.number}: {head}: {question.expected}, the program: {output!r}")
    if not passed and not skipped:
        failed += 1
    print(f"{passed} passed, {failed} failed, {skipped} skipped")
    return 1 if failed else 0


if __name__ == "__main__":
    sys.exit(main())
