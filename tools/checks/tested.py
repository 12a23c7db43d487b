#!/usr/bin/env python3
"""Writes docs/TESTED.md, the tables of tests, from the records in docs/tested.tsv.

    tools/checks/tested.py                                 checks that the page is up to date
    tools/checks/tested.py --write                         writes the page
    tools/checks/tested.py --record CHECK COUNT RESULT     records today's run of a check by hand, and writes the page

A record has tabs between its fields: when (gate or hand), check, command, date, count, result. The last line is
`N passed, M failed`.
"""

from __future__ import annotations

import csv
import datetime
import sys
from dataclasses import astuple, dataclass, fields, replace
from pathlib import Path

ROOT = Path(__file__).resolve().parents[2]
RECORDS = ROOT / "docs/tested.tsv"
PAGE = ROOT / "docs/TESTED.md"
HEAD = """# What is tested

Written by `tools/checks/tested.py` from `docs/tested.tsv`; do not edit. [PROVED.md](PROVED.md) has what is proved. Expected values come from rules worked out by hand, printed tables or another program, never from the program itself. Blank means no difference.

## By `bin/check` and `bin/test`

The commands are in `tools/checks`. A check whose Debian package is not installed is skipped and named.

| check | command | cases | result |
|---|---|---|---|
"""
BY_HAND = """
## By hand

The comparisons are in `tools/comparisons`.

| check | command | last run | cases | result |
|---|---|---|---|---|
"""


@dataclass(frozen=True)
class Record:
    """A check: when it runs, its name, its command, the date of its last run, its number of cases, its result."""

    when: str
    check: str
    command: str
    date: str
    count: str
    result: str


def read_records() -> list[Record]:
    with open(RECORDS, newline="") as file:
        rows = list(csv.reader(file, delimiter="\t", quoting=csv.QUOTE_NONE))
    return [Record(*row) for row in rows[1:]]


def write_records(records: list[Record]) -> None:
    rows = [[field.name for field in fields(Record)], *(astuple(record) for record in records)]
    RECORDS.write_text("".join("\t".join(row) + "\n" for row in rows))


def row(*cells: str) -> str:
    return "| " + " | ".join(cell.replace("|", "\\|") for cell in cells) + " |\n"


def page(records: list[Record]) -> str:
    gate = [row(it.check, f"`{it.command}`", it.count, it.result) for it in records if it.when == "gate"]
    hand = [row(it.check, f"`{it.command}`", it.date, it.count, it.result) for it in records if it.when == "hand"]
    return HEAD + "".join(gate) + BY_HAND + "".join(hand)


def record(check: str, count: str, result: str) -> int:
    records = read_records()
    if not any(it.check == check and it.when == "hand" for it in records):
        print(f"tested: docs/tested.tsv has no check by hand with the name {check}", file=sys.stderr)
        return 1
    today = datetime.date.today().isoformat()
    new_records = [replace(it, date=today, count=count, result=result) if it.check == check else it for it in records]
    write_records(new_records)
    PAGE.write_text(page(new_records))
    return 0


def main() -> int:
    words = sys.argv[1:]
    if words[:1] == ["--record"] and len(words) == 4:
        return record(*words[1:])
    if words == ["--write"]:
        PAGE.write_text(page(read_records()))
        return 0
    if words:
        print(__doc__.strip(), file=sys.stderr)
        return 2
    is_current = PAGE.exists() and PAGE.read_text() == page(read_records())
    if not is_current:
        print("tested: docs/TESTED.md is stale: tools/checks/tested.py --write")
    print("1 passed, 0 failed" if is_current else "0 passed, 1 failed")
    return 0 if is_current else 1


if __name__ == "__main__":
    sys.exit(main())
