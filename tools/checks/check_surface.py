#!/usr/bin/env python3
"""Compares the public types and calls that the specification names, tests/surface.tsv, with the sources.

    tools/checks/check_surface.py

A row has the crate, the kind, the path, the signature, and, if our item differs from the specification, words of the
sentence in docs/DECISIONS.md that says so. Each item has to be public in its crate, with that kind and signature. An
enum has the variants of the table and no others, a struct those public fields, a trait those calls. The last line is
`N passed, M failed`.
"""

from __future__ import annotations

import csv
import sys
from pathlib import Path
from typing import NamedTuple

sys.path.insert(0, str(Path(__file__).resolve().parent))
from public_items import ROOT, Crates, Item  # noqa: E402

SECTION = "## Public calls that differ from the specification\n"


class Row(NamedTuple):
    """A row of the table."""

    crate: str
    kind: str
    path: str
    signature: str
    decision: str


def read_table(file: Path) -> list[Row]:
    with open(file, newline="") as lines:
        head, *rows = csv.reader(lines, delimiter="\t", quoting=csv.QUOTE_NONE)
    if tuple(head) != Row._fields or not rows:
        raise ValueError(f"{file.name} does not begin with {' '.join(Row._fields)}, or has no rows")
    return [Row(*(row + [""])[: len(head)]) for row in rows]


def decisions(file: Path) -> str:
    """The section on calls that differ, with one blank between words."""
    _, _, text = file.read_text().partition(SECTION)
    return " ".join(text.partition("\n## ")[0].split())


def fault_of(row: Row, item: Item | None, parts: set[str], sentences: str) -> str:
    """How a row differs from the sources or from DECISIONS, or an empty text."""
    if row.decision and row.decision not in sentences:
        return f"docs/DECISIONS.md does not say: {row.decision}"
    if item is None:
        return "is missing, or is not public"
    if item.kind != row.kind:
        return f"is a {item.kind} in the sources, and a {row.kind} in the table"
    if item.signature != row.signature:
        return f"is {item.signature} in the sources, and {row.signature} in the table"
    extra = sorted(set(item.parts) - parts)
    return f"has {', '.join(extra)}, which the table does not have" if extra else ""


def main() -> int:
    rows = read_table(ROOT / "tests/surface.tsv")
    sentences = decisions(ROOT / "docs/DECISIONS.md")
    crates, failed = Crates(ROOT), 0
    parts: dict[tuple[str, str], set[str]] = {}
    for row in rows:
        owner, _, name = row.path.rpartition("::")
        parts.setdefault((row.crate, owner), set()).add(name)
    for row in rows:
        item = crates.public_item(row.crate, row.path)
        fault = fault_of(row, item, parts.get((row.crate, row.path), set()), sentences)
        if fault:
            print(f"{row.crate}: {row.path} {fault}")
            failed += 1
    print(f"{len(rows) - failed} passed, {failed} failed")
    return 1 if failed else 0


if __name__ == "__main__":
    sys.exit(main())
