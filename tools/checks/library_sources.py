"""Checks that the documents which the definitions name are those of docs/SOURCES.md."""

from __future__ import annotations

import re
from pathlib import Path

from unit_files import Definition

TABLE = Path(__file__).resolve().parents[2] / "docs/SOURCES.md"
# What is left of a source without its keys, and looks like another document: a law, or letters and then a number.
DOCUMENT = re.compile(
    r"\b([A-Z]{2,}[-A-Z/.]*( [A-Z])? ?[0-9]|Act|Directive|Handbook|Regulations|law of|decree of|ukase of)"
)


def keys_of_documents() -> list[str]:
    """The first field of each row, the longest first, so that `ISO 1144` is not read as `ISO 1`."""
    rows = TABLE.read_text(encoding="utf-8").splitlines()
    keys = [row.split("|")[1].strip() for row in rows if row.startswith("| ")][1:]
    return sorted(keys, key=len, reverse=True)


def split_source(source: str, keys: list[str]) -> tuple[list[str], str]:
    """The keys in a source, and the text without them."""
    found = []
    for key in keys:
        source, count = re.subn(rf"(?<!\w){re.escape(key)}(?!\w)", " ", source)
        found += [key] * (count > 0)
    return found, source


def check_sources(definitions: list[Definition], results) -> None:
    """Each definition names a document of the table and none that is missing there; each row is used once."""
    keys = keys_of_documents()
    used: set[str] = set()
    for source in sorted({(definition.status or "").partition(":")[2].strip() for definition in definitions}):
        found, rest = split_source(source, keys)
        used.update(found)
        results.check(f"source {source}", found, "no document of docs/SOURCES.md, and neither common use nor trade use")
        other = DOCUMENT.search(rest)
        results.check(f"source {source}", not other, f"docs/SOURCES.md has no {other[0] if other else ''}")
    for key in keys:
        results.check(f"source {key}", key in used, "no definition names this document of docs/SOURCES.md")
    results.check("source keys", len(keys) == len(set(keys)), "docs/SOURCES.md has a key twice")
