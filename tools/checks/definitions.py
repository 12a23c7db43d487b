#!/usr/bin/env python3
"""Checks and writes the pages on definitions, docs/DEFINITIONS.md and docs/INDEX.md, from the specs/ of the crates.

    tools/checks/definitions.py            checks both pages
    tools/checks/definitions.py --write    writes docs/INDEX.md
    tools/checks/definitions.py --reached  prints each file that the headline reaches and no page or mark covers

docs/DEFINITIONS.md introduces the definitions that a reader of the headline meets. A row names definitions in its
first column and their files, as `crate/File File..`, in its third. docs/definition_marks.txt marks the other files that the
headline reaches: `library FILE` for general vocabulary, `engine FILE REASON` for computations whose result a law
describes. The headline is what the contracts of `units_main` and `run_on` cite. In a crate, each name has one
definition: a reader who meets it finds the right one by searching the crate. The last line is `N passed, M failed`.
"""

from __future__ import annotations

import re
import sys
from dataclasses import dataclass
from pathlib import Path

sys.path.insert(0, str(Path(__file__).resolve().parent))
from spec_index import CRATES, ROOT, Name, all_definitions, home_of, imports_of, reached_from, read_file  # noqa: E402

PAGE = ROOT / "docs/DEFINITIONS.md"
INDEX = ROOT / "docs/INDEX.md"
MARKS = ROOT / "docs/definition_marks.txt"
# The files of the top calls. The headline is what their contracts cite.
TOP_CALLS = ("units_run/src/run.rt", "units/src/main.rt")
# Names with two definitions that wait until their crate is changed for another reason: a new name changes proofs.
TWICE = {"def_entry/heading_of", "value_sources/unknown_mention"}
QUOTED = re.compile(r"`([^`]+)`")
# A word of a reason that can only be the name of a definition.
CITED = re.compile(r"\b(\w+_\w+|\w+Laws?)\b")
MOST_BYTES = 10 * 1024
INTRODUCTION = """# Index of definitions

Written by `tools/checks/definitions.py --write`; do not edit. Each row is a file `crates/CRATE/specs/FILE.antt`. A *headline* file is introduced in [DEFINITIONS.md](DEFINITIONS.md). A *library* file has general vocabulary. An *engine* file has computations and the vocabulary of proofs: what it computes is said by a law, or the headline does not reach it.
"""


@dataclass(frozen=True)
class Row:
    """A row of the page: the definitions that it names, and their files."""

    names: tuple[str, ...]
    files: tuple[str, ...]


def files_in(cell: str) -> tuple[str, ...]:
    """The files of a cell; `crate/One Other` names two files of a crate."""
    parts = [text.split("/", 1) for text in QUOTED.findall(cell) if "/" in text]
    return tuple(f"{crate}/{subject}" for crate, subjects in parts for subject in subjects.split())


def rows_of_page() -> list[Row]:
    rows = []
    for line in PAGE.read_text().splitlines() if PAGE.exists() else []:
        cells = [cell.strip() for cell in re.split(r"(?<!\\)\|", line)]
        if line.startswith("| `") and len(cells) >= 5:
            rows.append(Row(tuple(QUOTED.findall(cells[1])), files_in(cells[3])))
    return rows


def marks() -> dict[str, str]:
    """The mark of each file in the list of marks."""
    lines = MARKS.read_text().splitlines() if MARKS.exists() else []
    words = [line.split() for line in lines if line.strip() and not line.startswith("#")]
    return {file: mark for mark, file, *_ in words}


def words_in(file: str) -> set[str]:
    crate, subject = file.split("/")
    definitions = read_file(crate, subject).definitions
    return set(definitions) | {word for it in definitions.values() for word in it.constructors}


def check_page(rows: list[Row]) -> list[str]:
    """Faults of the page: names that the files of their row do not define, and too many bytes."""
    faults = []
    for row in rows:
        words = {word for file in row.files for word in words_in(file)}
        unknown = [name for name in row.names if name not in words]
        faults += [f"DEFINITIONS.md: {name} is not defined in {', '.join(row.files)}" for name in unknown]
    if not rows:
        faults.append("DEFINITIONS.md has no row")
    elif PAGE.stat().st_size > MOST_BYTES:
        faults.append(f"DEFINITIONS.md has {PAGE.stat().st_size} bytes, more than {MOST_BYTES}")
    return faults


def headline() -> list[Name]:
    """The definitions that the files of the top calls import for their contracts."""
    cited: list[Name] = []
    for path in TOP_CALLS:
        text = (CRATES / path).read_text().replace("ghost use", "use")
        names, modules = imports_of(text)
        words = [(alias, word) for alias, word in re.findall(r"\b(\w+)\.(\w+)", text) if alias in modules]
        cited += [*names.values(), *(Name(*modules[alias], word) for alias, word in words)]
    return sorted({home for name in cited if (home := home_of(name))})


def files_without_mark(rows: list[Row]) -> list[str]:
    """The files that the headline reaches and no page or mark covers, each with the definitions reached."""
    known_files = {file for row in rows for file in row.files} | set(marks())
    open_files: dict[str, list[str]] = {}
    for name in reached_from(headline()):
        if name.file not in known_files:
            open_files.setdefault(name.file, []).append(name.word)
    return [f"{file}: {' '.join(sorted(words))}" for file, words in sorted(open_files.items())]


def check_marks(rows: list[Row]) -> list[str]:
    """Faults of the marks: unknown kinds or files, files that the page has too, engine files without a reason, and
    reasons that name no definition."""
    page, defined = {file for row in rows for file in row.files}, {name.word for name in all_definitions()}
    faults = []
    for line in MARKS.read_text().splitlines() if MARKS.exists() else []:
        mark, file, *reason = line.split() if line.strip() and not line.startswith("#") else ("library", "", "")
        if not file:
            continue
        if mark not in ("library", "engine") or not words_in(file):
            faults.append(f"definition_marks.txt: {line}: no such mark or file")
        elif file in page:
            faults.append(f"definition_marks.txt: {file} is on the page too")
        elif mark == "engine" and not reason:
            faults.append(f"definition_marks.txt: {file} has no reason: name the law that describes its result")
        unknown = [word for word in CITED.findall(" ".join(reason)) if word not in defined]
        faults += [f"definition_marks.txt: {file}: {word} is not defined" for word in unknown]
    return faults

def names_defined_twice() -> list[str]:
    """The names that two files of a crate define, but for TWICE, and the names of TWICE that have one definition."""
    files: dict[str, list[str]] = {}
    for name in all_definitions():
        files.setdefault(f"{name.crate}/{name.word}", []).append(name.subject)
    twice = {name: subjects for name, subjects in files.items() if len(set(subjects)) > 1}
    faults = [f"{name} is defined in {' and '.join(twice[name])}" for name in sorted(twice.keys() - TWICE)]
    return faults + [f"{name} has one definition: remove it from TWICE" for name in sorted(TWICE - twice.keys())]


def index(rows: list[Row]) -> str:
    """The text of the index: a table for each crate."""
    page, mark_of = {file for row in rows for file in row.files}, marks()
    words: dict[str, list[str]] = {}
    for name in all_definitions():
        words.setdefault(name.file, []).append(f"`{name.word}`")
    parts, crate = [INTRODUCTION], ""
    for file, names in words.items():
        if not file.startswith(crate + "/") or not crate:
            crate = file.split("/")[0]
            parts.append(f"\n## {crate}\n\n| file | mark | about | definitions |\n|---|---|---|---|\n")
        mark = "headline" if file in page else mark_of.get(file, "engine")
        heading = read_file(*file.split("/")).heading.replace("|", "\\|")
        parts.append(f"| {file.split('/')[1]} | {mark} | {heading} | {' '.join(names).replace('|', chr(92) + '|')} |\n")
    return "".join(parts)


def main() -> int:
    rows = rows_of_page()
    if sys.argv[1:] == ["--write"]:
        INDEX.write_text(index(rows))
        return 0
    if sys.argv[1:] == ["--reached"]:
        print("\n".join(files_without_mark(rows)))
        return 0
    if sys.argv[1:]:
        print(__doc__.strip(), file=sys.stderr)
        return 2
    stale = [] if INDEX.exists() and INDEX.read_text() == index(rows) else ["INDEX.md is stale: tools/checks/definitions.py --write"]
    open_files = [f"no page or mark covers {line}" for line in files_without_mark(rows)]
    results = [check_page(rows), check_marks(rows), open_files, stale, names_defined_twice()]
    for fault in (fault for faults in results for fault in faults):
        print(f"definitions: {fault}")
    failed = sum(1 for faults in results if faults)
    print(f"{len(results) - failed} passed, {failed} failed")
    return 1 if failed else 0


if __name__ == "__main__":
    sys.exit(main())
