#!/usr/bin/env python3
"""Tries the must-fail edits. Each changes the meaning of a function, and the prover has to refuse it.

    tools/checks/check_must_fail.py [--anew] [EDIT..]

EDIT is CRATE/NAME; without it, all edits of tests/must_fail are tried. An edit changes the body of one function. It is
applied to a copy of the crate, and the prover checks the function over the libraries that `rt ci` built. A start of the
prover costs more than most functions, so the edits of a crate are tried in one run: they change different functions, and
no proof depends on another function's body. An edit that is not refused as expected there is tried again alone.
tests/must_fail/refused_by.tsv has the edit, the function, and the part of the function that has to refuse the edit:

    ensures, or ensures CLAUSE      a clause on its result
    requires CALLEE [CLAUSE]        a clause that it has to meet when it calls CALLEE
    invariant                       the invariant of a struct
    loop LABEL                      an invariant or the measure of a loop

An edit that passed is not tried again until a file that it depends on changes: `~/.cache/units/must_fail` (or below
XDG_CACHE_HOME) has the checksums. With --anew it is tried in any case. `rt ci` tries edits too, if they are in a folder
of the crate, but it proves the whole crate once more for them. Without the toolchain or the libraries, edits are
skipped. A case is an edit; the last line is `N passed, M failed, K skipped`.
"""

from __future__ import annotations

import contextlib
import csv
import functools
import hashlib
import os
import shutil
import subprocess
import sys
import tempfile
from concurrent.futures import ThreadPoolExecutor
from dataclasses import dataclass
from pathlib import Path

sys.path.insert(0, str(Path(__file__).resolve().parent))
from built_libraries import PARTS, NotBuilt, check_command, crates_below, find_kit, read_libraries, sources_of  # noqa: E402
from refusals import Refusal, function_at, read_refusal, reports_in  # noqa: E402

ROOT = Path(__file__).resolve().parents[2]
EDITS = ROOT / "tests/must_fail"
SECONDS = 600
# The files of this check.
CODE = ("built_libraries.py", "check_must_fail.py", "refusals.py")
CACHE = Path(os.environ.get("XDG_CACHE_HOME") or Path.home() / ".cache", "units/must_fail")


class BadEdit(Exception):
    """An edit that does not fit the sources."""


@dataclass(frozen=True)
class Row:
    """A row of the table: an edit, the path of a function, and what has to refuse the edit."""

    edit: str
    function: str
    part: str

    @property
    def crate(self) -> str:
        return self.edit.partition("/")[0]

    @property
    def function_name(self) -> str:
        return self.function.rpartition("::")[2]

    @property
    def expected(self) -> Refusal:
        return Refusal(self.function_name, self.part)


@dataclass(frozen=True)
class Replacement:
    """An `old:` text of an edit, the `new:` text after it, and the file that has it, relative to the crate."""

    file: str
    old: str
    new: str


def read_rows() -> list[Row]:
    with open(EDITS / "refused_by.tsv", newline="") as file:
        return [Row(*words) for words in list(csv.reader(file, delimiter="\t", quoting=csv.QUOTE_NONE))[1:]]


def read_edit(edit: str) -> list[Replacement]:
    """The replacements of an edit, each in the last named file."""
    file, old, replacements = "", "", []
    for line in (EDITS / f"{edit}.edit").read_text().splitlines():
        word, _, text = line.partition(" ")
        if word == "file:":
            file = text
        elif word == "old:":
            old = text
        elif word == "new:":
            replacements.append(Replacement(file, old, text))
    return replacements


def apply_edit(edit: str, copy: Path) -> None:
    for it in read_edit(edit):
        source = (copy / it.file).read_text()
        if not it.old or source.count(it.old) != 1:
            raise BadEdit(f"{it.file} has {source.count(it.old)} times: {it.old.strip()}")
        (copy / it.file).write_text(source.replace(it.old, it.new))


def is_in_function(row: Row, replacement: Replacement) -> bool:
    """Whether a replacement changes the body of the function of its row, and nothing else."""
    path = ROOT / "crates" / row.crate / replacement.file
    if path.suffix != ".rt" or not path.exists():
        return False
    before, found, _ = path.read_text().partition(replacement.old)
    line = before.rpartition("\n")[2] + replacement.old
    is_indented = line.startswith(" ")
    return bool(found) and is_indented and function_at(row.crate, replacement.file, before.count("\n") + 1) == row.function_name


def changes_one_body(row: Row) -> bool:
    return all(is_in_function(row, it) for it in read_edit(row.edit))


def runs_of(rows: list[Row]) -> list[list[Row]]:
    """The rows to be tried together: those of one crate."""
    runs: dict[str, list[Row]] = {}
    for row in rows:
        runs.setdefault(row.crate, []).append(row)
    return list(runs.values())


@functools.lru_cache(maxsize=None)
def checksum_of_files(folder: Path, *paths: Path) -> str:
    """A checksum of the bytes of files and of their paths in a folder."""
    total = hashlib.sha256()
    for path in paths:
        data = path.read_bytes()
        total.update(f"{path.relative_to(folder)} {len(data)}\n".encode() + data)
    return total.hexdigest()


def checksum_of(row: Row, kit: Path, libraries: dict[str, list[str]]) -> str:
    """A checksum of all that the result of an edit depends on."""
    checks = ROOT / "tools/checks"
    parts = [checksum_of_files(kit, kit / "KIT-ID"), row.edit, row.function, row.part]
    parts.append(checksum_of_files(ROOT, *(checks / name for name in CODE), EDITS / f"{row.edit}.edit"))
    for crate in sorted({row.crate} | crates_below(row.crate, libraries)):
        parts += [crate, *libraries[crate], checksum_of_files(ROOT, *sources_of(crate))]
    return hashlib.sha256("\n".join(parts).encode()).hexdigest()


def words_of(rows: list[Row], kit: Path, libraries: dict[str, list[str]]) -> list[str]:
    """The command that checks the functions of rows of one crate."""
    words = check_command(rows[0].crate, kit, libraries)
    for row in rows:
        words += ["--only", row.function]
    return words


def output_of(rows: list[Row], words: list[str]) -> tuple[str, int]:
    """Applies the edits of rows to a copy of their crate. Returns the output of the prover over it, and its status."""
    with tempfile.TemporaryDirectory() as folder:
        for part in PARTS:
            shutil.copytree(ROOT / "crates" / rows[0].crate / part, Path(folder, part))
        for row in rows:
            apply_edit(row.edit, Path(folder))
        process = subprocess.run(
            words, cwd=folder, stdin=subprocess.DEVNULL, stdout=subprocess.PIPE, stderr=subprocess.STDOUT,
            timeout=SECONDS * len(rows), check=False,
        )
    return process.stdout.decode(errors="replace"), process.returncode


def fault_of(row: Row, kit: Path, libraries: dict[str, list[str]]) -> str | None:
    """Tries an edit alone. Returns why it fails the check, or None."""
    words = words_of([row], kit, libraries)
    try:
        output, status = output_of([row], words)
    except (BadEdit, OSError) as fault:
        return f"bad edit: {fault}"
    except subprocess.TimeoutExpired:
        return f"no answer in {SECONDS} seconds"
    if status == 0:
        return "not refused"
    report = next(iter(reports_in(output)), None)
    refusal = read_refusal(row.crate, report) if report else None
    if status != 1 or refusal is None:
        return f"status {status}: {report or output[-200:]}"
    return None if refusal == row.expected else f"refused by {refusal}, not by {row.expected}"


def refused_together(rows: list[Row], kit: Path, libraries: dict[str, list[str]]) -> list[Row]:
    """Tries edits in one run. Returns those that are refused as expected: by the first report on their function."""
    words = words_of(rows, kit, libraries)
    try:
        output, status = output_of(rows, words)
    except (BadEdit, OSError, subprocess.TimeoutExpired):
        return []
    first: dict[str, Refusal] = {}
    for report in reports_in(output) if status == 1 else []:
        if refusal := read_refusal(rows[0].crate, report):
            first.setdefault(refusal.owner, refusal)
    return [row for row in rows if first.get(row.function_name) == row.expected]


def faults_of_table(rows: list[Row]) -> dict[str, str]:
    """The edits that only the table or only the folder has, and those that share a run but cannot."""
    edits = {f"{path.parent.name}/{path.stem}" for path in EDITS.glob("*/*.edit")}
    named = {row.edit for row in rows}
    faults = {edit: "tests/must_fail/refused_by.tsv does not have it" for edit in edits - named}
    faults |= {edit: "there is no such edit" for edit in named - edits}
    functions: set[tuple[str, str]] = set()
    for row in rows:
        if row.edit in edits and not changes_one_body(row):
            faults[row.edit] = f"it changes more than the body of {row.function}"
        elif (row.crate, row.function_name) in functions:
            faults[row.edit] = f"another edit changes {row.function}"
        functions.add((row.crate, row.function_name))
    return faults


def record_pass(file: Path, edit: str) -> None:
    """Records that an edit passed. If the cache cannot be written, the edit is tried again by the next run."""
    with contextlib.suppress(OSError):
        CACHE.mkdir(parents=True, exist_ok=True)
        file.write_text(f"{edit}\n")


def try_all(rows: list[Row], kit: Path, anew: bool) -> tuple[dict[str, str], dict[str, str]]:
    """Tries edits side by side, but not those that passed before. Returns why edits fail, and why edits are skipped."""
    libraries, faults, skips = read_libraries(), {}, {}
    caches = {row: CACHE / checksum_of(row, kit, libraries) for row in rows}

    def try_run(run: list[Row]) -> None:
        try:
            refused = refused_together(run, kit, libraries) if len(run) > 1 else []
            for row in run:
                if row not in refused and (fault := fault_of(row, kit, libraries)):
                    faults[row.edit] = fault
                else:
                    record_pass(caches[row], row.edit)
        except NotBuilt as reason:
            skips.update({row.edit: str(reason) for row in run})

    with ThreadPoolExecutor(os.cpu_count()) as pool:
        list(pool.map(try_run, runs_of([row for row in rows if anew or not caches[row].exists()])))
    return faults, skips


def main(names: list[str]) -> int:
    if names[:1] == ["--help"]:
        print(__doc__.strip())
        return 0
    anew = names[:1] == ["--anew"]
    names = names[anew:]
    table = read_rows()
    faults = {name: "there is no such edit" for name in names if name not in {row.edit for row in table}}
    faults |= faults_of_table(table)
    rows = [row for row in table if row.edit not in faults and (not names or row.edit in names)]
    toolchain = find_kit()
    if toolchain:
        found, skips = try_all(rows, toolchain, anew)
        faults |= found
    else:
        skips = {row.edit: "there is no command rt" for row in rows}
    for edit, reason in sorted(skips.items()):
        print(f"skipped: {edit}, since {reason}")
    for edit, fault in sorted(faults.items()):
        print(f"{edit}: {fault}")
    passed = sum(row.edit not in faults and row.edit not in skips for row in rows)
    print(f"{passed} passed, {len(faults)} failed, {len(skips)} skipped")
    return 1 if faults else 0


if __name__ == "__main__":
    sys.exit(main(sys.argv[1:]))
