"""Checks the library of definitions in share/units; tools/checks/check_library.sh describes the checks.

    check_library.py [--program UNITS] [--library FOLDER]
"""

from __future__ import annotations

import argparse
import os
import re
import subprocess
import sys
import tempfile
from collections import Counter
from contextlib import contextmanager
from dataclasses import dataclass, field
from pathlib import Path

sys.path[:0] = [str(Path(__file__).resolve().parents[1] / name) for name in (".", "lint")]
import built  # noqa: E402
import library_queries  # noqa: E402
import transcripts  # noqa: E402
from library_export import check_export  # noqa: E402
from library_functions import check_functions  # noqa: E402
from library_mutations import check_mutations  # noqa: E402
from library_relations import check_relations  # noqa: E402
from library_sources import check_sources  # noqa: E402
from library_values import (  # noqa: E402
    check_comparisons, check_gnu_spellings, check_lists, check_readings, check_spellings, check_statuses,
    printed_comparisons,
)  # fmt: skip
from lint_units import notices_of  # noqa: E402
from unit_answers import ROOT, NoAnswers, Session  # noqa: E402
from unit_files import Kind, Opening, Setting, read_deck  # noqa: E402
from write_constants import constants_text  # noqa: E402

LOCALES = ("en_US", "en_GB", "de_DE")
LINTED_LOCALES = ("en_US", "en_GB")
FEWEST = 1400
LINTER = ROOT / "tools/lint/lint_units.py"
TRAPS = ROOT / "tests/library/traps.units"


@dataclass
class Results:
    """How many checks passed, by subject, and how many failed; each failure is printed at once."""

    passed: Counter = field(default_factory=Counter)
    failed: int = 0

    def check(self, name, is_right, detail=""):
        """Counts a check under the first word of its name."""
        if is_right:
            self.passed[name.split(" ")[0].rstrip(":")] += 1
        else:
            self.failed += 1
            print(f"{name}: {detail}")


def variables_of(deck):
    """The variables of a deck, each with the values that the deck names and with odd ones."""
    values = {}
    for line in deck.lines:
        if isinstance(line, Setting):
            values.setdefault(line.variable, []).append(line.value)
        elif isinstance(line, Opening) and line.block.variable:
            values.setdefault(line.block.variable, []).extend(line.block.values)
    return {variable: [*dict.fromkeys(known), "", "odd", known[0].lower()] for variable, known in values.items()}


def check_reports(session, deck, results):
    """The program's own check finds nothing in the library, in each locale and with odd variables."""
    settings = [(locale, ()) for locale in LOCALES]
    for variable, values in variables_of(deck).items():
        settings += [(locale, ((variable, value),)) for value in values for locale in LOCALES[:2]]
    for locale, variables in settings:
        lines = Session(session.program, session.file, locale, variables).check()
        name = f"report {locale} {' '.join(f'{name}={value}' for name, value in variables)}"
        results.check(name, not lines, f"{len(lines)} lines, the first is: {''.join(lines[:1])}")


@contextmanager
def loadable(folder, file, standard):
    """The path of a file that loads a file of the folder: itself, or one that includes the library before it."""
    if len(read_deck(file).files) > 1 or file.name == "built_in.units":
        yield str(file)
        return
    with tempfile.NamedTemporaryFile("w", suffix=".units") as both:
        both.write(f"!include {folder / standard}\n!include {file}\n")
        both.flush()
        yield both.name


def check_files(program, folder, standard, results):
    """The files that the library does not include can be loaded with it, and the linter finds nothing in them."""
    loaded_files = set(standard.files)
    decks = {file: read_deck(file) for file in folder.glob("*.units")}
    for file in sorted(decks, key=lambda file: (-len(decks[file].files), file)):
        if str(file) in loaded_files:
            continue
        loaded_files.update(decks[file].files)
        with loadable(folder, file, "standard.units") as path:
            report = Session(program, path).check()
            results.check(f"file {file.name}", not report, f"{len(report)} lines, the first is: {''.join(report[:1])}")
            if file.name == "built_in.units":
                continue
            _, findings = lint(program, path, "en_US", "--statuses", "--dimensions")
            results.check(f"file {file.name}: no finding", not findings, f"{len(findings)}: {''.join(findings[:1])}")


def lint(program, file, locale, *options):
    """The status and the lines of the linter, which runs in the folder of the planted traps."""
    process = subprocess.run(
        [sys.executable, LINTER, "--program", program, "--locale", locale, *options, file],
        cwd=TRAPS.parent, stdout=subprocess.PIPE, stderr=subprocess.STDOUT, text=True, errors="replace", check=False,
    )  # fmt: skip
    return process.returncode, process.stdout.splitlines()


def check_linter(program, file, results):
    """The linter finds nothing in the library, and in the file of traps it finds each trap and nothing else."""
    for locale in LINTED_LOCALES:
        _, findings = lint(program, file, locale, "--statuses", "--dimensions")
        results.check(f"lint {locale}: no finding", not findings, f"{len(findings)} findings")
        for finding in findings:
            results.check("lint", False, finding)
    status, message = lint(program, "absent.units", "en_US")
    is_refused = status == 2 and len(message) == 1
    results.check("lint: status 2 and one line for an absent file", is_refused, f"status {status}")
    status, findings = lint(program, TRAPS.name, "en_US", "--statuses", "--dimensions")
    results.check("lint: status 1 on the planted traps", status == 1, f"status {status}")
    lines = [finding.removeprefix(f"{TRAPS.name}:") for finding in findings]
    expected = TRAPS.with_suffix(".findings").read_text(encoding="utf-8").splitlines()
    for finding in expected:
        results.check("lint: a planted trap", finding in lines, f"not found: {finding}")
    for finding in lines:
        results.check("lint: no false finding", finding in expected, finding)


def check_counts(deck, results):
    """Checks the number of definitions and that each has a status; prints counts by status, kind and file."""
    definitions = deck.definitions
    count = len(definitions)
    results.check("count of definitions", count >= FEWEST, f"{count}, fewer than {FEWEST}")
    statuses = Counter(re.split("[ :]", definition.status or "none")[0] for definition in definitions)
    for definition in definitions:
        results.check("status", bool(definition.status), f"{definition.place}: {definition.name} has none")
        is_sure = "?" not in definition.comment and "?" not in (definition.status or "")
        results.check("certainty", is_sure, f"{definition.place}: {definition.name} has a question mark")
    kinds = Counter(definition.kind.value for definition in definitions)
    files = Counter(Path(definition.place.file).stem for definition in definitions)
    for title, counts in (("status", statuses), ("kind", kinds), ("file", files)):
        print(f"definitions by {title}: " + ", ".join(f"{name} {number}" for name, number in counts.most_common()))
    print(f"definitions: {count}")


def check_dimensions(deck, results):
    """Each unit and prefix has a comment with its dimensions; the linter compares these with its value."""
    for definition in deck.definitions:
        if definition.kind in (Kind.FUNCTION, Kind.LIST):
            continue
        results.check("dimension", bool(definition.unit), f"{definition.place}: {definition.name} has no #: UNIT")


def covering_characters(names):
    """Characters such that each name has at least one of them."""
    remaining, characters = set(names), []
    while remaining:
        counts = Counter(character for name in remaining for character in set(name))
        characters.append(counts.most_common(1)[0][0])
        remaining = {name for name in remaining if characters[-1] not in name}
    return characters


def check_reader(program, file, results):
    """The reader of the linter finds the same keys and texts as the program."""
    for locale in LOCALES:
        session, deck = Session(program, str(file), locale), read_deck(file)
        without_effect = {place for place, _ in notices_of(session, deck.files)}
        active = [line for line in deck.active(locale, os.environ) if line.place not in without_effect]
        ours = {definition.key: definition.text for definition in active}
        theirs = session.search(covering_characters(definition.name for definition in active))
        different = [key for key in ours.keys() | theirs.keys() if ours.get(key) != theirs.get(key)]
        results.check(f"reader {file.name} {locale}", not different, f"{len(different)} keys, such as {different[:3]}")


def check_written_files(folder, results):
    file = folder / "built_in.units"
    is_equal = file.exists() and file.read_bytes() == transcripts.built_in()
    results.check("built_in.units", is_equal, "differs from the built-in text of the program")
    is_equal = (folder / "constants.units").read_text(encoding="utf-8") == constants_text()
    results.check("constants.units", is_equal, "differs from its table: run tools/write_constants.py")


def check_values(program, file, results):
    """The values agree with the tables in tests/library, and would not if a numeral were another."""
    session, comparisons = Session(program, str(file)), printed_comparisons()
    check_comparisons(session, comparisons, results)
    definitions = read_deck(file).active(session.locale, {})
    check_mutations(session, definitions, comparisons, results)
    check_sources(read_deck(file).definitions + read_deck(file.with_name("currencies.units")).definitions, results)
    check_export(session, definitions, results)
    check_gnu_spellings([definition for definition in definitions if definition.kind is Kind.UNIT], results)


def check_all(program, folder, results):
    file = folder / "standard.units"
    deck, session = read_deck(file), Session(program, str(file))
    check_counts(deck, results)
    check_dimensions(deck, results)
    check_written_files(folder, results)
    check_reports(session, deck, results)
    check_files(program, folder, deck, results)
    check_linter(program, str(file), results)
    check_reader(program, file, results)
    check_reader(program, TRAPS, results)
    check_values(program, folder / "all.units", results)
    check_relations(session, results)
    active = deck.active(session.locale, {})
    units = [definition.name for definition in active if definition.kind is Kind.UNIT]
    check_spellings(session, units, results)
    check_statuses(session, active, results)
    check_readings(session, active, results)
    check_functions(session, active, results)
    is_current = library_queries.TRANSCRIPT.read_text(encoding="utf-8") == library_queries.transcript()
    results.check("tests/library.t", is_current, "differs from its source: run tools/checks/library_queries.py")
    check_lists(session, [definition for definition in active if definition.kind is Kind.LIST], results)


def main():
    parser = argparse.ArgumentParser(description=__doc__.partition("\n")[0])
    parser.add_argument("--program", help="the program units; otherwise the one of the repository")
    parser.add_argument("--library", default=ROOT / "share/units", type=Path, help="the folder of the library")
    options, results = parser.parse_args(), Results()
    options.library = options.library.resolve()
    try:
        check_all(options.program or built.program("units"), options.library, results)
    except (OSError, NoAnswers) as fault:
        results.check("library", False, str(fault))
    print("passed by subject: " + ", ".join(f"{name} {count}" for name, count in sorted(results.passed.items())))
    print(f"{sum(results.passed.values())} passed, {results.failed} failed, 0 skipped")
    sys.exit(1 if results.failed else 0)


if __name__ == "__main__":
    main()
