#!/usr/bin/env python3
"""Writes the units, prefixes, functions and lists of a definition file as CSV or JSON, for use without the program.

    tools/export_library.py [--format csv|json] [--locale LOCALE] [--program UNITS] [FILE]

FILE is share/units/all.units if none is named. The output is on standard output; tools/export_library.schema.json
describes the JSON, and the columns of the CSV have the same names. The status is 2, with one line on standard error, if
the file cannot be read, the program does not answer, or the output cannot be written.

A value is an exact fraction in base units, with a decimal of 17 digits beside it. A function and a list have their text
only. Status, relative errors and source are those of the comment on the definition itself, not of what it uses.
"""

from __future__ import annotations

import argparse
import csv
import io
import json
import os
import re
import sys
from decimal import Context, Decimal
from pathlib import Path

sys.path.insert(0, str(Path(__file__).resolve().parent / "lint"))
from unit_answers import ROOT, Fault, NoAnswers, Session, Value, default_program  # noqa: E402
from unit_files import DeckFault, Definition, Kind, read_deck  # noqa: E402

COLUMNS = (
    "name", "kind", "value", "decimal", "dimensions", "unit", "definition", "status", "uncertainty", "rounding",
    "source", "file", "line", "ucum", "uncefact",
)  # fmt: skip
LIBRARY, CODES = ROOT / "share/units", ROOT / "tools/unit_codes.tsv"
DECIMAL = Context(prec=17)
ERRORS = {"uncertainty": re.compile(r"measured ([0-9.e-]+)"), "rounding": re.compile(r"rounded ([0-9.e-]+)")}


def active_definitions(file: Path, locale: str) -> list[Definition]:
    """The definitions in force for a locale, the last of each name, in the order of the file."""
    last = {definition.key: definition for definition in read_deck(file).active(locale, os.environ)}
    return sorted(last.values(), key=lambda definition: (definition.place.file, definition.place.number))


def values_of(session: Session, definitions: list[Definition]) -> dict[str, Value | Fault]:
    """The values of the units and prefixes by the keys of their definitions."""
    # A prefix may have the name of a unit, so its text is asked.
    questions = {line.key: line.name for line in definitions if line.kind is Kind.UNIT}
    questions |= {line.key: line.text for line in definitions if line.kind is Kind.PREFIX}
    return dict(zip(questions, session.values(questions.values())))


def standing_of(definition: Definition) -> dict[str, str | None]:
    """The status, the relative errors and the source in the comment on a definition, each None if it is not stated."""
    clauses, _, source = (definition.status or "").partition(":")
    errors = {name: pattern.search(clauses) for name, pattern in ERRORS.items()}
    standing = {name: error[1] if error else None for name, error in errors.items()}
    status = re.match(r"\w*", clauses.strip())[0]
    return standing | {"status": status or None, "source": source.strip() or None}


def read_codes() -> dict[str, dict[str, str | None]]:
    """The codes of UCUM and UN/CEFACT by the names of units in the library."""
    rows = [line.split("\t") for line in CODES.read_text(encoding="utf-8").splitlines() if not line.startswith("#")]
    codes = {name: {"ucum": ucum, "uncefact": uncefact} for name, ucum, _, uncefact in rows}
    return {name: {key: None if code == "-" else code for key, code in row.items()} for name, row in codes.items()}


def codes_of(definition: Definition, codes: dict[str, dict[str, str | None]]) -> dict[str, str | None]:
    """The codes of a definition of the library itself; another file may mean something else by the name."""
    is_own = definition.kind is Kind.UNIT and Path(definition.place.file).parent == LIBRARY
    return codes.get(definition.name, {}) if is_own else {}


def row_of(definition: Definition, value: Value | Fault | None, folder: Path) -> dict[str, str | int | None]:
    row = dict.fromkeys(COLUMNS) | standing_of(definition)
    row |= {"name": definition.name, "kind": definition.kind.value, "definition": definition.text}
    row |= {"file": os.path.relpath(definition.place.file, folder), "line": definition.place.number}
    row["unit"] = definition.unit
    if isinstance(value, Value):
        number = value.number
        decimal = DECIMAL.divide(Decimal(number.numerator), Decimal(number.denominator))
        row |= {"value": str(number), "decimal": str(decimal.normalize(DECIMAL)).lower()}
        row["dimensions"] = value.dimensions if value.powers else "1"
    return row


def csv_text(rows: list[dict]) -> str:
    text = io.StringIO()
    writer = csv.DictWriter(text, COLUMNS, lineterminator="\n")
    writer.writeheader()
    writer.writerows(rows)
    return text.getvalue()


def json_text(rows: list[dict]) -> str:
    return json.dumps(rows, ensure_ascii=False, indent=1) + "\n"


def exported(options: argparse.Namespace) -> str:
    """The text for the options. Raises OSError, DeckFault or NoAnswers if there is none."""
    definitions = active_definitions(options.file, options.locale)
    values = values_of(Session(options.program, str(options.file), options.locale), definitions)
    folder, codes = options.file.parent, read_codes()
    rows = [row_of(line, values.get(line.key), folder) | codes_of(line, codes) for line in definitions]
    return csv_text(rows) if options.format == "csv" else json_text(rows)


def main() -> int:
    parser = argparse.ArgumentParser(description=__doc__.partition("\n")[0])
    parser.add_argument("file", nargs="?", default=ROOT / "share/units/all.units", type=Path)
    parser.add_argument("--format", choices=("csv", "json"), default="json")
    parser.add_argument("--locale", default="en_US")
    parser.add_argument("--program", default=default_program())
    options = parser.parse_args()
    try:
        text = exported(options).encode(errors="backslashreplace")  # for bytes that are not UTF-8
        with open(sys.stdout.fileno(), "wb", closefd=False) as output:
            output.write(text)
    except (OSError, DeckFault, NoAnswers) as fault:
        print(f"export_library.py: {fault}", file=sys.stderr)
        return 2
    return 0


if __name__ == "__main__":
    sys.exit(main())
