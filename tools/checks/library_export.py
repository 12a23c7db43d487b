"""Checks what tools/export_library.py writes: its schema, its values, and that CSV and JSON say the same."""

from __future__ import annotations

import csv
import io
import json
import re
import subprocess
import sys
from fractions import Fraction
from pathlib import Path

from unit_answers import Session, Value
from unit_files import Definition

TOOLS = Path(__file__).resolve().parents[1]
EXPORT, SCHEMA = TOOLS / "export_library.py", TOOLS / "export_library.schema.json"
TYPES = {"string": str, "integer": int, "null": type(None)}
CLOSEST = Fraction(1, 10**16)  # of a decimal of 17 digits
CODES = TOOLS / "unit_codes.tsv"
TERM = re.compile(r"(?P<slash>/?)\.?(?P<text>\d+(?:\.\d+)?(?:e-?\d+)?|\[\w+\]|[A-Za-z_%']+)(?P<power>-?\d*)")


def export(session: Session, form: str, output: int | io.IOBase = subprocess.PIPE) -> subprocess.CompletedProcess[str]:
    command = [sys.executable, EXPORT, "--format", form, "--program", session.program, session.file]
    pipe = subprocess.PIPE
    return subprocess.run(command, stdin=subprocess.DEVNULL, stdout=output, stderr=pipe, text=True, check=False)


def field_fault(field: str | int | None, schema: dict) -> str:
    """Why a field is not one of the schema."""
    if "enum" in schema:
        return "" if field in schema["enum"] else f"{field} is none of {schema['enum']}"
    types = schema["type"] if isinstance(schema["type"], list) else [schema["type"]]
    if not isinstance(field, tuple(TYPES[name] for name in types)):
        return f"{field} is not of the type {types}"
    is_right = not isinstance(field, str) or re.search(schema.get("pattern", ""), field)
    return "" if is_right else f"{field} is not {schema['pattern']}"


def row_fault(row: dict, fields: dict) -> str:
    """Why a row is not one of the schema, or its decimal not its value."""
    if list(row) != list(fields):
        return f"its fields are {list(row)}"
    faults = [f"{key}: {fault}" for key in fields if (fault := field_fault(row[key], fields[key]))]
    if row["value"]:
        distance = abs(Fraction(row["decimal"]) - Fraction(row["value"]))
        if distance > CLOSEST * abs(Fraction(row["value"])):
            faults.append(f"{row['decimal']} is not {row['value']}")
    return "; ".join(faults)


def definition_of(ucum: str, names: dict[str, str]) -> str:
    """A definition of UCUM as an expression of the library, where names has a name for each code."""
    terms = []
    for term in TERM.finditer(ucum):
        text = term["text"] if term["text"][0].isdigit() else f"{names[term['text']]}^{term['power'] or 1}"
        terms.append(f"{'/' if term['slash'] else '*'} ({text})")
    return "1 " + " ".join(terms)


def check_codes(session: Session, rows: list[dict], results) -> None:
    """Each unit has the value of its definition in UCUM, and the export its codes."""
    table = [line.split("\t") for line in CODES.read_text(encoding="utf-8").splitlines() if not line.startswith("#")]
    names = {ucum: name for name, ucum, _, _ in table}
    defined = [(name, definition_of(ucum, names)) for name, _, ucum, _ in table if ucum != "-"]
    ours, theirs = (session.values(expressions) for expressions in zip(*defined))
    for (name, text), our, their in zip(defined, ours, theirs):
        results.check(f"code {name}", isinstance(our, Value) and our == their, f"{our}, but in UCUM {text}: {their}")
    exported = {row["name"]: (row["ucum"] or "-", row["uncefact"] or "-") for row in rows if row["kind"] == "unit"}
    for name, ucum, _, uncefact in table:
        results.check(f"code {name}: export", exported.get(name) == (ucum, uncefact), f"{exported.get(name)}")
    for column in (0, 1, 3):
        codes = [row[column] for row in table if row[column] != "-"]
        results.check("code", len(codes) == len(set(codes)), f"column {column} of {CODES.name} has one twice")


def check_export(session: Session, definitions: list[Definition], results) -> None:
    """Each definition is a row with the value that the program gives its name."""
    answer = export(session, "json")
    results.check("export as JSON", answer.returncode == 0, answer.stderr)
    rows = json.loads(answer.stdout or "[]")
    fields = json.loads(SCHEMA.read_text(encoding="utf-8"))["items"]["properties"]
    for row in rows:
        fault = row_fault(row, fields)
        results.check(f"export {row.get('name')}", not fault, fault)
    keys = {(definition.kind.value, definition.name) for definition in definitions}
    results.check("export of each definition", sorted((row["kind"], row["name"]) for row in rows) == sorted(keys))
    check_codes(session, rows, results)
    units = [row for row in rows if row["kind"] == "unit"]
    for row, value in zip(units, session.values(row["name"] for row in units)):
        expected = str(value.number) if isinstance(value, Value) else None
        results.check(f"export {row['name']}: value", row["value"] == expected, f"{row['value']}, not {expected}")
    table = list(csv.DictReader(io.StringIO(export(session, "csv").stdout)))
    texts = [{key: "" if field is None else str(field) for key, field in row.items()} for row in rows]
    results.check("export as CSV", table == texts, "differs from the JSON")
    with open("/dev/full", "wb") as full:
        refused = export(session, "json", full)
    results.check("export to a full disk", refused.returncode == 2 and refused.stderr.count("\n") == 1, refused.stderr)
    absent = export(Session(session.program, "absent.units"), "json")
    results.check("export of an absent file", absent.returncode == 2 and not absent.stdout, absent.stderr)
