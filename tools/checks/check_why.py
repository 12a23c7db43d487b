#!/usr/bin/env python3
"""Checks the trees of units-why for all units and prefixes of the standard library.

    tools/checks/check_why.py [--program UNITS_WHY] [--library FILE]

--library names another file, such as the definitions of GNU units. For each definition in force, the row is compared
with the files as Python reads them:

- its file and line are those of the definition;
- its value is the value of its text, computed with fractions from the values of the rows below it, or both have a
  fault; a definition that calls a function is skipped;
- the lines that it replaces are the other active definitions of its key.

Each object has to fit the schema share/units-why.schema.json, also for faults, findings and calls of functions.

All of that is skipped if there is no program. On a terminal, units-why and units-lint escape what a terminal would obey,
and to a pipe they write it as it is. The last line is `N passed, M failed, K skipped`.
"""

from __future__ import annotations

import argparse
import json
import os
import subprocess
import sys
import tempfile
from collections import defaultdict
from dataclasses import dataclass, field
from pathlib import Path

sys.path[:0] = [str(Path(__file__).resolve().parents[1] / name) for name in (".", "checks", "lint", "models")]
from built import find_program  # noqa: E402
from plain_quantities import Fault, Quantity  # noqa: E402
from plain_tables import Reader  # noqa: E402
from terminal import Terminal  # noqa: E402
from unit_files import Kind, read_deck  # noqa: E402

ROOT = Path(__file__).resolve().parents[2]
LIBRARY = ROOT / "share/units/standard.units"
SCHEMA = json.loads((ROOT / "share/units-why.schema.json").read_text())
TYPES = {"object": dict, "array": list, "string": str, "integer": int, "boolean": bool}
# Questions whose objects have the members that plain definitions lack, over these lines.
FAULTY_LINES = b"m !\nkg !\nfar 2 near\nnear 3 m + kg\nnear 3 m - kg\nm- 1\nmm 2 m\n"
FAULTY_LINES += b"b\xff 2 m + kg\nodd 2 b\xff\nloop loop\nbad\n"
FAULTY_QUESTIONS = [["far + 2 quux"], ["m + kg", "m"], ["loop"], ["odd"], ["--lint", "--captures", "--unused"]]
CALLS = [["~tempF(300 K)"], ["tempF(-500)"], ["awg(12)", "mm"], ["~zincgauge(0.5 mm)"]]
LOCALES = ("en_US", "en_GB")
NAMES_A_RUN = 150
# Names with a mark of direction, a control character of two bytes, a byte that is not UTF-8 and a letter, in a file
# with a control character in its name, and how a terminal gets them.
ODD_NAMES = "ab\u202ecd ef\u009bgh ij\udcffkl höhe".split(" ")
SHOWN_NAMES = r"ab\xe2\x80\xaecd ef\xc2\x9bgh ij\xffkl höhe".split(" ")
ODD_FILE, SHOWN_FILE = "odd\x1b[31m.units", r"odd\x1b[31m.units"


@dataclass
class Results:
    passed: int = 0
    failed: int = 0
    skipped: int = 0

    def check(self, holds: bool, message: str) -> None:
        if holds:
            self.passed += 1
        else:
            self.failed += 1
            print(message)


class CallsFunction(Exception):
    """A definition calls a function, and the tree has no values of functions."""


@dataclass
class Node:
    """A row with the rows directly below it."""

    row: dict
    children: list[Node] = field(default_factory=list)


class Tree:
    """The values of the rows of an expression, each computed from its text and the values of the rows below it."""

    def __init__(self, rows: list[dict]):
        self.nodes: dict[str, Node] = {}
        self.values: dict[str, Quantity | Fault | CallsFunction] = {}
        path: list[Node] = []
        for row in rows:
            node = Node(row)
            del path[row["depth"] :]
            if path:
                path[-1].children.append(node)
            path.append(node)
            if "text" in row:
                self.nodes[row["key"]] = node

    def value(self, key: str) -> Quantity:
        if key not in self.values:
            try:
                self.values[key] = self.compute(self.nodes[key])
            except (Fault, CallsFunction) as fault:
                self.values[key] = fault
        value = self.values[key]
        if isinstance(value, Exception):
            raise value
        return value

    def compute(self, node: Node) -> Quantity:
        text = node.row["text"]
        if text == "!":
            return Quantity(1, {node.row["key"]: 1})
        if text.startswith("!"):
            return Quantity(1)
        return Reader(text, None).sum()(Words(self, node), None)


class Words:
    """The values of the words of a definition, in the form that `Reader` needs."""

    functions: dict = {}

    def __init__(self, tree: Tree, node: Node):
        self.tree = tree
        self.keys: dict[str, set[str]] = defaultdict(set)
        for child in node.children:
            if "key" in child.row:
                self.keys[child.row["word"]].add(child.row["key"])

    def worth(self, word: str) -> Quantity:
        if word not in self.keys:
            raise Fault(f"no row for {word}")
        if any(key.endswith("()") for key in self.keys[word]):
            raise CallsFunction(word)
        value = Quantity(1)
        for key in self.keys[word]:
            value = value.scaled(self.tree.value(key), 1)
        return value


def fits(value: object, schema: dict) -> bool:
    """Whether a value fits a schema, as far as the schema of units-why uses the language of schemas."""
    if "$ref" in schema:
        return fits(value, SCHEMA["$defs"][schema["$ref"].rpartition("/")[2]])
    if "oneOf" in schema:
        return sum(fits(value, each) for each in schema["oneOf"]) == 1
    if "type" not in schema:
        return value in schema.get("enum", [schema.get("const", value)])
    if type(value) is not TYPES[schema["type"]]:
        return False
    if isinstance(value, list):
        return all(fits(each, schema["items"]) for each in value)
    if not isinstance(value, dict):
        return True
    members = {name: schema["properties"].get(name.removesuffix("_hex")) for name in value}
    if None in members.values() or not value.keys() >= set(schema["required"]):
        return False
    return all(name.endswith("_hex") or fits(value[name], part) for name, part in members.items())


def check_schema(program: str, library: Path, results: Results) -> None:
    """Compares the objects for faults, findings and calls with the schema, and tries whether it refuses others."""
    with tempfile.TemporaryDirectory() as folder:
        faulty = Path(folder) / "faulty.units"
        faulty.write_bytes(FAULTY_LINES)
        asked = [run(program, faulty, "en_US", *words) for words in FAULTY_QUESTIONS]
    asked += [run(program, library, "en_US", "--", *words) for words in CALLS]
    results.check(all(asked), "a question has no object")
    for item in (item for items in asked for item in items):
        results.check(fits(item, SCHEMA), f"the schema does not fit {item}")
        renamed = {f"{name}_": value for name, value in item.items()}
        results.check(not fits(item | renamed, SCHEMA), f"the schema also fits {item | renamed}")


def run(program: str, library: Path, locale: str, *words: str) -> list[dict]:
    """The JSON objects that units-why writes."""
    command = [program, "--json", "-f", str(library), "-l", locale, *words]
    process = subprocess.run(
        command, stdin=subprocess.DEVNULL, stdout=subprocess.PIPE, stderr=subprocess.DEVNULL, check=False
    )
    return [json.loads(line) for line in process.stdout.splitlines()]


def places_without_effect(program: str, library: Path, locale: str) -> set[str]:
    """The lines that the program does not take as definitions."""
    findings = run(program, library, locale, "--lint")
    return {f"{finding['file']}:{finding['line']}" for finding in findings if "key" not in finding}


def check_value(tree: Tree, row: dict, results: Results) -> None:
    """Compares the value or the fault of a row with that of its text."""
    try:
        text = tree.value(row["key"]).text()
    except CallsFunction:
        results.skipped += 1
    except Fault as fault:
        results.check("fault" in row or "fault_below" in row, f"{row['key']} has the fault {fault}, not {row}")
    else:
        results.check(text == row.get("value"), f"{row['key']} is {text}, not {row}")


def check_rows(rows: list[dict], places: dict[str, list[str]], results: Results) -> set[str]:
    """Checks the rows of one expression, and returns the keys that have a row with a definition."""
    tree = Tree(rows)
    for key, node in tree.nodes.items():
        row = node.row
        *others, last = places[key]
        results.check(f"{row.get('file')}:{row.get('line')}" == last, f"{key} is at {last}, not {row}")
        replaced = [f"{line['file']}:{line['line']}" for line in row.get("replaces", [])]
        results.check(replaced == others, f"{key} replaces {others}, not {replaced}")
        if row["how"] not in ("function", "inverse function"):
            check_value(tree, row, results)
    return set(tree.nodes)


def check_locale(program: str, library: Path, locale: str, results: Results) -> None:
    deck = read_deck(str(library))
    places_to_skip = places_without_effect(program, library, locale)
    active = [line for line in deck.active(locale, os.environ) if line.kind is not Kind.LIST]
    active = [line for line in active if str(line.place) not in places_to_skip]
    places: dict[str, list[str]] = defaultdict(list)
    for definition in active:
        places[definition.key].append(str(definition.place))
    names = [line.name for line in active if line.kind is Kind.UNIT]
    prefixes = [line.name for line in active if line.kind is Kind.PREFIX]
    probe = max(names, key=len)  # a short one might make a prefix a plural, as in das
    words = names + [prefix + probe for prefix in prefixes]
    keys = set()
    for start in range(0, len(words), NAMES_A_RUN):
        expression = " ".join(words[start : start + NAMES_A_RUN])
        first, *rows = run(program, library, locale, "--exact", "--", expression)
        wrong = [item for item in [first, *rows] if not fits(item, SCHEMA)]
        results.check(not wrong, f"the schema does not fit {wrong[:3]}")
        keys |= check_rows(rows, places, results)
    for key in {f"{name}" for name in names} | {f"{prefix}-" for prefix in prefixes}:
        results.check(key in keys, f"{key} has no row")


def check_terminal(command: list[str], results: Results) -> None:
    """Compares what a program that reports each name of a file writes to a terminal and to a pipe."""
    with tempfile.TemporaryDirectory() as folder:
        lines = "".join(f"{name} 2 missing\n{name} 3 missing\n" for name in ODD_NAMES)
        (Path(folder) / ODD_FILE).write_text(lines, encoding="utf-8", errors="surrogateescape")
        terminal = Terminal([*command, ODD_FILE], dict(os.environ), Path(folder))
        status = terminal.status()
        pipe = subprocess.run(
            [*command, ODD_FILE], cwd=folder, stdin=subprocess.DEVNULL, stdout=subprocess.PIPE, check=False
        )
        shown = terminal.output.decode(errors="surrogateescape")
        raw = pipe.stdout.decode(errors="surrogateescape")
        for text, texts in ((shown, (SHOWN_FILE, *SHOWN_NAMES)), (raw, (ODD_FILE, *ODD_NAMES))):
            absent = [each for each in texts if each not in text]
            results.check(not absent, f"{command[0]} does not write {absent}, but {text!r}")
        obeyed = {char for char in shown if not char.isprintable()} - set("\t\r\n")
        results.check(not obeyed, f"{command[0]} writes {obeyed} to a terminal")
        results.check(status == pipe.returncode == 1, f"{command[0]} ends with {status} and {pipe.returncode}")


def main() -> int:
    parser = argparse.ArgumentParser(description="Checks the trees of units-why for the standard library.")
    parser.add_argument("--program", help="the program units-why; otherwise the one that is built")
    parser.add_argument("--library", type=Path, default=LIBRARY)
    arguments = parser.parse_args()
    program, units = arguments.program or find_program("units_why"), find_program("units")
    results = Results()
    if units:
        check_terminal([str(ROOT / "bin/units-lint"), "--program", units], results)
    else:
        print("skipped: units is not built, which units-lint asks")
        results.skipped += 1
    if program:
        check_terminal([str(Path(program).resolve()), "--lint", "-f"], results)
        check_schema(program, arguments.library, results)
        for locale in LOCALES:
            check_locale(program, arguments.library, locale, results)
    else:
        print("skipped: units-why is not built, so the trees are not checked")
        results.skipped += 1
    print(f"{results.passed} passed, {results.failed} failed, {results.skipped} skipped")
    return 1 if results.failed or program and not results.passed else 0


if __name__ == "__main__":
    sys.exit(main())
