#!/usr/bin/env python3
"""Compares units-why over random definitions with a plain recursion.

    tools/checks/check_why_random.py [--program UNITS_WHY] [--units UNITS] [--seed N] [--cases N]

For each question about random definitions in several files, the reply, the failed step and the rows with their values,
faults and places have to be those of `plain_sources.py`, and the text has to say the same as the JSON. For each set of
definitions, the faults that --lint reports have to be those of `units --check`. The seed is printed. The last line is
`N passed, M failed, K skipped`.
"""

from __future__ import annotations

import argparse
import json
import random
import re
import subprocess
import sys
import tempfile
from collections import Counter
from dataclasses import dataclass, field
from pathlib import Path

sys.path[:0] = [str(Path(__file__).resolve().parents[1] / name) for name in (".", "models")]
from built import find_program  # noqa: E402
from plain_lines import entry_of, tokens_of  # noqa: E402
from plain_live import Live  # noqa: E402
from plain_quantities import Fault  # noqa: E402
from plain_sources import StepFault, Steps, rows_of  # noqa: E402
from plain_trees import first_fault  # noqa: E402
from values_at_random import Made  # noqa: E402

QUESTIONS = 24  # about each set of definitions
FILES = ("main.units", "sub/one.units", "sub/two.units")
COMPARED = ("word", "depth", "key", "how", "above", "value", "fault", "fault_below", "step")
FAULTY_DEFINITIONS = (
    "{0} 2 nosuch", "{0} 3 {1} + 1 {2} {2}", "{0} {1}", "{0} (1/0) {1}", "{0} 1e30 {1} {1}", "{0} {1} 1e39", "{0} 1e39 {1}",
    "{0} sin(3) {1}", "{0} 2 {1} (m + s)", "{0} (m + s) {1}", "p{3}- 1e30 p{3}a", "{0} pa{1}", "{0} 4 odd\udcff", "{0} {0}2",
)  # fmt: skip
FAULTY_TEXTS = ("(m", "m + s", "1/0", "nosuch", "(1/0) nosuch", "m (s", "2 m + s nosuch", "tempC", "1|0 m", "ua +", "", "m;s")
CALL = re.compile(r" *(\(\d+\) )?(its inverse is )?called at ")


@dataclass
class Results:
    passed: int = 0
    failed: int = 0

    def check(self, holds: bool, message: str) -> None:
        if holds:
            self.passed += 1
        else:
            self.failed += 1
            print(message.encode(errors="backslashreplace").decode())


@dataclass
class Definitions:
    """Random definitions in files, and the places of the lines of each key, the one in force last."""

    maker: Made
    texts: dict[str, list[str]] = field(default_factory=dict)
    places: dict[tuple[str, str], list[str]] = field(default_factory=dict)
    entries: dict[tuple[str, str], str] = field(default_factory=dict)

    def put(self, file: str, line: str) -> None:
        lines = self.texts.setdefault(file, [])
        lines.append(line)
        if not line.startswith("!include"):
            key, text = entry_of(line)
            self.places.setdefault(key, []).append(f"{file}:{len(lines)}")
            self.entries[key] = text

    def write(self, folder: Path) -> None:
        for file, lines in self.texts.items():
            (folder / file).write_text("\n".join(lines) + "\n", encoding="utf-8", errors="surrogateescape")


def random_definitions(r: random.Random) -> Definitions:
    maker = Made(r)
    maker.definitions()
    units = maker.units[-6:]
    lines = [*maker.lines, "odd\udcff 3 m"]
    for _ in range(r.randrange(6)):
        words = [*r.choices(units, k=3), r.choice("ab")]
        lines.append(r.choice(FAULTY_DEFINITIONS).format(*words))
    definitions = Definitions(maker)
    cuts = sorted(r.choices(range(len(lines) + 1), k=2))
    for file, part in zip(FILES[1:], (lines[: cuts[0]], lines[cuts[0] : cuts[1]])):
        definitions.put(FILES[0], f"!include {file}")
        definitions.texts.setdefault(file, [])
        for line in part:
            definitions.put(file, line)
    for line in lines[cuts[1] :]:
        definitions.put(FILES[0], line)
    return definitions


def random_question(r: random.Random, maker: Made) -> list[str]:
    def text() -> str:
        return r.choice(FAULTY_TEXTS) if r.randrange(4) == 0 else maker.query()

    if r.randrange(5) < 3:
        return [text()]
    return [text(), r.choice([text(), r.choice(maker.units), r.choice(maker.functions)])]


@dataclass
class Side:
    """What a plain recursion finds about one text of a question."""

    fault: str | None
    step: dict | None
    rows: list[dict]


def side_of(live: Live, text: str) -> Side:
    fault = first_fault(*tokens_of(text), len(text))
    if fault:
        return Side(fault, None, [])
    expression = Steps(text)
    rows = rows_of(live, expression.uses)
    fault = live.name_fault(expression.uses)
    if fault:
        return Side(fault, None, rows)
    try:
        expression.value(live, None)
    except StepFault as failed:
        return Side(str(failed), failed.step, rows)
    except Fault as failed:
        return Side(str(failed), None, rows)
    return Side(None, None, rows)


def expected(live: Live, words: list[str]) -> tuple[Side, list[dict]]:
    """The side whose fault the reply states, if it states one, and the rows of all sides."""
    sides = [side_of(live, word.strip()) for word in words if word.strip() or word is words[0]]
    rows = [row for side in sides for row in side.rows]
    failed = next((side for side in sides if side.fault), sides[0])
    if failed is not sides[0] and (("function", words[1].strip()) in live.entries or ";" in words[1]):
        return sides[0], rows  # the inverse of a function or the parts of a list, which are no expression
    return failed, rows


def text_of(row: dict, member: str) -> str:
    """A member of an object, with the bytes that are not UTF-8."""
    if f"{member}_hex" in row:
        return bytes.fromhex(row[f"{member}_hex"]).decode(errors="surrogateescape")
    return row[member]


def values_of(row: dict) -> dict:
    """The members of an object that are compared."""
    values = {name: text_of(row, name) if isinstance(row[name], str) else row[name] for name in COMPARED if name in row}
    if "step" in row:
        values["step"] = step_of(row["step"])
    return values


def step_of(step: dict) -> dict:
    operands = [bytes.fromhex(text).decode(errors="surrogateescape") for text in step.get("operands_hex", [])]
    return {"operator": text_of(step, "operator"), "operands": operands or step["operands"]}


def place_of(line: dict) -> str:
    return f"{line['file']}:{line['line']}"


def step_text(step: dict) -> str:
    operator, operands = step["operator"], step["operands"]
    if len(operands) == 1:
        return f"{operator}({operands[0]})"
    left, right = (f"({operand})" if " " in operand else operand for operand in operands)
    return f"{left} {operator} {right}"


def row_text(row: dict) -> str:
    """The text of a row, from its object."""
    depth = row["depth"]
    indent = "  " * depth if depth <= 20 else " " * 40 + f"({depth}) "
    word = text_of(row, "word")
    if "key" not in row:
        return f"{indent}{word}: {row['fault']}"
    key = text_of(row, "key")
    lead = f"{indent}{key}: {row['how']}"
    lead += f" in {word}" * (word != key.removesuffix("()").removesuffix("-"))
    lead += f" ({row['part']}), " if "part" in row else ", "
    if "above" in row:
        return lead + "see above"
    if "text" not in row:
        return lead + "a cycle: this definition is above"
    lead += text_of(row, "text")
    if "value" in row:
        lead += f" = {text_of(row, 'value')}"
    if "fault" in row:
        lead += f" ! {text_of(row, 'fault')}"
        lead += f" in {step_text(step_of(row['step']))}" if "step" in row else ""
    lead += " ! see below" * ("fault_below" in row)
    replaced = "; replaces " + ", ".join(map(place_of, row["replaces"])) if "replaces" in row else ""
    return f"{lead} [{place_of(row)}{replaced}]"


def output_of(command: list[str], folder: Path) -> list[str]:
    process = subprocess.run(
        command, cwd=folder, stdin=subprocess.DEVNULL, stdout=subprocess.PIPE, stderr=subprocess.STDOUT, check=False
    )
    return process.stdout.decode(errors="surrogateescape").split("\n")[:-1]


class Comparison:
    """The programs and the results so far."""

    def __init__(self, why: str, units: str, folder: Path, results: Results):
        self.why, self.units, self.folder, self.results = why, units, folder, results

    def compare(self, definitions: Definitions, live: Live, words: list[str], what: str) -> None:
        """Compares the answer to a question, as JSON and as text."""
        command = [self.why, "--exact", "-f", FILES[0]]
        reply, *rows = map(json.loads, output_of([*command, "--json", "--", *words], self.folder))
        side, expected_rows = expected(live, words)
        faults = [
            f"{name}: {found}, not {right}"
            for name, found, right in self.differences(definitions, reply, rows, side, expected_rows)
            if found != right
        ]
        text = output_of([*command, "--", *words], self.folder)
        lines = [line for line in text if not CALL.match(line)]
        head = text_of(reply, "reply").split("\n")
        head += [f"in {step_text(step_of(reply['step']))}"] if "step" in reply else []
        right = head + [row_text(row) for row in rows]
        if lines != right:
            faults.append(f"the text {lines} is not that of the JSON: {right}")
        self.results.check(not faults, f"{what}, {words}: " + "; ".join(faults))

    @staticmethod
    def differences(definitions: Definitions, reply: dict, rows: list[dict], side: Side, expected_rows: list[dict]):
        """The name, the value found and the right value of each thing that is compared."""
        if side.fault:
            yield "reply", (text_of(reply, "reply"), reply["refused"]), (side.fault, True)
        yield "step", step_of(reply["step"]) if "step" in reply else None, side.step
        yield "rows", [values_of(row) for row in rows], expected_rows
        keys = {text_of(row, "key"): row for row in rows if "text" in row}
        for key, places in definitions.places.items():
            row = keys.get({"unit": "{}", "prefix": "{}-", "function": "{}()"}[key[0]].format(key[1]))
            if row:
                *others, last = places
                found = place_of(row), sorted(map(place_of, row.get("replaces", [])))
                yield f"places of {key[1]}", found, (last, sorted(others))

    def compare_lint(self, what: str) -> None:
        """Compares the faults of --lint with the lines of the check."""
        findings = map(json.loads, output_of([self.why, "--lint", "--json", "-f", FILES[0]], self.folder))
        errors = [finding for finding in findings if finding["severity"] == "error"]
        found = Counter(f"{text_of(error, 'key')}: {text_of(error, 'message')}" for error in errors)
        right = Counter(output_of([self.units, "--check", "-f", FILES[0]], self.folder))
        self.results.check(found == right, f"{what}: --lint and --check differ: {found - right}, {right - found}")


def main() -> int:
    parser = argparse.ArgumentParser(description="Compares units-why with a plain recursion.")
    parser.add_argument("--program", help="the program units-why; otherwise the one that is built")
    parser.add_argument("--units", help="the program units; otherwise the one that is built")
    parser.add_argument("--seed", type=int, default=random.SystemRandom().randrange(10**6))
    parser.add_argument("--cases", type=int, default=2000)
    options = parser.parse_args()
    why, units = options.program or find_program("units_why"), options.units or find_program("units")
    if not why or not units:
        print("skipped: units-why or units is not built")
        print("0 passed, 0 failed, 1 skipped")
        return 0
    print(f"seed {options.seed}")
    results, r = Results(), random.Random(options.seed)
    for number in range(max(1, options.cases // (QUESTIONS + 1))):
        with tempfile.TemporaryDirectory() as name:
            folder = Path(name)
            (folder / "sub").mkdir()
            definitions = random_definitions(r)
            definitions.write(folder)
            live = Live(definitions.entries)
            comparison = Comparison(str(Path(why).resolve()), str(Path(units).resolve()), folder, results)
            what = f"seed {options.seed}, definitions {number}"
            for _ in range(QUESTIONS):
                comparison.compare(definitions, live, random_question(r, definitions.maker), what)
            comparison.compare_lint(what)
    print(f"{results.passed} passed, {results.failed} failed, 0 skipped")
    return 1 if results.failed else 0


if __name__ == "__main__":
    sys.exit(main())
