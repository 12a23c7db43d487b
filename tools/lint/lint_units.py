#!/usr/bin/env python3
# SPDX-License-Identifier: MIT OR Apache-2.0
"""Finds the traps in definition files of units that the program itself accepts.

    tools/lint/lint_units.py [OPTION..] FILE..

Each file is read with its includes, and each finding is one line `FILE:LINE: message` on standard output:

- a line that has no effect, with the program's reason;
- a name that is defined twice, unless the two blocks exclude each other or a block replaces what is outside of it;
- a prefix with a unit that the program reads as the plural of a symbol (`das` as the plural of `da`);
- a list or function whose name is also a unit, a plural or a prefix with a unit;
- a unit whose name is also the plural of another unit, or a prefix with one, of another value;
- a unit or prefix whose name is an English word of queries (`to`, `as`), which would be multiplied silently;
- `1 / 8 in`, which divides by the inch too;
- a definition that does not conform to the unit of its comment `#: UNIT`;
- with --statuses a definition without a status (`#= STATUS: SOURCE`);
- with --dimensions a unit or a prefix without `#: UNIT`.

The status is 0 without findings, 1 with findings, and 2 if a file cannot be read or the program does not answer.
"""

from __future__ import annotations

import argparse
import os
import re
import sys
from pathlib import Path

from unit_answers import Fault, NoAnswers, Session, Value, default_program
from unit_files import DeckFault, Kind, Place, read_deck
from unit_names import Names, Reading

ENGLISH = set(
    "and as at be by convert divided equal equals for from how if into is it many minus much of on or over plus square "
    "than that the times to what with".split()
)
STATUSES = ("exact", "conventional", "measured", "rounded")
STATUS = re.compile(rf"({'|'.join(STATUSES)})\b([^:]*):\s*(\S.*)")
RELATIVE_ERROR = re.compile(r"[0-9](\.[0-9]+)?e-[0-9]+|[0-9]%")
YEAR = re.compile(r"\b(1[89]|20)[0-9]{2}\b")
BINARY_PREFIX = re.compile("([KMGTPEZYRQ]i|(kibi|mebi|gibi|tebi|pebi|exbi|zebi|yobi|robi|quebi))$")
TOKEN = re.compile(r"(?P<number>[0-9.][0-9.|]*(?:[eE][+-]?[0-9]+)?)|(?P<word>[^\s+\-*/|^;~#()\[\]]+)|(?P<sign>\S)")
NOTICE = re.compile(r"(.*):([0-9]+): (.*)")
# Characters that a terminal obeys: controls, marks of direction, and bytes that are not UTF-8.
HIDDEN = re.compile("[\x00-\x08\x0a-\x1f\x7f-\x9f\u061c\u200e\u200f\u202a-\u202e\u2066-\u2069\udc80-\udcff]")
LONGEST_MISREADING = 7  # characters: a prefix and a unit of two each, and the ending of a plural
UNITS_OPTION = re.compile(r"units=\[([^;\]]*);([^\]]*)\]")
PROBE = "lint_probe"  # a unit of value 1, so that a prefix before it has the value of the prefix


def is_symbol(name):
    """Whether a name is a symbol, which has no written plural, and not a word."""
    return len(name) <= 2


class Linter:
    """The findings for one deck in one locale."""

    def __init__(self, deck, session):
        self.session, self.files = session, deck.files
        self.findings = list(notices_of(session, deck.files))
        without_effect = {place for place, _ in self.findings}
        self.definitions = [line for line in deck.definitions if line.place not in without_effect]
        active = deck.active(session.locale, os.environ | dict(session.variables))
        self.active = [definition for definition in active if definition.place not in without_effect]
        self.names = Names(self.active)
        self.values = self.known_values()

    def report(self, definition, message):
        self.findings.append((definition.place, message))

    def known_values(self):
        """The values of all units and prefixes, by kind and name."""
        units, prefixes = list(self.names.units), list(self.names.prefixes)
        expressions = units + [prefix + PROBE for prefix in prefixes]
        keys = [(Kind.UNIT, name) for name in units] + [(Kind.PREFIX, name) for name in prefixes]
        return dict(zip(keys, self.session.values(expressions, [PROBE + " !dimensionless"])))

    def value_of(self, reading):
        """The value of a reading, or None if it has none."""
        keys = [(Kind.PREFIX, reading.prefix), (Kind.UNIT, reading.unit)]
        values = [self.values[key] for key in keys if key[1] is not None]
        if any(isinstance(value, Fault) for value in values):
            return None
        number, powers = 1, ()
        for value in values:
            number, powers = number * value.number, powers or value.powers
        return Value(number, powers)

    def find_repetitions(self):
        """Names that are defined again while the first definition is in force."""
        definitions = {}
        for definition in self.definitions:
            earlier = definitions.setdefault((definition.kind, definition.name), {})
            for blocks, first in earlier.items():
                is_exclusive = any(one.excludes(other) for one in blocks for other in definition.blocks)
                is_within = len(definition.blocks) > len(blocks) and definition.blocks[: len(blocks)] == blocks
                if not is_exclusive and not is_within:
                    self.report(definition, f"{definition.name} is defined again; the first is in {first.place}")
                    break
            earlier.setdefault(definition.blocks, definition)

    def find_plural_readings(self):
        """Prefixes with a unit that ends in `s`, if the program reads the word as the plural of a symbol."""
        for unit in [name for name in self.names.units if name.endswith("s")]:
            readings = [(prefix + unit, self.plural_reading(prefix, unit)) for prefix in self.names.prefixes]
            misread = [(word, reading) for word, reading in readings if reading]
            if misread:
                word, reading = misread[0]
                others = "".join(f", {word}" for word, _ in misread[1:])
                message = f"{word} is read as {reading}, not as a prefix with {unit}; define it"
                message += others.replace(", ", " (also ", 1)
                self.report(self.names.units[unit], message + ")" * bool(others))

    def plural_reading(self, prefix, unit):
        """The plural of a symbol that the program reads instead of a prefix with a unit of another value, or None."""
        word = prefix + unit
        if len(word) > LONGEST_MISREADING or not is_usual(prefix, unit):
            return None
        if word in self.names.units or word in self.names.functions:
            return None
        reading = self.names.derived_reading(word)
        is_misread = is_plural_of_symbols(reading) and self.value_of(reading) != self.value_of(Reading(prefix, unit))
        return reading if is_misread else None

    def find_shadowing_targets(self):
        """Lists and functions that take a conversion from a unit of the same name."""
        for kind in (Kind.FUNCTION, Kind.LIST):
            for name, definition in self.names.by_kind[kind].items():
                if name in self.names.units:
                    self.report(definition, f"{name} is also a unit; a conversion to {name} takes the {kind.value}")
                elif kind is Kind.LIST and name in self.names.functions:
                    self.report(definition, f"{name} is also a function; a conversion to {name} takes the function")
                elif (reading := self.names.derived_reading(name)) and not is_plural_of_symbols(reading):
                    message = f"{name} is also read as {reading}; a conversion to {name} takes the {kind.value}"
                    self.report(definition, message)

    def find_misleading_units(self):
        """Units whose name is a plural or a prefix with a unit of another value."""
        for name, definition in self.names.units.items():
            reading = self.names.derived_reading(name)
            if not reading or not reading.unit or is_symbol(reading.unit) or reading.prefix and len(reading.prefix) < 3:
                continue
            value = self.value_of(Reading(None, name))
            if value and value != (expected := self.value_of(reading)):
                self.report(definition, f"{name} is {value}, but {reading} is {expected}")

    def find_english_words(self):
        for definition in [*self.names.units.values(), *self.names.prefixes.values()]:
            if definition.name in ENGLISH:
                self.report(definition, f"{definition.name} is an English word that a query may contain")

    def find_divided_units(self):
        for definition in self.active:
            for numbers, divisor in divided_units(definition.text):
                advice = f"put ({numbers} / ..) or ({divisor}) in parentheses"
                self.report(definition, f"{numbers} / {divisor} divides by all of {divisor}; {advice}")

    def find_wrong_dimensions(self):
        """Definitions that do not conform to the unit in their comment."""
        with_unit = [definition for definition in self.active if definition.unit]
        units = sorted({definition.unit for definition in with_unit})
        expected = dict(zip(units, self.session.values(units)))
        results = [self.result_of(definition) for definition in with_unit]
        values = dict(zip(results, self.session.values(results, [PROBE + " !dimensionless"])))
        for definition, result in zip(with_unit, results):
            value, unit = values[result], expected[definition.unit]
            if not result:
                continue
            if isinstance(unit, Fault):
                self.report(definition, f"the unit {definition.unit} of {definition.name} has no value: {unit}")
            elif isinstance(value, Fault):
                self.report(definition, f"{definition.name} has no value: {value}")
            elif not value.conforms(unit):
                message = f"{definition.name} conforms to {value.dimensions}, not to {definition.unit}"
                self.report(definition, message)

    def result_of(self, definition, aliases=()):
        """An expression that conforms to the result of a definition; empty if the definition does not say its unit.

        The result of an alias is that of its target. `aliases` has the aliases so far, which may form a cycle.
        """
        if definition.kind is Kind.UNIT:
            return definition.name
        if definition.kind is Kind.PREFIX:
            return definition.name + PROBE
        if definition.kind is Kind.LIST:
            return definition.text.split(";")[0].strip()
        if definition.text.startswith("["):
            return definition.text[1:].partition("]")[0].strip()
        option = UNITS_OPTION.search(definition.text)
        target = re.fullmatch(r"\(\s*\)\s*(\S+?)(\(\))?", definition.text)
        if target and target[1] in self.names.functions:
            is_cycle = definition.name in aliases
            return "" if is_cycle else self.result_of(self.names.functions[target[1]], (*aliases, definition.name))
        return option[2].strip() if option else ""

    def find_missing_statuses(self):
        for definition in self.definitions:
            if not definition.status:
                self.report(definition, f"{definition.name} has no status (#= STATUS: SOURCE)")
            elif not (status := STATUS.match(definition.status)):
                self.report(definition, f"the status of {definition.name} is not STATUS: SOURCE: {definition.status}")
            elif status[1] == "rounded" and not RELATIVE_ERROR.search(definition.status):
                self.report(definition, f"{definition.name} is rounded, but its relative error is missing")
            elif status[1] == "measured" and not YEAR.search(definition.status):
                self.report(definition, f"{definition.name} is measured, but the year of the data is missing")

    def find_missing_dimensions(self):
        for definition in self.definitions:
            if not definition.unit and definition.kind in (Kind.UNIT, Kind.PREFIX):
                self.report(definition, f"{definition.name} does not say what it conforms to (#: UNIT)")


def is_usual(prefix, unit):
    """Whether a prefix is written before a unit: a symbol before any name, a word before a word."""
    if BINARY_PREFIX.fullmatch(prefix):
        return unit[0] in "bBo"
    return is_symbol(prefix) or len(unit) > 3


def is_plural_of_symbols(reading):
    """Whether a reading is a plural that nobody writes, such as `hms` for hectometres."""
    if reading is None or not reading.is_plural:
        return False
    return all(is_symbol(name) for name in (reading.prefix, reading.unit) if name)


def divided_units(text):
    """Each `NUMBERS / NUMBER UNIT` in an expression, as the numbers and the divisor."""
    tokens = [(match.lastgroup, match.group()) for match in TOKEN.finditer(text)]
    start = 0  # of the product
    for at, (kind, token) in enumerate(tokens):
        if kind == "sign" and token in "+-();[],":
            start = at + 1
        elif token in ("/", "per") and [kind for kind, _ in tokens[at + 1 : at + 3]] == ["number", "word"]:
            dividend = tokens[start:at]
            if dividend and all(kind == "number" or token in "*/" for kind, token in dividend):
                yield " ".join(token for _, token in dividend), f"{tokens[at + 1][1]} {tokens[at + 2][1]}"


def notices_of(session, files):
    """The program's notices on lines that have no effect, each with its place."""
    for line in session.check():
        notice = NOTICE.fullmatch(line)
        if notice and notice[1] in files:
            yield Place(notice[1], int(notice[2])), notice[3]


def findings_of(file, options):
    """The findings for a file, in the order of its lines."""
    linter = Linter(read_deck(file), Session(options.program, file, options.locale))
    linter.find_repetitions()
    linter.find_plural_readings()
    linter.find_shadowing_targets()
    linter.find_misleading_units()
    linter.find_english_words()
    linter.find_divided_units()
    linter.find_wrong_dimensions()
    if options.statuses:
        linter.find_missing_statuses()
    if options.dimensions:
        linter.find_missing_dimensions()
    order = {name: at for at, name in enumerate(linter.files)}
    return sorted(linter.findings, key=lambda finding: (order.get(finding[0].file, 0), finding[0].number))


def version():
    """The version of the release, whose file MADE_FROM an install has beside the library of units."""
    folder = Path(__file__).resolve().parent
    for file in (folder.parent / "MADE_FROM", folder.parents[1] / "release/MADE_FROM"):
        if file.exists():
            return next(line.split()[1] for line in file.read_text().splitlines() if line.startswith("version "))
    return "unknown"


def read_options():
    parser = argparse.ArgumentParser(
        prog="units-lint",
        description=__doc__.partition("\n\n")[0], epilog=__doc__.partition("FILE..\n\n")[2],
        formatter_class=argparse.RawDescriptionHelpFormatter,
    )  # fmt: skip
    parser.add_argument("files", nargs="+", metavar="FILE")
    parser.add_argument("--statuses", action="store_true", help="ask for the status of each definition")
    parser.add_argument("--dimensions", action="store_true", help="ask for the expected unit of each unit and prefix")
    parser.add_argument("-l", "--locale", default="en_US", help="the locale; otherwise en_US")
    parser.add_argument("--version", action="version", version=f"units-lint {version()}")
    parser.add_argument("--program", default=default_program(), help="the program units; otherwise the one found first")
    return parser.parse_args()


def shown(text, stream):
    """A line for a stream. A terminal gets hidden characters in the form of units-why."""
    return HIDDEN.sub(escape, text) if stream.isatty() else text


def escape(match):
    return "".join(f"\\x{byte:02x}" for byte in match[0].encode(errors="surrogateescape"))


def write(findings):
    """Writes the findings with the bytes of the file. A closed pipe, as by head, ends the run."""
    try:
        for place, message in findings:
            print(shown(f"{place}: {message}", sys.stdout))
        sys.stdout.flush()
    except BrokenPipeError:
        os.dup2(os.open(os.devnull, os.O_WRONLY), sys.stdout.fileno())
        sys.exit(1)


def complain(message):
    """Writes a message and ends the run."""
    print(shown(f"lint_units: {message}", sys.stderr), file=sys.stderr)
    sys.exit(2)


def main():
    options, count = read_options(), 0
    for stream in (sys.stdout, sys.stderr):
        stream.reconfigure(encoding="utf-8", errors="surrogateescape")
    for file in options.files:
        try:
            findings = findings_of(file, options)
        except OSError as fault:
            complain(f"{file}: {fault.strerror}")
        except DeckFault as fault:
            complain(f"{file}: {fault}")
        except NoAnswers as fault:
            complain(fault)
        write(findings)
        count += len(findings)
    sys.exit(1 if count else 0)


if __name__ == "__main__":
    main()
