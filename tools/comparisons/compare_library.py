#!/usr/bin/env python3
"""Compares the values of the names that the library shares with GNU units, to twelve digits.

    tools/comparisons/compare_library.py [--gnu GNU] [--program UNITS] [--library FILE] [--locale LOCALE] [--draft]
    tools/comparisons/compare_library.py --write-names [--gnu GNU] [--definitions FILE]

GNU units is Debian's package units; the library is share/units/standard.units. If the two programs give a name
different values, tests/library/gnu_differences.tsv has a row for it: the name, our value, GNU's value and the reason.
Rows for another locale than en_US are in gnu_differences.LOCALE.tsv, which takes precedence. A difference without a
row, or with other values than its row, is printed; so is a row without a difference. With --draft, missing rows are
printed in the form of that file.

The last line counts the names: shared, equal, different with a reason and without one. The status is 1 if a difference
has no reason or a reason no difference. Run it by hand: it needs GNU units.

With --write-names it writes the names and values of GNU units, of pint (Debian's package python3-pint) and of qalc to
tests/library/names, where check_library.py reads them. A program that is not installed keeps its file, and the status
is 1.
"""

from __future__ import annotations

import argparse
import os
import re
import subprocess
import sys
import tempfile
import xml.etree.ElementTree
from collections import Counter
from fractions import Fraction
from pathlib import Path

sys.path[:0] = [str(Path(__file__).resolve().parents[1] / name) for name in (".", "checks", "lint")]
from compare_gnu import names_in  # noqa: E402
from library_functions import Function, function_of  # noqa: E402
from library_queries import printed  # noqa: E402
from library_values import without_radians  # noqa: E402
from unit_answers import ROOT, Fault, Session, Value, default_program  # noqa: E402
from unit_files import Kind, read_deck  # noqa: E402

DIFFERENCES = ROOT / "tests/library/gnu_differences.tsv"
NAMES = ROOT / "tests/library/names"
COMMON_LOCALE = "en_US"
DIGITS = 12
TOLERANCE = Fraction(1, 10**DIGITS)
LARGEST = 2**127  # of the program
MARK = "8675309 kg"  # a query between two names, which separates their answers
DIMENSIONLESS = ("radian", "sr")  # dimensions in one of the programs, numbers in the other
CALLED_WITH = ("1", "2", "12", "25")
DIMENSIONS = {"meter": "m", "kilogram": "kg", "second": "s", "ampere": "A", "kelvin": "K", "mole": "mol",
              "candela": "cd", "bit": "bit"}  # pint's words and ours  # fmt: skip


def expressions_of(definitions):
    """The query for each definition: a unit by its name, a prefix before a metre, a function of some numbers."""
    definitions, expressions = list(definitions), {}
    functions = {definition.name: definition for definition in definitions if definition.kind is Kind.FUNCTION}
    for definition in definitions:
        if definition.kind is Kind.UNIT:
            expressions[definition.name] = definition.name
        elif definition.kind is Kind.PREFIX:
            expressions[definition.name + "-"] = definition.name + "metre"
        elif definition.kind is Kind.FUNCTION:
            function = function_of(definition) or function_of(functions[definition.text.removeprefix("()").strip()])
            for number in CALLED_WITH:
                unit = function.input if isinstance(function, Function) else "1"
                argument = number if unit == "1" else f"{number} {unit}"
                expressions[f"{definition.name}({argument})"] = f"{definition.name}({argument})"
    return expressions


def value_of_gnu(lines):
    """The value in an answer of GNU units.

    None if GNU units does not know the name or refuses the argument; the text if the answer has no value.
    """
    text = lines.strip()
    if text.startswith("Unknown") or "outside domain" in text or not text:
        return None
    if not text.startswith("Definition: ") or "\n" in text:
        return text.replace("\n", " ")
    numerator, _, denominator = text.removeprefix("Definition: ").split(" = ")[-1].partition("/")
    number, *numerator = numerator.split() or [""]
    try:
        number = Fraction(number)
    except ValueError:
        return text
    powers = Counter()
    for sign, words in ((1, numerator), (-1, denominator.split())):
        for word in words:
            name, _, power = word.partition("^")
            powers[name] += sign * Fraction(power.replace("|", "/") or 1)
    dimensions = sorted((name, str(power)) for name, power in powers.items() if power and name not in DIMENSIONLESS)
    return Value(number, tuple(dimensions))


def values_of_gnu(gnu, locale, expressions):
    """The value of each expression by GNU units."""
    lines = "".join(f"{MARK}\n\n{expression}\n\n" for expression in expressions) + f"{MARK}\n\n"
    process = subprocess.run(
        [gnu, "-q", "-d", "15", "-l", locale], input=lines.encode(), stdout=subprocess.PIPE, stderr=subprocess.STDOUT,
        env={**os.environ, "LC_ALL": "C.UTF-8"}, check=False,
    )  # fmt: skip
    parts = re.split(rf"\s*Definition: {MARK}\n", process.stdout.decode(errors="replace"))[1:-1]
    if len(parts) != len(expressions):
        sys.exit(f"{gnu}: {len(parts)} answers to {len(expressions)} expressions")
    return [value_of_gnu(part) for part in parts]


def is_equal(ours, theirs):
    if isinstance(ours, Fault) or not isinstance(theirs, Value) or ours.powers != theirs.powers:
        return False
    return abs(ours.number - theirs.number) <= TOLERANCE * abs(theirs.number)


def as_text(value):
    """A value with twelve digits, or the answer if it is not a value."""
    if not isinstance(value, Value):
        return str(value)
    return printed(value.number, DIGITS) + (f" {value.dimensions}" if value.powers else "")


def reasons(file):
    """The rows of a file of differences by name; empty if there is no such file."""
    rows = {}
    for line in file.read_text(encoding="utf-8").splitlines() if file.exists() else []:
        if line and not line.startswith("#"):
            name, ours, theirs, reason = line.split("\t")
            rows[name] = (ours, theirs, reason)
    return rows


def units_of_gnu(options):
    """The name of GNU units with its version, and the values of the units that it defines."""
    names = list(names_in(options.definitions))
    version = subprocess.run([options.gnu, "--version"], stdout=subprocess.PIPE, text=True, check=True).stdout
    return version.split("\n")[0], dict(zip(names, values_of_gnu(options.gnu, COMMON_LOCALE, names)))


def units_of_pint(_options):
    """The name of pint with its version, and the values of the units that it defines, without scales such as degC."""
    import pint

    registry, values = pint.UnitRegistry(), {}
    for name in registry:
        try:
            zero, one = [registry.Quantity(number, name).to_base_units() for number in (0.0, 1.0)]
        except pint.errors.UndefinedUnitError:
            continue  # a dimension, such as [length]
        if zero.magnitude == 0:
            number, units = one.to_tuple()
            powers = [(DIMENSIONS.get(unit, unit), str(Fraction(power))) for unit, power in units]
            values[name] = without_radians(Value(Fraction(number), tuple(sorted(powers))))
    return f"pint {pint.__version__}", values


def names_of_qalc():
    """The English names of the units of qalc, of which each may have flags before a colon.

    A composite unit has a name of qalc's own, such as km_c, that nobody types.
    """
    units = xml.etree.ElementTree.parse("/usr/share/qalculate/units.xml").iter("unit")
    lists = [unit.findtext("names") for unit in units if unit.get("type") in ("base", "alias")]
    return sorted({name.rpartition(":")[2] for names in lists if names for name in names.split(",")})


def value_of_qalc(text):
    """The value in an answer such as `6.894E3 kg/(m*s^2)`, or None if the answer is no product of units."""
    number, _, units = text.partition(" ")
    numerator, _, denominator = units.partition("/")
    powers = Counter()
    try:
        for sign, product in ((1, numerator), (-1, denominator.strip("()"))):
            for factor in product.split("*") if product else []:
                name, _, power = factor.partition("^")
                powers[name.replace("bits", "bit")] += sign * int(power or 1)
        return Value(Fraction(number), tuple(sorted((name, str(power)) for name, power in powers.items() if power)))
    except ValueError:
        return None


def units_of_qalc(_options):
    """The name of qalc with its version, and the values of the units that it defines, without scales such as oC."""
    names = names_of_qalc()
    questions = "".join(f"0 {name} to base\n1 {name} to base\n" for name in names)
    settings = ["precision 15", "prefixes off", "unicode off", "exp_mode pure", "decimal comma off"]
    with tempfile.TemporaryDirectory() as home, tempfile.NamedTemporaryFile("w", encoding="utf-8") as file:
        file.write(questions)
        file.flush()
        command = ["qalc", "-t", *(word for setting in settings for word in ("-s", setting)), "-f", file.name]
        environment = {**os.environ, "HOME": home, "LC_ALL": "C.UTF-8"}
        answer = subprocess.run(command, stdin=subprocess.DEVNULL, stdout=subprocess.PIPE, env=environment, check=True)
    version = subprocess.run(["qalc", "--version"], stdout=subprocess.PIPE, text=True, check=True).stdout.strip()
    lines = answer.stdout.decode().splitlines()
    if len(lines) != 2 * len(names):
        sys.exit(f"qalc: {len(lines)} answers to {2 * len(names)} questions")
    values = {name: value_of_qalc(one) for name, zero, one in zip(names, lines[::2], lines[1::2]) if zero[:2] in ("0", "0 ")}
    return f"qalc {version}", {name: value for name, value in values.items() if value and value.number < LARGEST}


def table_of_names(program, values):
    """The table of the units of another program that have the dimensions of the library."""
    lines = [f"# The units of {program} with their values in base units. compare_library.py --write-names wrote it."]
    for name, value in sorted(values.items()):
        if isinstance(value, Value) and {dimension for dimension, _ in value.powers} <= set(DIMENSIONS.values()):
            lines.append(f"{name}\t{as_text(value).replace('/', '|')}")
    return "\n".join(lines) + "\n"


def write_names(options):
    """Writes the tables of names of the programs that are installed; the status."""
    status = 0
    for file, units_of in (("gnu.tsv", units_of_gnu), ("pint.tsv", units_of_pint), ("qalc.tsv", units_of_qalc)):
        try:
            (NAMES / file).write_text(table_of_names(*units_of(options)), encoding="utf-8")
        except (ImportError, OSError) as fault:
            print(f"{file} is not written: {fault}")
            status = 1
    return status


def parsed_options():
    parser = argparse.ArgumentParser(description=__doc__.partition("\n")[0])
    parser.add_argument("--gnu", default="/usr/bin/units")
    parser.add_argument("--program", default=default_program())
    parser.add_argument("--library", default=ROOT / "share/units/standard.units", type=Path)
    parser.add_argument("--locale", default=COMMON_LOCALE)
    parser.add_argument("--draft", action="store_true")
    parser.add_argument("--write-names", action="store_true")
    parser.add_argument("--definitions", default="/usr/share/units/definitions.units", type=Path)
    return parser.parse_args()


def main():
    options = parsed_options()
    if options.write_names:
        sys.exit(write_names(options))
    own = reasons(DIFFERENCES.with_suffix(f".{options.locale}.tsv"))
    rows = reasons(DIFFERENCES) | own
    names = expressions_of(read_deck(options.library).active(options.locale, os.environ))
    ours = Session(options.program, str(options.library), options.locale).values(names.values())
    theirs = values_of_gnu(options.gnu, options.locale, list(names.values()))
    shared, equal, explained, unexplained = 0, 0, set(), 0
    for name, our_value, their_value in zip(names, map(without_radians, ours), theirs):
        shared += their_value is not None
        equal += is_equal(our_value, their_value)
        if their_value is None or is_equal(our_value, their_value):
            continue
        row = (as_text(our_value), as_text(their_value))
        if name in rows and rows[name][:2] == row:
            explained.add(name)
            continue
        unexplained += 1
        reason = rows.get(name, ("", "", ""))[2]
        print("\t".join([name, *row, reason]) if options.draft else f"{name}: {row[0]}, GNU {row[1]}")
    rows_of_locale = rows if options.locale == COMMON_LOCALE else own
    stale = [name for name in rows_of_locale if name not in explained]
    for name in [] if options.draft else stale:
        print(f"{name}: a reason without this difference")
    print(f"# {len(names)} names, {shared} shared, {equal} equal, {len(explained)} different with a reason, "
          f"{unexplained} different without, {len(stale)} reasons without a difference")  # fmt: skip
    sys.exit(1 if unexplained or stale else 0)


if __name__ == "__main__":
    main()
