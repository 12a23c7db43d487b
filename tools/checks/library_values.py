"""Compares the values of the library with tables that were typed from printed sources.

The tables are in tests/library, but for tools/constants.tsv: conversion factors, constants with their uncertainties,
symbols of units with the prefixes that they take, and the names of other programs with their values.
"""

from __future__ import annotations

from collections.abc import Callable
from dataclasses import dataclass
from decimal import Decimal
from fractions import Fraction
from functools import partial
from pathlib import Path

from unit_answers import Fault, Value
from unit_names import Names
from write_constants import read_constants

TABLES = Path(__file__).resolve().parents[2] / "tests/library"
POWERS_OF_TEN = {
    "Q": 30, "R": 27, "Y": 24, "Z": 21, "E": 18, "P": 15, "T": 12, "G": 9, "M": 6, "k": 3, "h": 2, "da": 1, "d": -1,
    "c": -2, "m": -3, "u": -6, "µ": -6, "μ": -6, "n": -9, "p": -12, "f": -15, "a": -18, "z": -21, "y": -24, "r": -27,
    "q": -30,
}  # fmt: skip
WORDS = {
    "quetta": 30, "ronna": 27, "yotta": 24, "zetta": 21, "exa": 18, "peta": 15, "tera": 12, "giga": 9, "mega": 6,
    "kilo": 3, "hecto": 2, "deca": 1, "deci": -1, "centi": -2, "milli": -3, "micro": -6, "nano": -9, "pico": -12,
    "femto": -15, "atto": -18, "zepto": -21, "yocto": -24, "ronto": -27, "quecto": -30,
}  # fmt: skip
DIGITS_OF_OTHERS = 11  # their values are rounded to twelve
BINARY = {"Ki": 1, "Mi": 2, "Gi": 3, "Ti": 4, "Pi": 5, "Ei": 6}


SPELLINGS = {"metre": "meter", "litre": "liter", "feet": "foot", "gramme": "gram", "_": ""}


def rows_of(name):
    """The rows of a table: tab-separated fields, without comments."""
    for line in (TABLES / name).read_text(encoding="utf-8").splitlines():
        if line and not line.startswith("#"):
            yield line.split("\t")


def agrees(number, printed):
    """Whether a number rounds to a printed decimal."""
    last_digit = Fraction(10) ** Decimal(printed).as_tuple().exponent
    return abs(number - Fraction(printed)) <= last_digit / 2


def tolerance_of(expression, printed, uncertainty):
    """How far a constant may be from its published value.

    That is zero if it is exact, a unit of the last digit if digits are cut off (`...`), the uncertainty if it is
    derived from others, and otherwise half a unit of the last digit.
    """
    last_digit = Fraction(10) ** Decimal(printed).as_tuple().exponent
    if uncertainty == "...":
        return last_digit
    if uncertainty == "exact":
        return Fraction(0)
    return Fraction(uncertainty) if " " in expression else last_digit / 2


def quotient(value, unit):
    """The number of units in a value, or None if the two do not conform or one is a fault."""
    if isinstance(value, Fault) or isinstance(unit, Fault) or not value.conforms(unit) or not unit.number:
        return None
    return value.number / unit.number


def mismatch(value, unit):
    """Why `quotient` of these is None."""
    faults = [str(answer) for answer in (value, unit) if isinstance(answer, Fault)]
    return "; ".join(faults) or f"{value.dimensions} does not conform to {unit.dimensions}"


@dataclass(frozen=True)
class Comparison:
    """Expressions of the library, and why their values disagree with a source: an empty text if they agree."""

    name: str
    expressions: tuple[str, ...]
    fault_of: Callable[..., str]


def check_comparisons(session, comparisons, results):
    expressions = list(dict.fromkeys(text for comparison in comparisons for text in comparison.expressions))
    values = dict(zip(expressions, session.values(expressions)))
    for comparison in comparisons:
        fault = comparison.fault_of(*(values[text] for text in comparison.expressions))
        results.check(comparison.name, not fault, fault)


def factor_fault(printed, precision, document, value, unit):
    ratio = quotient(value, unit)
    if ratio is None:
        return mismatch(value, unit)
    is_equal = ratio == Fraction(printed) if precision == "exact" else agrees(ratio, printed)
    return "" if is_equal else f"{float(ratio):.12g}, but {document} prints {printed}"


def compare_factors():
    """Each factor of the library is the printed one: equal if that is exact, else in each digit."""
    for source, target, printed, precision, document in rows_of("factors.tsv"):
        fault_of = partial(factor_fault, printed, precision, document)
        yield Comparison(f"factor {source} to {target}", (source, target), fault_of)


def constants():
    """The constants with a published value: expression, unit, value, uncertainty."""
    yield from rows_of("constants.tsv")
    for constant in read_constants():
        yield constant.name, constant.dimensions, constant.digits, constant.uncertainty


def constant_fault(printed, tolerance, value, unit):
    ratio = quotient(value, unit)
    if ratio is None:
        return mismatch(value, unit)
    is_near = abs(ratio - Fraction(printed)) <= tolerance
    return "" if is_near else f"{float(ratio):.14g}, but published is {printed}"


def compare_constants():
    """Each constant is the published one in each digit, or within its uncertainty if it is derived from others."""
    for name, unit, printed, uncertainty in constants():
        fault_of = partial(constant_fault, printed, tolerance_of(name, printed, uncertainty))
        yield Comparison(f"constant {name} in {unit}", (name, unit), fault_of)


def compare_points():
    """Each point of a table has the value that its source has."""
    for table, unit, precision, document, points in rows_of("points.tsv"):
        for number, printed in map(str.split, points.split(",")):
            fault_of = partial(factor_fault, printed, precision, document)
            number = f"({number})" if number.startswith("-") else number
            yield Comparison(f"point {table}({number}) in {unit}", (f"{table}({number})", unit), fault_of)


def witness_fault(tolerance, program, value, other):
    ratio = quotient(without_radians(value), without_radians(other))
    if ratio is None:
        return mismatch(without_radians(value), without_radians(other))
    return "" if abs(ratio - 1) <= tolerance else f"{float(ratio):.12g} times the value of {program}"


def compare_witnesses():
    """Each expression has the value of a unit of another program, within the tolerance of its row."""
    values = {file.stem: dict(rows_of(f"names/{file.name}")) for file in (TABLES / "names").glob("*.tsv")}
    for expression, program, name, tolerance in rows_of("witnesses.tsv"):
        fault_of = partial(witness_fault, Fraction(tolerance), f"{name} in {program}")
        value = values[program].get(name, "no such unit")
        yield Comparison(f"witness {expression} as {name} of {program}", (expression, value), fault_of)


def status_fault(status, is_printed, uncertainty):
    """Why a constant with this uncertainty cannot have this status, or nothing."""
    if uncertainty == "...":
        return "its digits are cut off" if is_printed and status.startswith("exact") else ""
    if uncertainty != "exact" and not status.startswith("measured"):
        return f"it is published with the uncertainty {uncertainty}"
    return ""


def check_statuses(session, definitions, results):
    """No constant is called more exact than it is published, and corrected statuses stay."""
    statuses = {definition.name: definition.status or "" for definition in definitions}
    rows = [row for row in constants() if row[0] in statuses]
    values, units = session.values([row[0] for row in rows]), session.values([row[1] for row in rows])
    for (name, _, printed, uncertainty), value, unit in zip(rows, values, units):
        fault = status_fault(statuses[name], quotient(value, unit) == Fraction(printed), uncertainty)
        results.check(f"status of {name}", not fault, f"{statuses[name]}, but {fault}")
    for name, beginning, reason in rows_of("statuses.tsv"):
        status = statuses.get(name, "")
        results.check(f"status of {name}", status.startswith(beginning), f"{status}, not {beginning}: {reason}")


def check_spellings(session, names, results):
    """Names of units that differ in their spelling alone have one value."""
    groups = {}
    for name in names:
        plain = name
        for spelling, common in SPELLINGS.items():
            plain = plain.replace(spelling, common)
        groups.setdefault(plain, []).append(name)
    variants = [group for group in groups.values() if len(group) > 1 and len(group[0]) > 3]
    values = dict(zip(sum(variants, []), session.values(sum(variants, []))))
    for first, *others in variants:
        for other in others:
            detail = f"{values[other]}, but {first} is {values[first]}"
            results.check(f"spelling {other}", values[other] == values[first], detail)


def folded(name):
    return name.replace("_", "").lower()


def check_gnu_spellings(definitions, results):
    """A name of GNU units that differs from a unit here in underscores or case only is defined or omitted by a row."""
    names = {definition.name for definition in definitions}
    omitted = {name for name, _ in rows_of("omitted_names.tsv")}
    known = {folded(name) for name in names}
    for name, _ in rows_of("names/gnu.tsv"):
        if folded(name) in known:
            is_right = (name in names) != (name in omitted)
            detail = "defined and omitted" if name in names else "neither defined nor omitted"
            results.check(f"spelling {name}", is_right, detail)


def check_lists(session, lists, results):
    """The units of each list conform, and each is less than the one before it."""
    for definition in lists:
        units = [part.strip() for part in definition.text.split(";")]
        values = session.values(units)
        faults = [str(value) for value in values if isinstance(value, Fault)]
        pairs = [] if faults else list(zip(values, values[1:]))
        falls = all(one.conforms(other) and one.number > other.number > 0 for one, other in pairs)
        results.check(f"list {definition.name}", not faults and falls, "; ".join(faults) or "its units do not fall")


def words_with_prefixes(symbol, prefixes):
    """The symbol with each of the prefixes, and its factor."""
    tables = {"word": WORDS, "symbol": POWERS_OF_TEN}
    table = tables["word"] if prefixes[:1] == ["words"] else tables["symbol"]
    names = list(table) if prefixes[0] in ("words", "all") else [name for name in prefixes if not name.startswith("-")]
    exceptions = {name[1:] for name in prefixes if name.startswith("-")}
    for name in names:
        if name in exceptions:
            continue
        factor = Fraction(1024) ** BINARY[name] if name in BINARY else Fraction(10) ** table[name]
        yield name + symbol, factor


def symbol_fault(factor, value, base):
    expected = base if isinstance(base, Fault) else Value(factor * base.number, base.powers)
    return "" if value == expected else f"{value}, not {expected}"


def compare_symbols():
    """Each symbol of a unit has the value in the table, alone and with each of its prefixes."""
    for symbol, number, unit, prefixes in rows_of("symbols.tsv"):
        for word, factor in [(symbol, Fraction(1)), *words_with_prefixes(symbol, prefixes.split())]:
            yield Comparison(f"symbol {word}", (word, unit), partial(symbol_fault, factor * Fraction(number)))


def printed_comparisons():
    """The comparisons with printed values and with the values of other programs."""
    return [*compare_factors(), *compare_points(), *compare_constants(), *compare_symbols(), *compare_witnesses()]


def without_radians(value):
    """A value as the other programs have it, in which the radian is 1."""
    if isinstance(value, Fault):
        return value
    return Value(value.number, tuple(pair for pair in value.powers if pair[0] != "radian"))


def readings_of(definitions, file):
    """The names in a table of another program that are no units here but have a reading, with it and their value."""
    names = Names(definitions)
    for name, value in rows_of(file):
        reading = names.derived_reading(name)
        if reading and name not in names.units and name not in names.functions:
            yield name, str(reading), value


def check_readings(session, definitions, results):
    """A unit of another program that the library reads as a plural or as a prefix and a unit has its value there.

    If both have one dimension and not one value, a row of decided_readings.tsv has the name, the reading, the value
    there and a reason. A row without such a difference is stale.
    """
    different, decided = set(), {tuple(row[:3]) for row in rows_of("decided_readings.tsv")}
    for file in sorted((TABLES / "names").glob("*.tsv")):
        rows = list(readings_of(definitions, f"names/{file.name}"))
        ours, theirs = session.values([row[0] for row in rows]), session.values([row[2] for row in rows])
        for row, our_value, their_value in zip(rows, map(without_radians, ours), theirs):
            is_read = not isinstance(their_value, Fault)
            results.check(f"reading {row[0]}", is_read, f"{row[2]} of {file.name}: {their_value}")
            ratio = quotient(our_value, their_value)
            if ratio is None:
                continue
            is_equal = abs(ratio - 1) <= Fraction(1, 10**DIGITS_OF_OTHERS)
            detail = f"read as {row[1]}, {float(ratio):.6g} times {row[2]} of {file.name}: define or decide it"
            results.check(f"reading {row[0]}", is_equal or row in decided, detail)
            if not is_equal:
                different.add(row)
    for row in sorted(decided - different):
        results.check(f"reading {row[0]}", False, "decided_readings.tsv has a row without this difference")
