#!/usr/bin/env python3
"""Writes the transcript tests/library.t: everyday queries with the library, and the answers that this script computes.

    tools/checks/library_queries.py [--check]

The answers come from the definitions of the units, in Python's fractions, and not from the library or the program. With
--check the status is 1 if the transcript is not up to date.
"""

from __future__ import annotations

import sys
from dataclasses import dataclass
from fractions import Fraction
from pathlib import Path

from library_answers import ANSWERS
from library_formulas import FORMULAS

TRANSCRIPT = Path(__file__).resolve().parents[2] / "tests/library.t"
DIGITS = 8
HEAD = """\
Everyday queries over the library of definitions. tools/checks/library_queries.py writes this file and computes the
answers from the definitions of the units. LIBRARY is the path of share/units/standard.units.

  $ over() { units -1 -f "$LIBRARY" "$@"; }
"""


@dataclass(frozen=True)
class Query:
    """The operands of a conversion and the lines of its reply, with tabs."""

    operands: tuple[str, ...]
    reply: tuple[str, ...]
    status: int = 0


def printed(number, digits=DIGITS):
    """The nearest decimal with some significant digits; of two, the one whose last digit is even."""
    number = Fraction(number)
    if number == 0:
        return "0"
    sign, magnitude = "-" * (number < 0), abs(number)
    power = len(str(magnitude.numerator)) - len(str(magnitude.denominator))
    if magnitude < Fraction(10) ** power:
        power -= 1
    coefficient = round(magnitude / Fraction(10) ** (power - digits + 1))
    if coefficient == 10**digits:
        coefficient, power = coefficient // 10, power + 1
    text = str(coefficient)
    if power < -4 or power >= digits:
        rest = text[1:].rstrip("0")
        return f"{sign}{text[0]}{'.' * bool(rest)}{rest}e{'-' if power < 0 else '+'}{abs(power):02}"
    if power < 0:
        return sign + "0." + "0" * (-power - 1) + text.rstrip("0")
    rest = text[power + 1 :].rstrip("0")
    return sign + text[: power + 1] + "." * bool(rest) + rest


def reply_of(answer):
    """The lines of the reply for an answer, and the status."""
    if isinstance(answer, list):  # counts of units
        parts = [f"{printed(count)} {unit}" for count, unit in answer]
        return ("\t" + " + ".join(parts),), 0
    if isinstance(answer, str):
        return tuple(answer.split("\n")), 1
    if isinstance(answer, tuple):
        kind, number = answer
        if kind == "reading":
            return (f"\t{printed(number)}",), 0
        return (f"\t{kind}", f"\t* {printed(number)}"), 0
    return (f"\t* {printed(answer)}",), 0


def queries():
    for *operands, answer in ANSWERS + FORMULAS:
        reply, status = reply_of(answer)
        yield Query(tuple(operands), reply, status)


def quote(word):
    return word if word.replace("_", "").replace("/", "").replace("^", "").replace(".", "").isalnum() else f'"{word}"'


def escape(line):
    """A line of a transcript, with escapes for bytes that do not print."""
    text = line.encode()
    if all(32 <= byte < 127 for byte in text):
        return line
    return text.decode("latin-1").encode("unicode_escape").decode() + " (esc)"


def transcript():
    lines = [HEAD]
    for query in queries():
        lines.append("  $ over " + " ".join(quote(word) for word in query.operands) + "\n")
        lines += [f"  {escape(line)}\n" for line in query.reply]
        lines += [f"  [{query.status}]\n"] * (query.status != 0)
    return "".join(lines)


def main():
    text = transcript()
    if sys.argv[1:] == ["--check"]:
        sys.exit(0 if TRANSCRIPT.read_text(encoding="utf-8") == text else f"{TRANSCRIPT}: differs from its source")
    TRANSCRIPT.write_text(text, encoding="utf-8")


if __name__ == "__main__":
    main()
