#!/usr/bin/env python3
"""Writes the lines of the measured constants, share/units/constants.units, from the table tools/constants.tsv.

    tools/write_constants.py

For a new set of CODATA, replace digits, uncertainties and years in the table and run this. The head of the table
describes its columns. Uncertainties are written relative and rounded up to three digits.
"""

from __future__ import annotations

from dataclasses import dataclass
from decimal import ROUND_UP, Context, Decimal
from fractions import Fraction
from pathlib import Path

ROOT = Path(__file__).resolve().parents[1]
TABLE, LINES = ROOT / "tools/constants.tsv", ROOT / "share/units/constants.units"
HEAD = """\
# SPDX-License-Identifier: MIT OR Apache-2.0
# Measured constants of physics. tools/write_constants.py writes this file from tools/constants.tsv: change that table.
# A decimal with too many digits for 127 bits with room for products is the nearest 1|N with zeros at the end of N.
"""
UNCERTAINTY_DIGITS, ROUNDING_DIGITS = 3, 2


@dataclass(frozen=True)
class Constant:
    """A row of the table. The rounding is the greatest one allowed, or empty if the line has the published decimal."""

    name: str
    digits: str
    uncertainty: str
    unit: str
    rounding: str
    document: str
    year: str
    aliases: str

    @property
    def dimensions(self) -> str:
        """The unit as an expression of its own."""
        return f"1 {self.unit}" if self.unit.startswith("/") else self.unit or "1"


def read_constants() -> list[Constant]:
    rows = TABLE.read_text(encoding="utf-8").splitlines()
    return [Constant(*row.split("\t")) for row in rows if row and not row.startswith("#")]


def round_up(number: Fraction, digits: int) -> str:
    """A positive number as a decimal that is not smaller."""
    context = Context(prec=digits, rounding=ROUND_UP)
    return f"{context.divide(Decimal(number.numerator), Decimal(number.denominator)):e}".replace("e-0", "e-")


def nearest_inverse(number: Fraction, limit: Fraction) -> int:
    """The whole number with the most zeros at its end whose inverse is within a relative limit of the number.

    Raises ValueError if no whole number is.
    """
    inverse = 1 / number
    for zeros in reversed(range(len(str(int(inverse))))):
        whole = round(inverse / 10**zeros) * 10**zeros
        if whole and abs(Fraction(1, whole) / number - 1) <= limit:
            return whole
    raise ValueError(f"no 1|N is within {limit} of {number}")


def number_and_rounding(constant: Constant) -> tuple[str, Fraction]:
    """The number of the line, and its relative error."""
    if not constant.rounding:
        return constant.digits, Fraction(0)
    published = abs(Fraction(constant.digits))
    whole = nearest_inverse(published, Fraction(constant.rounding))
    stem = str(whole).rstrip("0")
    sign = "-" if constant.digits.startswith("-") else ""
    return f"{sign}1|{stem}e{len(str(whole)) - len(stem)}", abs(Fraction(1, whole) / published - 1)


def lines_of(constant: Constant) -> str:
    number, rounding = number_and_rounding(constant)
    uncertainty = Fraction(constant.uncertainty) / abs(Fraction(constant.digits))
    status = f"measured {round_up(uncertainty, UNCERTAINTY_DIGITS)}"
    if rounding:
        status += f", rounded {round_up(rounding, ROUNDING_DIGITS)}"
    definition = " ".join(filter(None, (constant.name, number, constant.unit)))
    comment = f"  # {constant.digits}" if rounding else ""
    aliases = "".join(f"{alias} {constant.name}\n" for alias in constant.aliases.split())
    head = f"#= {status}: {constant.document} {constant.year}\n#: {constant.dimensions}\n"
    return f"{head}{definition}{comment}\n{aliases}"


def constants_text() -> str:
    return HEAD + "".join("\n" + lines_of(constant) for constant in read_constants())


if __name__ == "__main__":
    LINES.write_text(constants_text(), encoding="utf-8")
