# SPDX-License-Identifier: MIT OR Apache-2.0
"""Conversions of floats from and to scales, which are functions such as ``tempF``."""

from __future__ import annotations

import math
import re
from fractions import Fraction
from typing import TYPE_CHECKING, Any, List, NamedTuple, Optional, Union

from .faults import NumeralTooLong, Overflow, UnitsError
from .nearest import Line, load_numpy
from .unit import Unit, show_fraction

if TYPE_CHECKING:
    from .units import Units

_token = re.compile(r"(?:\d[\d.]*(?:[eE][+-]?\d+)?|\.\d+)|(?P<name>[^\W\d]\w*)|[-+*/|()]|\s+")
_definition = re.compile(r"\((\w+)\)\s*((?:(?:units|domain|range)=[\[(][^\])]*[\])]\s*|noerror\s+)*)(.*)", re.DOTALL)
_DEEPEST_ALIAS = 8


class Scale(NamedTuple):
    """A function that numbers are read on."""

    name: str

    def __str__(self) -> str:
        return self.name

    def shown(self, number: str) -> str:
        """Return a number on the scale as an expression."""
        return f"{self.name}({number})"


Target = Union[Unit, Scale]


def expression_of(target: Target) -> str:
    """Return an expression of a unit in terms of base units, or the name of a scale."""
    return target.name if isinstance(target, Scale) else base_expression(target.size, target)


def base_expression(number: Fraction, unit: Unit) -> str:
    """Return an expression of so many base units of the dimension of a unit.

    >>> from exact_units.unit import base_unit
    >>> base_expression(Fraction(3, 2), base_unit({"m": 1, "s": -1}))
    '3|2 m^(1) s^(-1)'
    """
    return " ".join([show_fraction(number), *(f"{name}^({show_fraction(e)})" for name, e in unit.dimension)])


def line_between(units: "Units", value: Any, source: Target, target: Target) -> Any:
    """Return the nearest floats to a float or an array that is converted from or to a scale. NaN and infinity stay.

    Raises the faults of the function for a number outside of its domain or range.
    """
    one, other = expression_of(source), expression_of(target)
    if isinstance(value, float):
        if not math.isfinite(value):
            return value
        try:
            return units.convert_column([value], one, other)[0]
        except (NumeralTooLong, Overflow):
            line = _line(units, source, target, Fraction(value), Fraction(value))
            if line is None:
                raise
            return line.number(value)
    numpy = load_numpy()
    numbers = numpy.ma.getdata(value)
    usable = numpy.isfinite(numbers) & ~numpy.ma.getmaskarray(value)
    chosen = numbers if usable.all() else numbers[usable]
    if not chosen.size:
        units.convert_column([], one, other)
        return value.copy()
    line = _line(units, source, target, Fraction(float(chosen.min())), Fraction(float(chosen.max())))
    if line is not None:
        result = line.array(chosen)
    else:
        result = numpy.array(units.convert_column(chosen.ravel().tolist(), one, other)).reshape(chosen.shape)
    if chosen is numbers:
        return result
    whole = value.copy()
    whole[usable] = result
    return whole


def _line(units: "Units", source: Target, target: Target, low: Fraction, high: Fraction) -> Optional[Line]:
    """Return the line that a conversion follows between two numbers, or None if that is not known.

    A function whose variable is in its definition once, with no operation but the four of arithmetic, is
    (a x + b) / (c x + d). So is the conversion from one to another. If three of its points are on a line, all are. It
    is monotone, and a domain and a range are intervals: if both ends have a value, so has all between them.
    """
    for side, is_inverse in ((source, False), (target, True)):
        if isinstance(side, Scale) and not _is_simple(units, side.name, is_inverse, 0):
            return None
    step = Fraction(2) ** max(-16, _exponent(max(abs(low), abs(high))) - 40)
    first, last = (low // step) * step, -(-high // step) * step
    points = [first, (first + last) / 2, last]
    try:
        values = [_convert(units, x, source, target) for x in points]
    except UnitsError:
        return None
    if first == last:
        return Line(Fraction(1), values[0] - first)
    ratio = (values[2] - values[0]) / (last - first)
    offset = values[0] - ratio * first
    return Line(ratio, offset) if ratio and values[1] == ratio * points[1] + offset else None


def _exponent(x: Fraction) -> int:
    return x.numerator.bit_length() - x.denominator.bit_length()


def _convert(units: "Units", x: Fraction, source: Target, target: Target) -> Fraction:
    text = f"{source}({show_fraction(x)})" if isinstance(source, Scale) else base_expression(x * source.size, source)
    return units.convert(text, expression_of(target))


def _is_simple(units: "Units", name: str, is_inverse: bool, depth: int) -> bool:
    """Return whether a function, or its inverse, is seen to be one of `_line`."""
    rows = [text for key, text in units.search(name) if key == f"{name}()"]
    if len(rows) != 1 or depth > _DEEPEST_ALIAS:
        return False
    match = _definition.fullmatch(rows[0].strip())
    if match is None:
        return _is_simple(units, rows[0].strip(), is_inverse, depth + 1) if rows[0].strip().isidentifier() else False
    body, _, inverse = match[3].partition(";")
    return _has_once(units, inverse, name) if is_inverse else _has_once(units, body, match[1])


def _has_once(units: "Units", body: str, variable: str) -> bool:
    """Return whether an expression has a variable once, and else only numbers, units and the four operations."""
    names: List[str] = []
    place = 0
    while place < len(body):
        match = _token.match(body, place)
        if match is None or body.startswith("**", place):
            return False
        if match["name"]:
            names.append(match["name"])
        place = match.end()
    others = [name for name in names if name != variable]
    # The program reads x2 as the square of x.
    if len(names) - len(others) != 1 or any(name.startswith(variable) and name[-1].isdigit() for name in others):
        return False
    try:
        return all(units.unit(name) is not None for name in others)
    except UnitsError:
        return False
