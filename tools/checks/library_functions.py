"""Checks that the functions and tables of definition files invert exactly on a grid inside their domains.

Tables are also compared with a model of their points, in both directions.
"""

from __future__ import annotations

import re
from bisect import bisect_left
from collections import Counter
from dataclasses import dataclass
from fractions import Fraction

from unit_answers import Fault
from unit_files import Kind

OPTION = re.compile(
    r"\s*(?:units=\[(?P<input>[^;\]]*);(?P<output>[^\]]*)\]"
    r"|(?P<which>domain|range)=(?P<interval>[\[(][^\])]*[\])])|noerror(?=\s|$))"
)
BOUND = r"\s*([-+]?[0-9.eE+-]*(?:\|[0-9.eE+-]*)?)\s*"
INTERVAL = re.compile(rf"([\[(]){BOUND},{BOUND}([\])])")
OPEN_ENDS = [
    Fraction(text)
    for text in "-1000 -40 -1/3 0 1e-10 2e-9 5e-7 1e-6 1/7 1 37/10 100 12345/8 1e10 5e14 1e15".split()
]


@dataclass(frozen=True)
class Interval:
    least: Fraction | None = None
    greatest: Fraction | None = None
    holds_least: bool = False
    holds_greatest: bool = False

    def holds(self, number):
        is_above = self.least is None or number > self.least or self.holds_least and number == self.least
        is_below = self.greatest is None or number < self.greatest or self.holds_greatest and number == self.greatest
        return is_above and is_below

    def grid(self):
        """Some numbers in the interval, its closed ends among them."""
        if self.least is not None and self.greatest is not None:
            width = self.greatest - self.least
            numbers = [self.least + width * Fraction(step, 8) for step in range(9)]
        elif self.least is not None:
            numbers = [self.least + step for step in (0, *map(abs, OPEN_ENDS))]
        elif self.greatest is not None:
            numbers = [self.greatest - step for step in (0, *map(abs, OPEN_ENDS))]
        else:
            numbers = OPEN_ENDS
        return [number for number in dict.fromkeys(numbers) if self.holds(number)]


def number_of(text):
    numerator, _, denominator = text.partition("|")
    return Fraction(numerator) / Fraction(denominator or 1)


def interval_of(text):
    opening, least, greatest, closing = INTERVAL.fullmatch(text).groups()
    bounds = [number_of(bound) if bound else None for bound in (least, greatest)]
    return Interval(*bounds, opening == "[", closing == "]")


@dataclass(frozen=True)
class Function:
    """A function: its name, the unit of its argument, its domain, and whether it has an inverse."""

    name: str
    input: str
    domain: Interval
    has_inverse: bool


@dataclass(frozen=True)
class Table:
    """A table of points, linear between them."""

    name: str
    unit: str
    points: tuple[tuple[Fraction, Fraction], ...]

    @property
    def segments(self):
        return list(zip(self.points, self.points[1:]))

    def at(self, x):
        """The value at a number between the first and the last point."""
        place = max(bisect_left(self.points, (x,)), 1)
        (x0, y0), (x1, y1) = self.points[place - 1 : place + 1]
        return y0 + (y1 - y0) * (x - x0) / (x1 - x0)

    def back(self, y):
        """The number with the value y, in the first segment that has one."""
        for (x0, y0), (x1, y1) in self.segments:
            if min(y0, y1) <= y <= max(y0, y1):
                return x0 if y0 == y1 else x0 + (x1 - x0) * (y - y0) / (y1 - y0)
        raise ValueError(f"{self.name} has no number for {y}")


def function_of(definition):
    """The function or the table of a definition; None for an alias."""
    text = definition.text
    if text.startswith("["):
        unit, _, points = text[1:].partition("]")
        numbers = [number_of(word) for word in points.replace("noerror", " ").replace(",", " ").split()]
        return Table(definition.name, unit.strip(), tuple(zip(numbers[::2], numbers[1::2])))
    parameter, _, rest = text[1:].partition(")")
    if not parameter.strip():
        return None
    unit, domain = "1", Interval()
    while option := OPTION.match(rest):
        if option["input"] is not None:
            unit = option["input"].strip() or "1"
        if option["which"] == "domain":
            domain = interval_of(option["interval"])
        rest = rest[option.end() :]
    return Function(definition.name, unit, domain, ";" in rest)


def as_operand(number):
    """A number as a single operand of an expression."""
    text = str(abs(number)).replace("/", "|")
    return f"(-{text})" if number < 0 else text


def check_functions(session, definitions, results):
    """Each function with an inverse gives its argument back at each number of its grid."""
    functions = [function_of(definition) for definition in definitions if definition.kind is Kind.FUNCTION]
    cases = [
        (function, number)
        for function in functions
        if isinstance(function, Function) and function.has_inverse
        for number in function.domain.grid()
    ]
    arguments = [f"{as_operand(number)} ({function.input})" for function, number in cases]
    images = [f"{function.name}({argument})" for (function, _), argument in zip(cases, arguments)]
    backs = [f"~{function.name}({image})" for (function, _), image in zip(cases, images)]
    expected, values, image_values = session.values(arguments), session.values(backs), session.values(images)
    counts = Counter()
    for (function, _), back, argument, value, image in zip(cases, backs, expected, values, image_values):
        if function.domain == Interval() and image == Fault(f"not in range: {function.name}"):
            continue  # the range bounds the domain
        if Fault("overflow") in (image, value):
            continue  # refused, and not inexact
        counts[function.name] += 1
        results.check(f"function {back}", value == argument, f"{value}, not {argument}, through {image}")
    for function in functions:
        if isinstance(function, Function) and function.has_inverse:
            count = counts[function.name]
            results.check(f"function {function.name}: a grid", count > 2, f"{count} numbers in its domain")
        elif isinstance(function, Table):
            check_table(session, function, results)


def check_table(session, table, results):
    """A table agrees with its points, and between them, in both directions."""
    middles = [((x0 + x1) / 2, (y0 + y1) / 2) for (x0, y0), (x1, y1) in table.segments]
    numbers = [x for x, _ in table.points] + [x for x, _ in middles]
    unit, *values = session.values([table.unit] + [f"{table.name}({as_operand(number)})" for number in numbers])
    for number, value in zip(numbers, values):
        expected = table.at(number)
        is_right = not isinstance(value, Fault) and value.conforms(unit) and value.number == expected * unit.number
        results.check(f"table {table.name}({number})", is_right, f"{value}, not {expected} {table.unit}")
    images = [table.at(number) for number in numbers]
    backs = session.values([f"~{table.name}({as_operand(image)} ({table.unit}))" for image in images])
    for image, value in zip(images, backs):
        expected = table.back(image)
        is_right = not isinstance(value, Fault) and not value.powers and value.number == expected
        results.check(f"table ~{table.name}({image} {table.unit})", is_right, f"{value}, not {expected}")
