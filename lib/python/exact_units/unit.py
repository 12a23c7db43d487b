# SPDX-License-Identifier: MIT OR Apache-2.0
"""Units that quantities are shown in: products of powers of words, such as ``kg m / s^2``, with their exact sizes."""

from __future__ import annotations

import re
from fractions import Fraction
from typing import Dict, Iterable, Mapping, Optional, Tuple, Union

from .faults import UnitsError

Exact = Union[int, Fraction]
Powers = Tuple[Tuple[str, Fraction], ...]

# A name that can be written beside others, and its power. A digit at the end of a name may be a power of its own.
_factor = re.compile(r"([^\s()^|*/+\-;,~\d.][^\s()^|*/+\-;,~]*?(?<!\d))(?:\^(-?\d+(?:\|\d+)?))?")
_MOST_KEPT = 4096
# Chains of products, such as m, m^2, m^3 and so on, are not kept.
_HIGHEST_KEPT = 12


def read_fraction(text: str) -> Fraction:
    """Return the fraction that is written as ``n`` or ``n|d``.

    Raises `UnitsError` if the text is neither.

    >>> read_fraction("-3|4")
    Fraction(-3, 4)
    """
    numerator, bar, denominator = text.partition("|")
    digits = numerator[1:] if numerator.startswith("-") else numerator
    if not (digits.isdigit() and digits.isascii()) or (bar and not denominator.isdigit()):
        raise UnitsError(f"not a number: {text}")
    return Fraction(int(numerator), int(denominator)) if bar else Fraction(int(numerator))


def show_fraction(x: Exact) -> str:
    """Return a fraction as ``n`` or ``n|d``.

    >>> show_fraction(Fraction(-3, 4))
    '-3|4'
    """
    return str(x.numerator) if x.denominator == 1 else f"{x.numerator}|{x.denominator}"


def read_dimension(text: str) -> Dict[str, Fraction]:
    """Return the exponents in a text such as ``kg m^2 / s^2``.

    >>> read_dimension("kg m^1|2 / s^2")
    {'kg': Fraction(1, 1), 'm': Fraction(1, 2), 's': Fraction(-2, 1)}
    """
    exponents: Dict[str, Fraction] = {}
    sign = 1
    for word in text.split(" "):
        if word == "/":
            sign = -1
        elif word:
            name, caret, exponent = word.partition("^")
            exponents[name] = sign * (read_fraction(exponent) if caret else Fraction(1))
    return exponents


def show_powers(powers: Iterable[Tuple[str, Fraction]], sign: int) -> str:
    """Return the words whose exponents have a sign, each after a blank.

    >>> show_powers([("m", Fraction(1)), ("s", Fraction(-2))], -1)
    ' s^2'
    """
    chosen = [(name, sign * e) for name, e in powers if sign * e > 0]
    return "".join(f" {name}" if e == 1 else f" {name}^{show_fraction(e)}" for name, e in chosen)


class Unit:
    """A product of powers of words, its size in base units, and its dimension. Immutable.

    Two units that are made alike are usually the same object, which lets `product` find what it made before.
    """

    __slots__ = ("words", "size", "dimension", "suffix")

    def __init__(self, words: Powers, size: Fraction, dimension: Powers) -> None:
        self.words, self.size, self.dimension = words, size, dimension
        denominator = show_powers(words, -1)
        #: The words as they follow a number: empty, or a blank and then ``kg m / s^2``.
        self.suffix = show_powers(words, 1) + (f" /{denominator}" if denominator else "")

    def __str__(self) -> str:
        return f"1{self.suffix}" if self.suffix[:2] in ("", " /") else self.suffix[1:]

    def __repr__(self) -> str:
        return f"<Unit {self}>"

    def __reduce__(self) -> Tuple[object, ...]:
        return make_unit, (self.words, self.size, self.dimension)

    def conforms(self, other: "Unit") -> bool:
        """Return whether both have the same dimension."""
        return self.dimension == other.dimension


_units: Dict[Tuple[Powers, Fraction, Powers], Unit] = {}
_products: Dict[Tuple[Unit, Unit, int], Unit] = {}


def make_unit(words: Powers, size: Fraction, dimension: Powers) -> Unit:
    """Return the unit of these words, size and dimension."""
    key = (words, size, dimension)
    unit = _units.get(key)
    if unit is None:
        if len(_units) >= _MOST_KEPT:
            _units.clear()
        unit = _units[key] = Unit(words, size, dimension)
    return unit


def base_unit(dimension: Mapping[str, Exact]) -> Unit:
    """Return the unit of size 1 of a dimension."""
    powers = tuple((name, Fraction(e)) for name, e in sorted(dimension.items()) if e != 0)
    return make_unit(powers, Fraction(1), powers)


PLAIN = base_unit({})


def read_unit(text: str, size: Fraction, dimension: Powers) -> Unit:
    """Return the unit of an expression. What is not a product of powers of names becomes one word in parentheses.

    >>> read_unit("km/h", Fraction(5, 18), (("m", Fraction(1)), ("s", Fraction(-1)))).words
    (('km', Fraction(1, 1)), ('h', Fraction(-1, 1)))
    """
    if text == "1":
        return PLAIN
    words = _read_words(text)
    return make_unit(((f"({text})", Fraction(1)),) if words is None else words, size, dimension)


def _read_words(text: str) -> Optional[Powers]:
    """Return the powers in a product. A blank binds more tightly than ``/``: ``J / kg K`` is ``J / (kg K)``."""
    powers: Dict[str, Fraction] = {}
    sign = 1
    for k, piece in enumerate(re.split(r"([*/])", text)):
        if piece in ("*", "/"):
            sign = 1 if piece == "*" else -1
            continue
        factors = [_factor.fullmatch(word) for word in piece.split() if k > 0 or piece.strip() != "1"]
        if not piece.strip():
            return None
        for factor in factors:
            if factor is None or factor[1] == "per":
                return None
            powers[factor[1]] = powers.get(factor[1], Fraction(0)) + sign * read_fraction(factor[2] or "1")
    return tuple((name, e) for name, e in powers.items() if e != 0)


def product(one: Unit, other: Unit, sign: int) -> Unit:
    """Return the product of two units, or with the sign -1 their quotient."""
    key = (one, other, sign)
    unit = _products.get(key)
    if unit is None:
        size = one.size * other.size if sign == 1 else one.size / other.size
        unit = make_unit(_sum(one.words, other.words, sign), size, _sorted_sum(one, other, sign))
        if all(abs(e) <= _HIGHEST_KEPT for _, e in unit.words):
            if len(_products) >= _MOST_KEPT:
                _products.clear()
            _products[key] = unit
    return unit


def power(unit: Unit, exponent: Fraction, size: Optional[Fraction]) -> Unit:
    """Return a power of a unit. Without a size, which may be no fraction, it is the base unit of the dimension."""
    dimension = tuple((name, e * exponent) for name, e in unit.dimension if exponent != 0)
    if size is None:
        return make_unit(dimension, Fraction(1), dimension)
    return make_unit(tuple((name, e * exponent) for name, e in unit.words if exponent != 0), size, dimension)


def _sum(one: Powers, other: Powers, sign: int) -> Powers:
    exponents = dict(one)
    for name, e in other:
        exponents[name] = exponents.get(name, Fraction(0)) + sign * e
    return tuple((name, e) for name, e in exponents.items() if e != 0)


def _sorted_sum(one: Unit, other: Unit, sign: int) -> Powers:
    return tuple(sorted(_sum(one.dimension, other.dimension, sign)))
