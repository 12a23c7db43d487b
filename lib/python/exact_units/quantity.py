# SPDX-License-Identifier: MIT OR Apache-2.0
"""Quantities: exact numbers with a unit."""

from __future__ import annotations

import operator
from decimal import Decimal
from fractions import Fraction
from math import gcd
from numbers import Rational
from typing import TYPE_CHECKING, Any, Callable, Dict, List, Mapping, Optional, Tuple, Union

from .faults import ConformabilityError, DivisionByZero, UnlikeSum
from .number_text import format_fraction, html_of, latex_of, read_form, short_decimal
from .roots import fraction_root, root_or_none
from .unit import PLAIN, Unit, base_unit, power, product

if TYPE_CHECKING:
    from .units import Units

Number = Union[int, Fraction, Decimal]
# What arithmetic takes. A float or an array makes a measured result.
Operand = Union["Quantity", Number, float]


class Quantity:
    """An exact number with a unit. It is immutable and hashable.

    Arithmetic, comparisons, ``abs`` and ``round`` are exact, over other quantities and the exact numbers ``int``,
    ``Fraction`` and ``Decimal``, which are quantities without a dimension. With a ``float`` or an array the result is a
    `Measured`. Sums, order, ``//`` and ``%`` of unlike dimensions raise `UnlikeSum`; only the number 0 can be added to
    any quantity and compared with it. Equality is by value: it holds between different units, and a quantity without a
    dimension equals a number, also a ``float``.

    A quantity is shown in the unit that it was converted to. A sum keeps the unit of its first term, a product that of
    its factors. `Units.value` gives base units.

    >>> speed = Quantity(Fraction(5, 18), {"m": 1, "s": -1})
    >>> print(speed * speed / 2)
    25|648 m^2 / s^2
    >>> print((speed * speed) ** Fraction(1, 2))
    5|18 m / s
    >>> print(speed.to("km/h"), f"{speed:.3f km/h}")
    1 km / h 1.000 km / h
    >>> speed + 1
    Traceback (most recent call last):
    ...
    exact_units.faults.UnlikeSum: sum of unlike units: 5|18 m / s and 1
    """

    __slots__ = ("_top", "_bottom", "_unit", "_home")
    _top: int
    _bottom: int
    _unit: Unit
    _home: Optional["Units"]

    def __init__(self, magnitude: Number, dimension: Optional[Mapping[str, Union[int, Fraction]]] = None) -> None:
        number = exact_number(magnitude)
        if number is None:
            raise TypeError(f"not an exact number: {magnitude!r}")
        self._top, self._bottom = number
        self._unit, self._home = base_unit(dimension or {}), None

    @property
    def magnitude(self) -> Fraction:
        """The number of the unit in which the quantity is shown."""
        return Fraction(self._top, self._bottom) / self._unit.size

    @property
    def unit(self) -> str:
        """The unit in which the quantity is shown, such as ``kg m / s^2``, or ``1``."""
        return str(self._unit)

    @property
    def dimension(self) -> Dict[str, Fraction]:
        """The exponents other than 0, by the name of the base unit."""
        return dict(self._unit.dimension)

    def conforms(self, other: "Quantity") -> bool:
        """Return whether both have the same dimension."""
        return self._unit.dimension == other._unit.dimension

    def to(self, unit: str) -> "Quantity":
        """Return the same quantity, shown in a unit, by a function such as ``tempC``, or in a list such as ``ft;in``.

        Raises `ConformabilityError` if the dimension of the unit differs, and the exception of any other fault.
        """
        return self._units().show(self, unit)

    def to_base(self) -> "Quantity":
        """Return the same quantity, shown in base units."""
        return make_quantity(self._top, self._bottom, base_unit(self.dimension), self._home)

    def number(self, unit: str) -> Fraction:
        """Return how many of a unit the quantity is. Raises the exceptions of `to`."""
        return self.to(unit).magnitude

    def conforming(self) -> List[str]:
        """Return the names of the units that the quantity can be converted to."""
        return self._units().conforming(self)

    def _units(self) -> "Units":
        from .units import default_units

        return self._home or default_units()

    def __reduce__(self) -> Tuple[Any, ...]:
        return make_quantity, (self._top, self._bottom, self._unit)

    def __copy__(self) -> "Quantity":
        return self

    def __deepcopy__(self, _: Any) -> "Quantity":
        return self

    def __repr__(self) -> str:
        if self._unit.words != self._unit.dimension:
            return f"<{type(self).__name__} {self}>"
        return f"Quantity({self.magnitude!r}, {self.dimension!r})"

    def __str__(self) -> str:
        return self._text("")

    def __format__(self, specification: str) -> str:
        form = read_form(specification)
        return (self if form.unit is None else self.to(form.unit))._text(form.number)

    def _text(self, form: str) -> str:
        """Return the quantity as a text, with its number by the specification of a float."""
        return format_fraction(self.magnitude, form) + self._unit.suffix

    def _repr_html_(self) -> str:
        return html_of(short_decimal(self.magnitude), self._unit.words)

    def _repr_latex_(self) -> Optional[str]:
        return latex_of(short_decimal(self.magnitude), self._unit.words)

    def __hash__(self) -> int:
        number = hash(Fraction(self._top, self._bottom))
        return hash((number, self._unit.dimension)) if self._unit.dimension else number

    def __bool__(self) -> bool:
        return self._top != 0

    def __float__(self) -> float:
        if self._unit.dimension:
            raise ConformabilityError(f"not a plain number: {self}")
        return self._top / self._bottom

    def __eq__(self, other: object) -> bool:
        that = other if type(other) is Quantity else _operand(other)
        if that is None:
            if not isinstance(other, float):
                return NotImplemented
            return not self._unit.dimension and Fraction(self._top, self._bottom) == other
        if self._top != that._top or self._bottom != that._bottom:
            return False
        return self._unit is that._unit or self._unit.dimension == that._unit.dimension

    def __lt__(self, other: Operand) -> bool:
        return self._compare(operator.lt, other)

    def __le__(self, other: Operand) -> bool:
        return self._compare(operator.le, other)

    def __gt__(self, other: Operand) -> bool:
        return self._compare(operator.gt, other)

    def __ge__(self, other: Operand) -> bool:
        return self._compare(operator.ge, other)

    def _compare(self, act: Callable[[Any, Any], bool], other: object) -> bool:
        that = other if type(other) is Quantity else _operand(other)
        if that is not None:
            self._check_alike(that)
            return act(self._top * that._bottom, that._top * self._bottom)
        if not isinstance(other, float):
            return NotImplemented
        if self._unit.dimension and other != 0:
            raise UnlikeSum(f"sum of unlike units: {self} and {other}")
        return act(Fraction(self._top, self._bottom), other)

    def __abs__(self) -> "Quantity":
        return make_quantity(abs(self._top), self._bottom, self._unit, self._home)

    def __neg__(self) -> "Quantity":
        return make_quantity(-self._top, self._bottom, self._unit, self._home)

    def __pos__(self) -> "Quantity":
        return self

    def __round__(self, digits: int = 0) -> "Quantity":
        size = self._unit.size
        return _from_fraction(round(self.magnitude, digits) * size, self._unit, self._home)

    def __add__(self, other: Any) -> Any:
        return self._sum(other, 1)

    def __radd__(self, other: Any) -> Any:
        that = _operand(other)
        return _measured(operator.add, other, self) if that is None else that._sum(self, 1)

    def __sub__(self, other: Any) -> Any:
        return self._sum(other, -1)

    def __rsub__(self, other: Any) -> Any:
        that = _operand(other)
        return _measured(operator.sub, other, self) if that is None else that._sum(self, -1)

    def _sum(self, other: Any, sign: int) -> Any:
        that = other if type(other) is Quantity else _operand(other)
        if that is None:
            return _measured(operator.add if sign == 1 else operator.sub, self, other)
        one, two = self._unit, that._unit
        if one is not two and one.dimension != two.dimension:
            self._check_alike(that)
            if not one.dimension:
                one = two
        top = self._top * that._bottom + sign * that._top * self._bottom
        return _reduced(top, self._bottom * that._bottom, one, self._home or that._home)

    def __mul__(self, other: Any) -> Any:
        that = other if type(other) is Quantity else _operand(other)
        if that is None:
            return _measured(operator.mul, self, other)
        unit = self._unit if that._unit is PLAIN else product(self._unit, that._unit, 1)
        return _reduced(self._top * that._top, self._bottom * that._bottom, unit, self._home or that._home)

    def __rmul__(self, other: Any) -> Any:
        that = _operand(other)
        return _measured(operator.mul, other, self) if that is None else that * self

    def __truediv__(self, other: Any) -> Any:
        that = other if type(other) is Quantity else _operand(other)
        if that is None:
            return _measured(operator.truediv, self, other)
        top, bottom = self._top * that._bottom, self._bottom * that._top
        if bottom == 0:
            raise DivisionByZero("division by zero")
        unit = self._unit if that._unit is PLAIN else product(self._unit, that._unit, -1)
        return _reduced(*((top, bottom) if bottom > 0 else (-top, -bottom)), unit, self._home or that._home)

    def __rtruediv__(self, other: Any) -> Any:
        that = _operand(other)
        return _measured(operator.truediv, other, self) if that is None else that / self

    def __floordiv__(self, other: Any) -> Any:
        that = _operand(other)
        if that is None:
            return _measured(operator.floordiv, self, other)
        self._check_alike(that)
        if that._top == 0:
            raise DivisionByZero("division by zero")
        return make_quantity(self._top * that._bottom // (self._bottom * that._top), 1, PLAIN, self._home or that._home)

    def __rfloordiv__(self, other: Any) -> Any:
        that = _operand(other)
        return _measured(operator.floordiv, other, self) if that is None else that // self

    def __mod__(self, other: Any) -> Any:
        that = _operand(other)
        return _measured(operator.mod, self, other) if that is None else self - that * (self // that)

    def __rmod__(self, other: Any) -> Any:
        that = _operand(other)
        return _measured(operator.mod, other, self) if that is None else that % self

    def __divmod__(self, other: Any) -> Any:
        quotient = self.__floordiv__(other)
        return NotImplemented if quotient is NotImplemented else (quotient, self.__mod__(other))

    def __rdivmod__(self, other: Any) -> Any:
        quotient = self.__rfloordiv__(other)
        return NotImplemented if quotient is NotImplemented else (quotient, self.__rmod__(other))

    def __pow__(self, exponent: Any) -> Any:
        number = exact_number(exponent)
        if number is None:
            return _measured(operator.pow, self, exponent)
        if self._top == 0 and number[0] < 0:
            raise DivisionByZero("division by zero")
        exact, size = Fraction(*number), root_or_none(self._unit.size, number[1])
        unit = power(self._unit, exact, None if size is None else size ** number[0])
        root = fraction_root(Fraction(self._top, self._bottom), number[1])
        return _from_fraction(root ** number[0], unit, self._home)

    def __array_ufunc__(self, ufunc: Any, method: str, *inputs: Any, **options: Any) -> Any:
        from .numpy_functions import call_ufunc

        act = _EXACT_UFUNCS.get(ufunc.__name__) if method == "__call__" and not options else None
        operands = [_operand(x) for x in inputs]
        if act is not None and None not in operands:
            # A whole number of numpy is exact.
            return act(*operands)
        return call_ufunc(ufunc, method, inputs, options)

    def __array_function__(self, function: Any, _types: Any, arguments: Any, options: Any) -> Any:
        from .numpy_functions import call_function

        return call_function(function, arguments, options)

    def _check_alike(self, other: "Quantity") -> None:
        """Raise `UnlikeSum` unless the dimensions are equal, or one of the two is the number 0."""
        one, two = self._unit.dimension, other._unit.dimension
        if one != two and (one or self._top != 0) and (two or other._top != 0):
            raise UnlikeSum(f"sum of unlike units: {self} and {other}")


def exact_number(x: object) -> Optional[Tuple[int, int]]:
    """Return numerator and denominator of an exact number, or None for anything else, such as the decimal NaN."""
    if type(x) is int:
        return x, 1
    if isinstance(x, Rational):
        return int(x.numerator), int(x.denominator)
    return x.as_integer_ratio() if isinstance(x, Decimal) and x.is_finite() else None


def make_quantity(top: int, bottom: int, unit: Unit, home: Optional["Units"] = None) -> Quantity:
    """Return a quantity of top/bottom base units, in lowest terms, that is shown in a unit."""
    quantity = _new(Quantity)
    quantity._top, quantity._bottom, quantity._unit, quantity._home = top, bottom, unit, home
    return quantity


_new = object.__new__
_EXACT_UFUNCS: Dict[str, Callable[[Any, Any], Any]] = {
    "add": operator.add, "subtract": operator.sub, "multiply": operator.mul, "divide": operator.truediv,
    "true_divide": operator.truediv, "floor_divide": operator.floordiv, "remainder": operator.mod,
    "divmod": divmod, "equal": operator.eq, "not_equal": operator.ne, "less": operator.lt, "less_equal": operator.le,
    "greater": operator.gt, "greater_equal": operator.ge,
}


def _reduced(top: int, bottom: int, unit: Unit, home: Optional["Units"]) -> Quantity:
    divisor = gcd(top, bottom)
    quantity = _new(Quantity)
    quantity._top, quantity._bottom, quantity._unit, quantity._home = top // divisor, bottom // divisor, unit, home
    return quantity


def _from_fraction(x: Fraction, unit: Unit, home: Optional["Units"]) -> Quantity:
    return make_quantity(x.numerator, x.denominator, unit, home)


def _operand(x: object) -> Optional[Quantity]:
    """Return a quantity or an exact number as a quantity, or None."""
    if isinstance(x, Quantity):
        return x
    number = exact_number(x)
    return None if number is None else make_quantity(*number, PLAIN)


def _measured(act: Callable[[Any, Any], Any], one: Any, other: Any) -> Any:
    """Return the measured result of two operands, of which one is a quantity, or `NotImplemented`."""
    from .measured import as_measured

    first, second = as_measured(one), as_measured(other)
    if first is None or second is None or type(one) is type(second) or type(other) is type(first):
        return NotImplemented
    return act(first, second)
