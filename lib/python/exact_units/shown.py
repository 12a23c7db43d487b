# SPDX-License-Identifier: MIT OR Apache-2.0
"""Quantities that are shown by a function, such as ``tempC(25)``, or in a list of units, such as ``5 ft + 6 in``."""

from __future__ import annotations

import re
from fractions import Fraction
from typing import TYPE_CHECKING, Any, NamedTuple, Optional, Tuple

from .lines import Scale
from .number_text import format_fraction, html_of, short_decimal
from .quantity import Quantity
from .unit import Unit

if TYPE_CHECKING:
    from .units import Units

_fixed = re.compile(r"\.(\d{1,4})f")


class UnitList(NamedTuple):
    """The names of units that a quantity is split over."""

    names: Tuple[str, ...]

    def __str__(self) -> str:
        return ";".join(self.names)


class ScaleQuantity(Quantity):
    """A quantity that is shown as the argument of a function. Arithmetic makes plain quantities in base units.

    >>> print(Quantity(300, {"K": 1}).to("tempC"))
    tempC(537|20)
    """

    __slots__ = ("_number", "_scale")
    _number: Fraction
    _scale: Scale

    @property
    def magnitude(self) -> Fraction:
        """The argument of the function."""
        return self._number

    @property
    def unit(self) -> str:
        """The name of the function."""
        return self._scale.name

    def _text(self, form: str) -> str:
        return self._scale.shown(format_fraction(self._number, form))

    def _repr_html_(self) -> str:
        return html_of(self._scale.shown(short_decimal(self._number)), ())

    def _repr_latex_(self) -> Optional[str]:
        return None

    def __round__(self, digits: int = 0) -> Quantity:
        number = format_fraction(round(self._number, digits), "")
        return self._units().value(self._scale.shown(number)).to(self._scale.name)

    def __repr__(self) -> str:
        return f"<Quantity {self}>"

    def __reduce__(self) -> Tuple[Any, ...]:
        return on_scale, (Quantity.to_base(self), self._number, self._scale)


class ListQuantity(Quantity):
    """A quantity that is shown as a sum over a list of units. Arithmetic makes plain quantities in the first unit.

    >>> height = Quantity(Fraction(8382, 5000), {"m": 1}).to("ft;in")
    >>> print(height, height.counts)
    5 ft + 6 in (Fraction(5, 1), Fraction(6, 1))
    """

    __slots__ = ("_counts", "_names")
    _counts: Tuple[Fraction, ...]
    _names: UnitList

    @property
    def counts(self) -> Tuple[Fraction, ...]:
        """The numbers of the units of the list. All but the last one are whole."""
        return self._counts

    @property
    def unit(self) -> str:
        """The list."""
        return str(self._names)

    def _text(self, form: str) -> str:
        """Return the sum, with the last number by a specification such as ``.2f``."""
        if not form:
            return " + ".join(f"{format_fraction(x, '')} {name}" for x, name in zip(self._counts, self._names.names))
        digits = _fixed.fullmatch(form)
        if digits is None:
            raise ValueError(f"not a format of a list of units: {form!r}; it has the form '.2f'")
        *first, last = round(self, int(digits[1])).counts
        texts = [*(str(x) for x in first), format_fraction(last, form)]
        return " + ".join(f"{text} {name}" for text, name in zip(texts, self._names.names))

    def _repr_html_(self) -> str:
        return html_of(" + ".join(f"{short_decimal(x)} {name}" for x, name in zip(self._counts, self._names.names)), ())

    def _repr_latex_(self) -> Optional[str]:
        return None

    def __round__(self, digits: int = 0) -> "ListQuantity":
        rounded: Any = round(self.to(self._names.names[-1]), digits).to(str(self._names))
        return rounded  # type: ignore[no-any-return]

    def __repr__(self) -> str:
        return f"<Quantity {self}>"

    def __reduce__(self) -> Tuple[Any, ...]:
        return in_list, (Quantity.to_base(self), self._unit, self._counts, self._names)


def on_scale(quantity: Quantity, number: Fraction, scale: Scale) -> ScaleQuantity:
    """Return a quantity that is shown as a function of a number."""
    base = quantity.to_base()
    shown = object.__new__(ScaleQuantity)
    _copy(base, base._unit, shown, quantity._home)
    shown._number, shown._scale = number, scale
    return shown


def in_list(quantity: Quantity, first: Unit, counts: Tuple[Fraction, ...], names: UnitList) -> ListQuantity:
    """Return a quantity that is shown as a sum over a list of units."""
    shown = object.__new__(ListQuantity)
    _copy(quantity, first, shown, quantity._home)
    shown._counts, shown._names = counts, names
    return shown


def _copy(quantity: Quantity, unit: Unit, shown: Quantity, home: Optional["Units"]) -> None:
    shown._top, shown._bottom, shown._unit, shown._home = quantity._top, quantity._bottom, unit, home
