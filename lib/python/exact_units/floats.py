# SPDX-License-Identifier: MIT OR Apache-2.0
"""The floats of measured numbers: what is taken as one, as an array of them, and as an exponent."""

from __future__ import annotations

from fractions import Fraction
from typing import Any, Optional, Sequence

from .nearest import load_numpy
from .quantity import Quantity, exact_number


def float_value(x: Any) -> Any:
    """Return a number as the nearest float, and an array or a list of numbers as an array of floats."""
    if type(x) is float:
        return x
    if isinstance(x, float) or exact_number(x) is not None:
        return float(x)
    if not isinstance(x, (list, tuple)) and type(x).__module__.partition(".")[0] != "numpy":
        raise TypeError(f"not a number or an array: {x!r:.80}")
    numpy = load_numpy()
    if numpy.asanyarray(x).dtype.kind not in "fiuO":
        raise TypeError(f"not an array of numbers: {x!r:.80}")
    array = numpy.asanyarray(x, dtype=float)
    return array if array.ndim or isinstance(array, numpy.ma.MaskedArray) else float(array)


def object_array(items: Sequence[Any]) -> Any:
    """Return an array of these objects."""
    objects = load_numpy().empty(len(items), dtype=object)
    for place, item in enumerate(items):
        objects[place] = item
    return objects


def exponent_of(x: Any) -> Optional[Fraction]:
    """Return an exponent as a fraction: that of a float as the one with a small denominator that it is nearest to."""
    if isinstance(x, Quantity):
        x = x.magnitude if not x.dimension else None
    number = exact_number(x)
    if number is not None:
        return Fraction(*number)
    if not isinstance(x, float):
        return None
    exponent = Fraction(x).limit_denominator(1000)
    if float(exponent) != x:
        raise ValueError(f"the exponent of a unit is no small fraction: {x!r}")
    return exponent
