# SPDX-License-Identifier: MIT OR Apache-2.0
"""Linear conversions of floats and of arrays of them, to the floats nearest to the exact results."""

from __future__ import annotations

import math
from fractions import Fraction
from typing import Any, NamedTuple, Tuple

# Of an array. The temporary arrays of a block stay in a cache of 1 MB.
_BLOCK = 16_384
# The bits of a float that the upper half of a split keeps: 26 of 53, with the leading one that is not stored.
_UPPER_BITS = ~((1 << 27) - 1)
# A sum in two floats errs by less than 2^-76 of its product and 2^-102 of its offset.
_SLACK_OF_PRODUCT, _SLACK_OF_OFFSET = Fraction(1, 2**74), Fraction(1, 2**100)
# Below it, half a product may have no normal float.
_TINY = 2.0**-900


def load_numpy() -> Any:
    """Return the module numpy, which the exact part of the package does without."""
    import numpy

    return numpy


class Line(NamedTuple):
    """The conversion of x to ``ratio * x + offset``."""

    ratio: Fraction
    offset: Fraction = Fraction(0)

    def number(self, x: float) -> float:
        """Return the float nearest to the exact result. It is infinite if that is beyond the largest float.

        >>> Line(Fraction(381, 1250)).number(60.0), Line(Fraction(5, 9), Fraction(-160, 9)).number(72.0)
        (18.288, 22.22222222222222)
        """
        if not math.isfinite(x) or (x == 0 and not self.offset):
            return x if self.ratio > 0 else -x
        n, d = x.as_integer_ratio()
        (top, bottom), (first, below) = self.ratio.as_integer_ratio(), self.offset.as_integer_ratio()
        numerator, denominator = n * top * below + first * d * bottom, d * bottom * below
        try:
            # Python rounds the quotient of two integers to the nearest float.
            return numerator / denominator
        except OverflowError:
            return math.inf if numerator > 0 else -math.inf

    def array(self, x: Any) -> Any:
        """Return an array of the nearest floats. Masked numbers stay masked, NaN stays NaN."""
        numpy = load_numpy()
        if self.ratio < 0:
            return -Line(-self.ratio, -self.offset).array(x)
        if isinstance(x, numpy.ma.MaskedArray):
            return numpy.ma.array(self.array(x.data), mask=numpy.ma.getmask(x).copy())
        if not self.offset:
            # One operation of floats rounds once.
            if is_float(self.ratio):
                return numpy.multiply(x, float(self.ratio))
            if is_float(1 / self.ratio):
                return numpy.divide(x, float(1 / self.ratio))
        flat = numpy.ascontiguousarray(x, dtype=float).reshape(-1)
        result = numpy.empty(flat.size)
        _Blocks(self, flat).convert(flat, result)
        return result.reshape(numpy.shape(x))


def is_float(x: Fraction) -> bool:
    """Return whether a fraction is a float of the usual range."""
    return Fraction(1, 2**1000) < abs(x) < 2**1000 and Fraction(float(x)) == x


class _Blocks:
    """The conversion of an array, block by block, in floats that are sums of two.

    The product of the upper halves of number and ratio is a float. All other terms are small, and so is their error.
    So the exact result lies between two sums. If both round to the same float, it is the nearest one. The few others
    are computed with fractions.
    """

    def __init__(self, line: Line, numbers: Any) -> None:
        numpy = load_numpy()
        self._line, self._numpy = line, numpy
        ratio, offset = line
        mantissa, exponent = math.frexp(float(ratio))
        self._ratio = float(ratio)
        self._upper = math.ldexp(math.trunc(mantissa * 2**26), exponent - 26)
        slack = ratio * _SLACK_OF_PRODUCT
        lower = ratio - Fraction(self._upper)
        self._lower, self._slack = float(lower), float(slack)
        self._least_lower = float(lower - slack)
        self._offset = float(offset)
        self._rest = float(offset - Fraction(self._offset))
        self._offset_slack = float(abs(offset) * _SLACK_OF_OFFSET)
        size = min(_BLOCK, numbers.size)
        self._rooms = [numpy.empty(size) for _ in range(6 if offset else 4)]
        self._differs = numpy.empty(size, dtype=bool)

    def convert(self, numbers: Any, result: Any) -> None:
        """Write the results for all numbers."""
        is_usual = Fraction(1, 2**300) < self._line.ratio < 2**300
        for start in range(0, numbers.size, _BLOCK):
            one, other = numbers[start : start + _BLOCK], result[start : start + _BLOCK]
            if not is_usual:
                self._convert_exactly(one, other, self._numpy.ones(one.size, dtype=bool))
                continue
            try:
                doubtful = self._convert_block(one, other)
            except FloatingPointError:
                tiny = (abs(one * self._ratio) < _TINY) & (one != 0)
                doubtful = self._convert_block(self._numpy.where(tiny, 0.0, one), other) | tiny
            if doubtful.any():
                self._convert_exactly(one, other, doubtful)

    def _convert_block(self, x: Any, result: Any) -> Any:
        """Write the results for a block, and return which are doubtful. Raises `FloatingPointError` on underflow."""
        numpy = self._numpy
        upper, terms, other, room = (space[: x.size] for space in self._rooms[:4])
        with numpy.errstate(under="raise", over="ignore", invalid="ignore"):
            numpy.bitwise_and(x.view(numpy.int64), _UPPER_BITS, out=upper.view(numpy.int64))
            numpy.subtract(upper, x, out=terms)
            numpy.multiply(terms, -self._ratio, out=terms)
            numpy.multiply(upper, self._lower if self._line.offset else self._least_lower, out=other)
            numpy.add(terms, other, out=terms)
            if self._line.offset:
                upper, high = self._add_offset(upper, terms, other, room)
            else:
                high = numpy.multiply(upper, 2 * self._slack, out=other)
                numpy.add(terms, high, out=high)
                numpy.multiply(upper, self._upper, out=upper)
            numpy.add(upper, terms, out=result)
            numpy.add(upper, high, out=high)
        return numpy.not_equal(result, high, out=self._differs[: x.size])

    def _add_offset(self, upper: Any, terms: Any, slack: Any, room: Any) -> Tuple[Any, Any]:
        """Add the offset to a product. Return the larger part of the sum, and the highest value of the smaller one.

        The lowest value of the smaller part gets into `terms`.
        """
        numpy = self._numpy
        numpy.abs(upper, out=slack)
        numpy.multiply(slack, self._slack, out=slack)
        numpy.add(slack, self._offset_slack, out=slack)
        product = numpy.multiply(upper, self._upper, out=upper)
        total = numpy.add(product, self._offset, out=room)
        # The error of a sum of two floats is a float, which these steps find.
        part = numpy.subtract(total, product, out=self._rooms[4][: total.size])
        error = numpy.subtract(total, part, out=self._rooms[5][: total.size])
        numpy.subtract(product, error, out=error)
        numpy.subtract(self._offset, part, out=part)
        numpy.add(error, part, out=error)
        numpy.add(error, self._rest, out=error)
        numpy.add(terms, error, out=terms)
        high = numpy.add(terms, slack, out=part)
        numpy.subtract(terms, slack, out=terms)
        return total, high

    def _convert_exactly(self, x: Any, result: Any, chosen: Any) -> None:
        numpy, number = self._numpy, self._line.number
        not_a_number = numpy.isnan(x)
        result[not_a_number] = numpy.nan
        places = numpy.flatnonzero(chosen & ~not_a_number)
        result[places] = [number(value) for value in x[places].tolist()]
