# SPDX-License-Identifier: MIT OR Apache-2.0
"""Exact roots of fractions."""

from __future__ import annotations

from fractions import Fraction
from typing import Optional

from .faults import NoExactRoot


def fraction_root(x: Fraction, degree: int) -> Fraction:
    """Return the exact root of a fraction. Raises `NoExactRoot` if there is none."""
    root = root_or_none(x, degree)
    if root is None:
        raise NoExactRoot("no exact root")
    return root


def root_or_none(x: Fraction, degree: int) -> Optional[Fraction]:
    """Return the root of a fraction if it is a fraction, else None."""
    if degree == 1:
        return x
    if x < 0 and degree % 2 == 0:
        return None
    top, bottom = _whole_root(abs(x.numerator), degree), _whole_root(x.denominator, degree)
    if top is None or bottom is None:
        return None
    return Fraction(top if x >= 0 else -top, bottom)


def _whole_root(n: int, degree: int) -> Optional[int]:
    """Return the root of a number if it is a whole number, else None."""
    if n < 2 or degree >= n.bit_length():
        return n if n < 2 else None
    low, high = 0, 1 << (n.bit_length() // degree + 1)
    while low < high:
        middle = (low + high) // 2
        if middle**degree < n:
            low = middle + 1
        else:
            high = middle
    return low if low**degree == n else None
