# SPDX-License-Identifier: MIT OR Apache-2.0
"""Conversions of numpy arrays and pandas series without units, to the floats nearest to the exact results."""

from __future__ import annotations

from typing import Any

from .faults import ConformabilityError
from .lines import Scale
from .measured import make_measured
from .unit import Unit
from .units import Units


def convert_array(units: Units, array: Any, source: str, target: str) -> Any:
    """Return a numpy array of floats of the same shape: each number of `source` in `target`.

    NaN and infinities stay, and masked numbers stay masked. A function, such as ``tempF``, is a scale.

    Raises `ConformabilityError` if the dimensions differ, and the fault of a function for a number out of its domain.
    """
    import numpy

    one, unit = units.target(source), units.target(target)
    if not isinstance(one, (Unit, Scale)) or not isinstance(unit, (Unit, Scale)):
        raise ConformabilityError(f"a list of units: {source} or {target}")
    numbers = numpy.asanyarray(array, dtype=float)
    if not numbers.ndim:
        return numpy.array(make_measured(float(numbers), one, units)._value_in(unit))
    return make_measured(numbers, one, units)._value_in(unit)


def convert_series(units: Units, series: Any, source: str, target: str) -> Any:
    """Return a pandas series with the index and the name of `series`, converted as by `convert_array`.

    A missing value becomes NaN.
    """
    import pandas  # type: ignore[import]

    numbers = series.to_numpy(dtype=float, na_value=float("nan"))
    return pandas.Series(convert_array(units, numbers, source, target), index=series.index, name=series.name)
