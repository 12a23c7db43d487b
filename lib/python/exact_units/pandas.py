# SPDX-License-Identifier: MIT OR Apache-2.0
"""Columns of measured numbers in pandas: ``import exact_units.pandas`` makes ``dtype="unit[ft]"`` known.

It needs pandas 1.5 or later. NaN is a missing value.
"""

from __future__ import annotations

import operator
import re
from fractions import Fraction
from typing import Any, Callable, List, Optional, Sequence, Tuple, Union

import numpy
import pandas  # type: ignore[import]
from pandas.api.extensions import (  # type: ignore[import]
    ExtensionArray,
    ExtensionDtype,
    register_extension_dtype,
    register_series_accessor,
    take,
)
from pandas.api.indexers import check_array_indexer  # type: ignore[import]

from .faults import ConformabilityError, UnitsError
from .floats import object_array
from .lines import Scale
from .measured import Measured, as_measured, make_measured
from .unit import Powers, Unit
from .units import Units, default_units

_name = re.compile(r"unit\[(.+)\]", re.DOTALL)
_REDUCTIONS = frozenset({"sum", "mean", "min", "max", "median", "std", "var"})


@register_extension_dtype
class UnitDtype(ExtensionDtype):  # type: ignore[misc]
    """The type of a column of floats with a unit, or on a scale. Its name is ``unit[ft]``."""

    _metadata = ("name", "size", "dimension")
    type = Measured
    kind = "f"
    na_value = numpy.nan

    def __init__(self, unit: Union[str, Unit, Scale], units: Optional[Units] = None) -> None:
        target = (units or default_units()).target(unit) if isinstance(unit, str) else unit
        if not isinstance(target, (Unit, Scale)):
            raise ConformabilityError(f"a list of units: {unit}")
        self.unit, self.units = target, units

    @property
    def name(self) -> str:
        """The name of the type."""
        return f"unit[{self.unit}]"

    @property
    def size(self) -> Optional[Fraction]:
        """The size of the unit in base units, or None for a scale."""
        return self.unit.size if isinstance(self.unit, Unit) else None

    @property
    def dimension(self) -> Optional[Powers]:
        """The exponents of the unit, or None for a scale."""
        return self.unit.dimension if isinstance(self.unit, Unit) else None

    @classmethod
    def construct_array_type(cls) -> Any:
        """Return the class of the columns."""
        return UnitArray

    @classmethod
    def construct_from_string(cls, string: str) -> "UnitDtype":
        """Return the type of a name, by the definitions of `default_units`. Raises `TypeError` for another name."""
        match = _name.fullmatch(string) if isinstance(string, str) else None
        if match is None:
            raise TypeError(f"not a type of units: {string!r}")
        try:
            return cls(match[1])
        except UnitsError as fault:
            raise TypeError(f"not a type of units: {string!r}: {fault}") from fault

    def __reduce__(self) -> Tuple[Any, ...]:
        return UnitDtype, (self.unit,)

    def _get_common_dtype(self, dtypes: List[Any]) -> Any:
        units = [dtype.unit for dtype in dtypes if isinstance(dtype, UnitDtype)]
        if len(units) < len(dtypes) or not all(_conform(units[0], unit) for unit in units):
            return None
        return next(dtype for dtype in dtypes if dtype.unit is units[0])


def _conform(one: Union[Unit, Scale], other: Union[Unit, Scale]) -> bool:
    return one == other or (isinstance(one, Unit) and isinstance(other, Unit) and one.conforms(other))


class UnitArray(ExtensionArray):  # type: ignore[misc]
    """A column of floats with a unit. Arithmetic and conversions are those of `Measured`."""

    def __init__(self, numbers: Any, dtype: Union[str, UnitDtype]) -> None:
        self._dtype = UnitDtype.construct_from_string(dtype) if isinstance(dtype, str) else dtype
        self._numbers = numpy.asarray(numbers, dtype=float)

    @property
    def dtype(self) -> UnitDtype:
        """The type of the column."""
        return self._dtype

    @property
    def nbytes(self) -> int:
        """The size of the numbers."""
        return int(self._numbers.nbytes)

    @property
    def measured(self) -> Measured:
        """The column as a measured array. It is not a copy."""
        return make_measured(self._numbers, self._dtype.unit, self._dtype.units)

    def to(self, unit: str) -> "UnitArray":
        """Return the column in another unit or on another scale. Missing values stay missing."""
        return column(self.measured.to(unit))

    @classmethod
    def _from_sequence(cls, scalars: Any, *, dtype: Any = None, copy: bool = False) -> "UnitArray":
        if isinstance(dtype, str):
            dtype = UnitDtype.construct_from_string(dtype)
        if isinstance(scalars, UnitArray):
            same: UnitArray = scalars.copy() if dtype is None else scalars.astype(dtype)
            return same
        if isinstance(scalars, Measured):
            return column(scalars) if dtype is None else cls(scalars._value_in(dtype.unit), dtype)
        if getattr(scalars, "dtype", None) is not None and scalars.dtype != object and dtype is not None:
            return cls(pandas.array(scalars).to_numpy(dtype=float, na_value=numpy.nan), dtype)
        items = list(scalars)
        if dtype is None:
            first = next((x for x in map(as_measured, items) if x is not None), None)
            if first is None:
                raise TypeError("no unit: name a dtype such as unit[ft]")
            dtype = UnitDtype(first._unit, first._home)
        return cls([_number(x, dtype) for x in items], dtype)

    @classmethod
    def _from_sequence_of_strings(cls, strings: Sequence[str], *, dtype: Any = None, copy: bool = False) -> "UnitArray":
        return cls._from_sequence(pandas.to_numeric(pandas.Series(strings)).to_numpy(), dtype=dtype)

    @classmethod
    def _from_factorized(cls, values: Any, original: "UnitArray") -> "UnitArray":
        return cls(values, original._dtype)

    @classmethod
    def _concat_same_type(cls, to_concat: Sequence["UnitArray"]) -> "UnitArray":
        return cls(numpy.concatenate([one._numbers for one in to_concat]), to_concat[0]._dtype)

    def __len__(self) -> int:
        return len(self._numbers)

    def __getitem__(self, item: Any) -> Any:
        chosen = self._numbers[check_array_indexer(self, item)]
        if isinstance(chosen, numpy.ndarray):
            return UnitArray(chosen, self._dtype)
        return self._dtype.na_value if numpy.isnan(chosen) else self._scalar(chosen)

    def _scalar(self, number: Any) -> Measured:
        return make_measured(number, self._dtype.unit, self._dtype.units)

    def __setitem__(self, key: Any, value: Any) -> None:
        if isinstance(value, (list, tuple, numpy.ndarray, ExtensionArray, pandas.Series, pandas.Index)):
            numbers = self._from_sequence(value, dtype=self._dtype)._numbers
        else:
            numbers = _number(value, self._dtype)
        self._numbers[check_array_indexer(self, key)] = numbers

    def isna(self) -> Any:
        """Return where values are missing."""
        return numpy.isnan(self._numbers)

    def take(self, indices: Any, *, allow_fill: bool = False, fill_value: Any = None) -> "UnitArray":
        """Return the values at some places."""
        fill = _number(fill_value, self._dtype) if allow_fill else None
        return UnitArray(take(self._numbers, indices, fill_value=fill, allow_fill=allow_fill), self._dtype)

    def copy(self) -> "UnitArray":
        """Return a copy."""
        return UnitArray(self._numbers.copy(), self._dtype)

    def astype(self, dtype: Any, copy: bool = True) -> Any:
        """Return the column as another type: in a unit that conforms, or its numbers as ``float``, or as texts."""
        target = pandas.api.types.pandas_dtype(dtype)
        if isinstance(target, UnitDtype):
            if target == self._dtype:
                return self.copy() if copy else self
            return UnitArray(self.measured._value_in(target.unit), target)
        if target.kind == "f" and not isinstance(target, ExtensionDtype):
            return self._numbers.astype(target)
        if target.kind in "US" and not isinstance(target, ExtensionDtype):
            return object_array([str(x) for x in self]).astype(target)
        return super().astype(target, copy)

    def unique(self) -> "UnitArray":
        """Return the values without repetition."""
        return UnitArray(pandas.unique(self._numbers), self._dtype)

    def round(self, decimals: int = 0, *_: Any) -> "UnitArray":
        """Return the numbers rounded to so many decimals."""
        return UnitArray(self._numbers.round(decimals), self._dtype)

    def _rank(self, *, axis: int = 0, **options: Any) -> Any:
        return pandas.Series(self._numbers).rank(**options).to_numpy()

    def _accumulate(self, name: str, *, skipna: bool = True, **options: Any) -> "UnitArray":
        if name == "cumprod":
            raise TypeError("no cumprod of a column with a unit")
        self.measured._plain_unit()
        return UnitArray(getattr(pandas.Series(self._numbers), name)(skipna=skipna), self._dtype)

    def __array__(self, dtype: Any = None, copy: Any = None) -> Any:
        objects = object_array(list(self))
        return objects if dtype is None or dtype == object else objects.astype(dtype)

    def __array_ufunc__(self, ufunc: Any, method: str, *inputs: Any, **options: Any) -> Any:
        if any(isinstance(x, (pandas.Series, pandas.Index, pandas.DataFrame)) for x in inputs):
            return NotImplemented
        from .numpy_functions import call_ufunc

        operands = tuple(x.measured if isinstance(x, UnitArray) else x for x in inputs)
        result = call_ufunc(ufunc, method, operands, options)
        return column(result) if isinstance(result, Measured) and not isinstance(result._value, float) else result

    def _values_for_argsort(self) -> Any:
        return self._numbers

    def _values_for_factorize(self) -> Tuple[Any, float]:
        return self._numbers, numpy.nan

    def value_counts(self, dropna: bool = True) -> Any:
        """Return how often each value occurs."""
        counts = pandas.Series(self._numbers).value_counts(dropna=dropna)
        return pandas.Series(counts.to_numpy(), index=pandas.Index(UnitArray(counts.index, self._dtype)))

    def _formatter(self, boxed: bool = False) -> Callable[[Any], str]:
        return (lambda x: str(x)) if boxed else repr

    def _reduce(self, name: str, *, skipna: bool = True, **options: Any) -> Any:
        if name not in _REDUCTIONS:
            raise TypeError(f"no {name} of a column with a unit")
        if name != "min" and name != "max":
            self.measured._plain_unit()
        number = getattr(pandas.Series(self._numbers), name)(skipna=skipna, **options)
        one = self._scalar(1.0)
        return make_measured(number, (one * one)._unit if name == "var" else one._unit, one._home)


def column(measured: Measured) -> UnitArray:
    """Return a measured array as a column: ``pandas.Series(column(measured))``."""
    return UnitArray(measured._value, UnitDtype(measured._unit, measured._home))


def _number(x: Any, dtype: UnitDtype) -> float:
    """Return a value as a number of a column: a plain number counts in the unit of the column."""
    if isinstance(x, Measured) or hasattr(x, "_top"):
        number = as_measured(x)._value_in(dtype.unit)  # type: ignore[union-attr]
        return float(number)
    if x is None or x is pandas.NA or x is pandas.NaT:
        return float("nan")
    if isinstance(x, (str, bytes, complex)):
        raise TypeError(f"not a number: {x!r:.80}")
    return float(x)


def _operator(act: Callable[[Any, Any], Any], is_reflected: bool = False) -> Any:
    def method(self: UnitArray, other: Any) -> Any:
        if isinstance(other, (pandas.Series, pandas.Index, pandas.DataFrame)):
            return NotImplemented
        if isinstance(other, UnitArray):
            other = other.measured
        elif isinstance(other, (list, ExtensionArray)):
            other = pandas.array(other).to_numpy(dtype=float, na_value=numpy.nan)
        elif other is pandas.NA or other is None:
            other = float("nan")
        result = act(other, self.measured) if is_reflected else act(self.measured, other)
        return column(result) if isinstance(result, Measured) else result

    return method


for _word in ("add", "sub", "mul", "truediv", "floordiv", "mod", "pow"):
    setattr(UnitArray, f"__{_word}__", _operator(getattr(operator, _word)))
    if _word != "pow":
        setattr(UnitArray, f"__r{_word}__", _operator(getattr(operator, _word), True))
for _word in ("eq", "ne", "lt", "le", "gt", "ge"):
    setattr(UnitArray, f"__{_word}__", _operator(getattr(operator, _word)))
for _word in ("neg", "pos", "abs"):
    setattr(UnitArray, f"__{_word}__", lambda self, act=getattr(operator, _word): column(act(self.measured)))


@register_series_accessor("unit")
class UnitAccessor:
    """``series.unit`` of a column with a unit."""

    def __init__(self, series: Any) -> None:
        if not isinstance(series.dtype, UnitDtype):
            raise AttributeError("a column without a unit: take .astype('unit[ft]')")
        self._series = series

    @property
    def name(self) -> str:
        """The unit of the column, or its scale."""
        return str(self._series.dtype.unit)

    @property
    def measured(self) -> Measured:
        """The column as a measured array. It is not a copy."""
        measured: Measured = self._series.array.measured
        return measured

    def to(self, unit: str) -> Any:
        """Return the column in another unit or on another scale, with its index and name."""
        return pandas.Series(self._series.array.to(unit), index=self._series.index, name=self._series.name)
