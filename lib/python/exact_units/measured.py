# SPDX-License-Identifier: MIT OR Apache-2.0
"""Measured numbers: floats, or numpy arrays of floats, with a unit."""

from __future__ import annotations

import copy
import operator
import sys
from fractions import Fraction
from typing import TYPE_CHECKING, Any, Callable, Dict, Iterator, List, Optional, Tuple, Union

from .faults import ConformabilityError, ScaleFault, UnlikeSum
from .floats import exponent_of, float_value, object_array
from .lines import Scale, line_between
from .nearest import Line, load_numpy
from .number_text import html_of, latex_of, read_form
from .quantity import Quantity, exact_number
from .roots import root_or_none
from .unit import PLAIN, Unit, power, product

if TYPE_CHECKING:
    from .units import Units

# Methods of an array that are functions of numpy.
_METHODS = frozenset(
    "all any argmax argmin argsort clip copy cumsum diagonal dot max mean min nonzero ptp ravel repeat reshape round "
    "searchsorted squeeze std sum swapaxes take trace transpose var".split()
)
_ATTRIBUTES = frozenset({"shape", "ndim", "size", "dtype", "T"})


class Measured:
    """A float, or a numpy array of floats, with a unit or on a scale such as ``tempF``.

    `to` multiplies by the exact ratio of the units, and returns the float nearest to the exact result. Arithmetic is
    that of floats: the other operand is first converted to the unit of the first one. An exact quantity or number
    becomes the nearest float. Only the number 0 can be added to any unit and compared with it.

    The functions of numpy that ``docs/C_AND_PYTHON.md`` lists take measured arrays.

    >>> length = Measured(2.5, "ft")
    >>> print(length.to("m"), length + Measured(6, "in"), length * 2, f"{length:.1f cm}")
    0.762 m 3.0 ft 5.0 ft 76.2 cm
    """

    __slots__ = ("_value", "_unit", "_home")
    # Equality is that of floats, after a rounded conversion. So there is no hash that agrees with it.
    __hash__ = None  # type: ignore[assignment]
    _value: Any
    _unit: Union[Unit, Scale]
    _home: Optional["Units"]

    def __init__(self, value: Any, unit: str = "1", units: Optional["Units"] = None) -> None:
        from .units import default_units

        home = units or default_units()
        target = home.target(unit)
        if not isinstance(target, (Unit, Scale)):
            raise ConformabilityError(f"a list of units: {unit}")
        self._value, self._unit, self._home = float_value(value), target, home

    @property
    def value(self) -> Any:
        """The float, or the array of floats. It is not a copy."""
        return self._value

    magnitude = value

    @property
    def unit(self) -> str:
        """The unit, such as ``kg m / s^2``, or the name of the scale."""
        return str(self._unit)

    @property
    def dimension(self) -> Dict[str, Fraction]:
        """The exponents of the base units. Raises `ScaleFault` on a scale."""
        return dict(self._plain_unit().dimension)

    def to(self, unit: str, *, nearest: bool = True) -> "Measured":
        """Return it in another unit or on another scale: each number is the float nearest to the exact result.

        With ``nearest=False`` an array is multiplied by the rounded ratio, which is faster. Then a number may be the
        float beside the nearest one. Scales do not differ.

        Raises `ConformabilityError` if the dimensions differ, and the exception of any other fault.
        """
        target = self._units().target(unit)
        if not isinstance(target, (Unit, Scale)):
            raise ConformabilityError(f"a list of units: {unit}")
        return make_measured(self._value_in(target, nearest), target, self._home)

    def to_base(self) -> "Measured":
        """Return it in base units."""
        unit = self._plain_unit()
        base = power(unit, Fraction(1), None)
        return make_measured(self._value_in(base), base, self._home)

    def exact(self) -> Quantity:
        """Return the exact quantity of the binary value of the float. Raises `TypeError` for an array."""
        from .quantity import make_quantity

        if not isinstance(self._value, float):
            raise TypeError("an array is not one quantity")
        number = Fraction(self._value) * self._plain_unit().size
        return make_quantity(number.numerator, number.denominator, self._plain_unit(), self._home)

    def conforms(self, other: Union["Measured", Quantity]) -> bool:
        """Return whether both have the same dimension."""
        that = as_measured(other)
        return that is not None and self._plain_unit().conforms(that._plain_unit())

    def _units(self) -> "Units":
        from .units import default_units

        return self._home or default_units()

    def _plain_unit(self) -> Unit:
        if isinstance(self._unit, Scale):
            raise ScaleFault(f"{self._unit} is not a unit: convert to a unit first")
        return self._unit

    def _value_in(self, target: Union[Unit, Scale], nearest: bool = True) -> Any:
        """Return the numbers in a unit or on a scale. Raises `ConformabilityError`."""
        if self._unit is target:
            return self._value if isinstance(self._value, float) else self._value.copy()
        if isinstance(self._unit, Unit) and isinstance(target, Unit):
            if not self._unit.conforms(target):
                raise ConformabilityError(f"conformability error: {self._unit} and {target}")
            line = Line(self._unit.size / target.size)
            if isinstance(self._value, float):
                return line.number(self._value)
            return line.array(self._value) if nearest else self._value * float(line.ratio)
        return line_between(self._units(), self._value, self._unit, target)

    def __reduce__(self) -> Tuple[Any, ...]:
        return make_measured, (self._value, self._unit)

    def __copy__(self) -> "Measured":
        return make_measured(copy.copy(self._value), self._unit, self._home)

    def __deepcopy__(self, _: Any) -> "Measured":
        return copy.copy(self)

    def __repr__(self) -> str:
        return f"<Measured {self}>"

    def __str__(self) -> str:
        return self._text("")

    def __format__(self, specification: str) -> str:
        form = read_form(specification)
        return (self if form.unit is None else self.to(form.unit))._text(form.number)

    def _text(self, form: str) -> str:
        if isinstance(self._value, float):
            number = format(self._value, form)
        elif form:
            number = load_numpy().array2string(self._value, formatter={"float_kind": lambda x: format(x, form)})
        else:
            number = str(self._value)
        return self._unit.shown(number) if isinstance(self._unit, Scale) else number + self._unit.suffix

    def _repr_html_(self) -> str:
        number = format(self._value, ".9g") if isinstance(self._value, float) else str(self._value)
        words = ((str(self._unit), Fraction(1)),) if isinstance(self._unit, Scale) else self._unit.words
        return html_of(number, words)

    def _repr_latex_(self) -> Optional[str]:
        if not isinstance(self._value, float) or isinstance(self._unit, Scale):
            return None
        return latex_of(format(self._value, ".9g"), self._unit.words)

    def __float__(self) -> float:
        if not isinstance(self._value, float) or self._plain_unit().dimension:
            raise ConformabilityError(f"not a plain number: {self}")
        return Line(self._plain_unit().size).number(self._value)

    def __bool__(self) -> bool:
        return bool(self._value)

    def __len__(self) -> int:
        return len(self._value)

    def __iter__(self) -> Iterator["Measured"]:
        return (make_measured(x, self._unit, self._home) for x in self._value)

    def __getitem__(self, key: Any) -> "Measured":
        return make_measured(self._value[key], self._unit, self._home)

    def __setitem__(self, key: Any, value: Any) -> None:
        self._value[key] = self._alike(value, ConformabilityError)

    def __getattr__(self, name: str) -> Any:
        if isinstance(self._value, float) or (name not in _METHODS and name not in _ATTRIBUTES):
            raise AttributeError(f"no attribute of {type(self).__name__}: {name!r}")
        if name not in _METHODS:
            attribute = getattr(self._value, name)
            return make_measured(attribute, self._unit, self._home) if name == "T" else attribute
        return lambda *arguments, **options: getattr(load_numpy(), name)(self, *arguments, **options)

    def tolist(self) -> List[Any]:
        """Return the numbers as a list of floats, nested as the array."""
        numbers: List[Any] = self._value.tolist()
        return numbers

    def __array__(self, dtype: Any = None, *_: Any) -> Any:
        if not isinstance(self._value, float) or dtype not in (None, object):
            raise TypeError(
                "numpy or pandas would drop the unit: take .value, .to(unit).value, or exact_units.pandas.column"
            )
        return object_array([self]).reshape(())

    def __array_ufunc__(self, ufunc: Any, method: str, *inputs: Any, **options: Any) -> Any:
        from .numpy_functions import call_ufunc

        return call_ufunc(ufunc, method, inputs, options)

    def __array_function__(self, function: Any, _types: Any, arguments: Any, options: Any) -> Any:
        from .numpy_functions import call_function

        return call_function(function, arguments, options)

    def __abs__(self) -> "Measured":
        return make_measured(abs(self._value), self._plain_unit(), self._home)

    def __neg__(self) -> "Measured":
        return make_measured(-self._value, self._plain_unit(), self._home)

    def __pos__(self) -> "Measured":
        return self

    def __round__(self, digits: int = 0) -> "Measured":
        return make_measured(round(self._value, digits), self._unit, self._home)

    def _alike(self, other: Any, fault: Any = UnlikeSum) -> Any:
        """Return the numbers of an operand in this unit, or None if it is no number. The number 0 has any unit."""
        that = as_measured(other)
        if that is None:
            return None
        unit, other_unit = self._plain_unit(), that._plain_unit()
        if not other_unit.dimension and isinstance(that._value, float) and that._value == 0:
            return 0.0
        if not unit.conforms(other_unit):
            raise fault(f"sum of unlike units: {unit} and {other_unit}")
        return that._value_in(unit) if that._unit is not unit else that._value

    def _same_unit(self, act: Callable[[Any, Any], Any], other: Any) -> Any:
        value = self._alike(other)
        return NotImplemented if value is None else make_measured(act(self._value, value), self._unit, self._home)

    def _reflected(self, act: Callable[[Any, Any], Any], other: Any) -> Any:
        that = as_measured(other)
        return NotImplemented if that is None else act(that, self)

    def _reflected_sum(self, act: Callable[[Any, Any], Any], other: Any) -> Any:
        is_zero = isinstance(other, (int, float)) and other == 0
        return act(self * 0.0, self) if is_zero else self._reflected(act, other)

    def _compare(self, act: Callable[[Any, Any], Any], other: Any) -> Any:
        value = self._alike(other)
        return NotImplemented if value is None else act(self._value, value)

    def _times(self, other: Any, act: Callable[[Any, Any], Any], sign: int) -> Any:
        that = as_measured(other)
        if that is None:
            return NotImplemented
        unit = product(self._plain_unit(), that._plain_unit(), sign)
        return make_measured(act(self._value, that._value), unit, self._home or that._home)

    def __add__(self, other: Any) -> Any:
        return self._same_unit(operator.add, other)

    def __radd__(self, other: Any) -> Any:
        return self._reflected_sum(operator.add, other)

    def __sub__(self, other: Any) -> Any:
        return self._same_unit(operator.sub, other)

    def __rsub__(self, other: Any) -> Any:
        return self._reflected_sum(operator.sub, other)

    def __mul__(self, other: Any) -> Any:
        return self._times(other, operator.mul, 1)

    def __rmul__(self, other: Any) -> Any:
        return self._reflected(operator.mul, other)

    def __truediv__(self, other: Any) -> Any:
        return self._times(other, operator.truediv, -1)

    def __rtruediv__(self, other: Any) -> Any:
        return self._reflected(operator.truediv, other)

    def __floordiv__(self, other: Any) -> Any:
        value = self._alike(other)
        return NotImplemented if value is None else make_measured(self._value // value, PLAIN, self._home)

    def __mod__(self, other: Any) -> Any:
        return self._same_unit(operator.mod, other)

    def __divmod__(self, other: Any) -> Any:
        quotient = self.__floordiv__(other)
        return NotImplemented if quotient is NotImplemented else (quotient, self.__mod__(other))

    def __rfloordiv__(self, other: Any) -> Any:
        return self._reflected(operator.floordiv, other)

    def __rmod__(self, other: Any) -> Any:
        return self._reflected(operator.mod, other)

    def __rdivmod__(self, other: Any) -> Any:
        return self._reflected(divmod, other)

    def __pow__(self, exponent: Any) -> Any:
        number, unit = exponent_of(exponent), self._plain_unit()
        if number is None:
            return NotImplemented
        size = root_or_none(unit.size, number.denominator)
        one = self if size is not None else self.to_base()
        result = power(unit, number, None if size is None else size**number.numerator)
        value = one._value ** (int(number) if number.denominator == 1 else float(number))
        return make_measured(value, result, self._home)

    def __matmul__(self, other: Any) -> Any:
        return self._times(other, operator.matmul, 1)

    def __eq__(self, other: object) -> Any:
        try:
            return self._compare(operator.eq, other)
        except UnlikeSum:
            return False if isinstance(self._value, float) else load_numpy().zeros(self._value.shape, dtype=bool)

    def __ne__(self, other: object) -> Any:
        is_equal = self.__eq__(other)
        if is_equal is NotImplemented:
            return NotImplemented
        return not is_equal if isinstance(is_equal, bool) else ~is_equal

    def __lt__(self, other: Any) -> Any:
        return self._compare(operator.lt, other)

    def __le__(self, other: Any) -> Any:
        return self._compare(operator.le, other)

    def __gt__(self, other: Any) -> Any:
        return self._compare(operator.gt, other)

    def __ge__(self, other: Any) -> Any:
        return self._compare(operator.ge, other)


def make_measured(value: Any, unit: Union[Unit, Scale], home: Optional["Units"] = None) -> Measured:
    """Return a measured number."""
    measured = object.__new__(Measured)
    measured._value, measured._unit, measured._home = float_value(value), unit, home
    return measured


def as_measured(x: Any) -> Optional[Measured]:
    """Return a measured number, a quantity, a number or an array of numbers as a measured number, or None."""
    if isinstance(x, Measured):
        return x
    if isinstance(x, Quantity):
        return make_measured(x.magnitude, x._unit, x._home)
    numpy: Any = sys.modules.get("numpy")
    is_array = numpy is not None and isinstance(x, (numpy.ndarray, numpy.floating)) and x.dtype.kind in "fiu"
    if is_array or isinstance(x, float) or exact_number(x) is not None:
        return make_measured(x, PLAIN)
    return None
