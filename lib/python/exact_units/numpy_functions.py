# SPDX-License-Identifier: MIT OR Apache-2.0
"""The functions of numpy over measured arrays.

Each row of a table has the names of functions whose arguments and result have units by the same rule.
"""

from __future__ import annotations

import inspect
from fractions import Fraction
from typing import Any, Callable, Dict, List, Tuple

from .faults import ConformabilityError, UnlikeSum
from .measured import Measured, as_measured, make_measured
from .unit import PLAIN, Unit, product

Rule = Callable[[Any, List[Measured], Dict[str, Any]], Any]


def _words(text: str) -> List[str]:
    return text.split()


# Of universal functions: those whose operands have one unit, which is that of the result, or whose result is plain.
ALIKE = _words("add subtract maximum minimum fmax fmin hypot remainder fmod nextafter negative positive absolute fabs "
               "rint floor ceil trunc conjugate")
COMPARISONS = _words("less less_equal greater greater_equal equal not_equal floor_divide")
PREDICATES = _words("isfinite isinf isnan signbit sign logical_not logical_and logical_or logical_xor")
PRODUCTS = {"multiply": 1, "matmul": 1, "divide": -1, "true_divide": -1}
POWERS = {"sqrt": Fraction(1, 2), "cbrt": Fraction(1, 3), "square": Fraction(2), "reciprocal": Fraction(-1)}
PLAIN_NUMBERS = _words("exp exp2 expm1 log log2 log10 log1p sinh cosh tanh arcsinh arccosh arctanh")
ANGLES = _words("sin cos tan")
INVERSE_ANGLES = _words("arcsin arccos arctan arctan2")
REDUCTIONS = _words("add maximum minimum fmax fmin")

# Of other functions: the parameters that have the unit of the first of them. The others are plain.
KEEPING: Dict[str, Tuple[str, ...]] = {
    **{name: ("a",) for name in _words(
        "sum nansum mean nanmean median nanmedian std nanstd amin min nanmin amax max nanmax ptp average percentile "
        "nanpercentile quantile nanquantile cumsum nancumsum diff sort partition reshape ravel transpose squeeze "
        "expand_dims swapaxes moveaxis rollaxis repeat take compress diagonal trace copy round around round_ resize "
        "delete real imag roll")},
    **{name: ("m",) for name in _words("flip fliplr flipud rot90 tril triu")},
    **{name: ("array",) for name in _words("broadcast_to")},
    **{name: ("x",) for name in _words("fix nan_to_num")},
    **{name: ("ary",) for name in _words("split array_split hsplit vsplit dsplit ediff1d")},
    "unique": ("ar",), "diag": ("v",), "tile": ("A",),
    "append": ("arr", "values"), "insert": ("arr", "values"), "clip": ("a", "a_min", "a_max", "min", "max"),
    "pad": ("array",), "linspace": ("start", "stop"), "full_like": ("a", "fill_value"), "zeros_like": ("a",),
    "real": ("val",), "imag": ("val",), "extract": ("arr",), "union1d": ("ar1", "ar2"), "intersect1d": ("ar1", "ar2"),
    "setdiff1d": ("ar1", "ar2"),
}
# Functions without a signature, or with a sequence of arrays: which positions have a unit.
JOINING: Dict[str, Tuple[int, ...]] = {
    **{name: (0,) for name in _words("concatenate stack vstack hstack dstack column_stack row_stack")},
    **{name: (0, 1, 2) for name in _words("atleast_1d atleast_2d atleast_3d")},
    "where": (1, 2),
}
COMPARING: Dict[str, Tuple[str, ...]] = {
    "isclose": ("a", "b", "atol"), "allclose": ("a", "b", "atol"), "array_equal": ("a1", "a2"),
    "searchsorted": ("a", "v"), "digitize": ("x", "bins"), "in1d": ("ar1", "ar2"), "isin": ("element", "test_elements"),
    **{name: ("a",) for name in _words("argmax argmin nanargmax nanargmin argsort argpartition argwhere nonzero shape "
                                       "size ndim count_nonzero all any")},
    "flatnonzero": ("a",), "iscomplexobj": ("x",), "isrealobj": ("x",),
}
MULTIPLYING = _words("dot vdot inner outer cross kron tensordot convolve correlate")
SQUARING = _words("var nanvar")


def call_ufunc(ufunc: Any, method: str, inputs: Tuple[Any, ...], options: Dict[str, Any]) -> Any:
    """Return the result of a universal function, or `NotImplemented` if it has no rule for units."""
    if options.get("out") is not None:
        return NotImplemented
    found = [x for x in map(as_measured, inputs) if x is not None]
    if len(found) < len(inputs):
        return NotImplemented
    name = ufunc.__name__
    if method in ("reduce", "accumulate"):
        if name not in REDUCTIONS:
            return NotImplemented
        return _wrap(getattr(ufunc, method)(found[0]._value, **options), found[0]._plain_unit(), found[0])
    rule = _UFUNC_RULES.get(name)
    if rule is None or method not in ("__call__", "outer") or (method == "outer" and len(inputs) != 2):
        return NotImplemented
    return rule(ufunc if method == "__call__" else ufunc.outer, found, options)


def _wrap(result: Any, unit: Unit, like: Measured) -> Any:
    if isinstance(result, (list, tuple)):
        return type(result)(_wrap(part, unit, like) for part in result)
    return make_measured(result, unit, like._home)


def _values_alike(operands: List[Measured]) -> Tuple[Unit, List[Any]]:
    """Return the unit of the first operand that is not the number 0, and all numbers in it."""
    first = next((x for x in operands if not _is_plain_zero(x)), operands[0])
    return first._plain_unit(), [first._alike(x) for x in operands]


def _is_plain_zero(x: Measured) -> bool:
    return x._unit is PLAIN and isinstance(x._value, float) and x._value == 0


def _alike(ufunc: Any, operands: List[Measured], options: Dict[str, Any]) -> Any:
    unit, values = _values_alike(operands)
    return _wrap(ufunc(*values, **options), unit, operands[0])


def _compared(ufunc: Any, operands: List[Measured], options: Dict[str, Any]) -> Any:
    try:
        return ufunc(*_values_alike(operands)[1], **options)
    except UnlikeSum:
        if ufunc.__name__ not in ("equal", "not_equal"):
            raise
        import numpy

        shape = numpy.broadcast(*(x._value for x in operands)).shape
        return numpy.full(shape, ufunc.__name__ == "not_equal")


def _plain_result(ufunc: Any, operands: List[Measured], options: Dict[str, Any]) -> Any:
    return ufunc(*(x._value for x in operands), **options)


def _multiplied(sign: int) -> Rule:
    def rule(ufunc: Any, operands: List[Measured], options: Dict[str, Any]) -> Any:
        one, other = operands
        result = ufunc(one._value, other._value, **options)
        return _wrap(result, product(one._plain_unit(), other._plain_unit(), sign), one)

    return rule


def _powered(exponent: Fraction) -> Rule:
    def rule(ufunc: Any, operands: List[Measured], options: Dict[str, Any]) -> Any:
        base = operands[0] ** exponent
        one = operands[0] if base._unit.words != base._unit.dimension else operands[0].to_base()
        return _wrap(ufunc(one._value, **options), base._unit, one)

    return rule


def _power(ufunc: Any, operands: List[Measured], options: Dict[str, Any]) -> Any:
    if not isinstance(operands[1]._value, float):
        if operands[0]._plain_unit().dimension:
            raise ConformabilityError("the exponent of a unit is not one number")
        return _plain_numbers(ufunc, operands, options)
    return operands[0] ** operands[1]._value_in(PLAIN)


def _plain_numbers(ufunc: Any, operands: List[Measured], options: Dict[str, Any]) -> Any:
    return _wrap(ufunc(*(x._value_in(PLAIN) for x in operands), **options), PLAIN, operands[0])


def _radian(like: Measured) -> Unit:
    """Return the radian. It is a base unit in the library of units, and 1 in the built-in definitions."""
    unit = like._units()["rad"]._unit
    return unit if unit.dimension else PLAIN


def _of_angle(ufunc: Any, operands: List[Measured], options: Dict[str, Any]) -> Any:
    angle = operands[0]
    unit = _radian(angle) if angle._plain_unit().dimension else PLAIN
    return _wrap(ufunc(angle._value_in(unit), **options), PLAIN, angle)


def _to_angle(ufunc: Any, operands: List[Measured], options: Dict[str, Any]) -> Any:
    values = [operands[0]._value_in(PLAIN)] if len(operands) == 1 else _values_alike(operands)[1]
    return _wrap(ufunc(*values, **options), _radian(operands[0]), operands[0])


_UFUNC_RULES: Dict[str, Rule] = {
    **{name: _alike for name in ALIKE}, **{name: _compared for name in COMPARISONS},
    **{name: _plain_result for name in PREDICATES}, **{name: _multiplied(sign) for name, sign in PRODUCTS.items()},
    **{name: _powered(exponent) for name, exponent in POWERS.items()}, "power": _power, "float_power": _power,
    **{name: _plain_numbers for name in PLAIN_NUMBERS}, **{name: _of_angle for name in ANGLES},
    **{name: _to_angle for name in INVERSE_ANGLES},
}


def call_function(function: Any, arguments: Tuple[Any, ...], options: Dict[str, Any]) -> Any:
    """Return the result of another function of numpy, or `NotImplemented` if it has no rule for units."""
    name = function.__name__
    if options.get("out") is not None:
        return NotImplemented
    if name in JOINING:
        return _join(function, JOINING[name], arguments, options)
    if name in MULTIPLYING:
        one, other = as_measured(arguments[0]), as_measured(arguments[1])
        if one is None or other is None:
            return NotImplemented
        rule = _multiplied(1)
        return rule(lambda x, y: function(x, y, *arguments[2:], **options), [one, other], {})
    if name in ("interp", "trapz", "gradient"):
        return _SPECIAL[name](function, arguments, options)
    names = KEEPING.get(name) or COMPARING.get(name) or (("a",) if name in SQUARING else None)
    if names is None:
        return NotImplemented
    unit, like, result = _call(function, names, arguments, options)
    if name in SQUARING:
        return _wrap(result, product(unit, unit, 1), like)
    if name in COMPARING:
        return result
    is_unique = name in ("unique", "intersect1d") and isinstance(result, tuple)
    return (_wrap(result[0], unit, like), *result[1:]) if is_unique else _wrap(result, unit, like)


def _call(
    function: Any, names: Tuple[str, ...], arguments: Tuple[Any, ...], options: Dict[str, Any]
) -> Tuple[Unit, Measured, Any]:
    """Call a function with the numbers of its arguments, and return their unit, one of them, and the result."""
    bound = inspect.signature(function).bind(*arguments, **options)
    if function.__name__ in ("isclose", "allclose"):
        # The default of numpy is 1e-8 of a unit that nobody has chosen.
        bound.arguments.setdefault("atol", 0.0)
    given = {name: bound.arguments[name] for name in names if bound.arguments.get(name) is not None}
    operands = [_checked(value) for value in given.values()]
    unit, values = _values_alike(operands)
    bound.arguments.update(zip(given, values))
    if any(isinstance(value, Measured) for value in (*bound.args, *bound.kwargs.values())):
        raise ConformabilityError(f"{function.__name__} takes no quantity in this place")
    return unit, operands[0], function(*bound.args, **bound.kwargs)


def _checked(value: Any) -> Measured:
    """Return an argument that has a unit. A list of measured numbers is joined."""
    measured = as_measured(value)
    if measured is None and isinstance(value, (list, tuple)):
        import numpy

        parts = [_checked(part) for part in value]
        unit, values = _values_alike(parts)
        return make_measured(numpy.array(values), unit, parts[0]._home)
    if measured is None:
        raise TypeError(f"not a number or an array: {value!r:.80}")
    return measured


def _join(function: Any, places: Tuple[int, ...], arguments: Tuple[Any, ...], options: Dict[str, Any]) -> Any:
    sequence = function.__name__ not in ("where", "atleast_1d", "atleast_2d", "atleast_3d")
    parts = [_checked(x) for x in (arguments[0] if sequence else [arguments[k] for k in places if k < len(arguments)])]
    unit, values = _values_alike(parts)
    if sequence:
        result = function(values, *arguments[1:], **options)
    else:
        result = function(*([arguments[0]] if function.__name__ == "where" else []), *values, **options)
    return _wrap(result, unit, parts[0])


def _interp(function: Any, arguments: Tuple[Any, ...], options: Dict[str, Any]) -> Any:
    x, places, values, *rest = arguments
    if rest or options:
        return NotImplemented
    first, second = _values_alike([_checked(places), _checked(x)])[1]
    unit = _checked(values)
    return _wrap(function(second, first, unit._value), unit._plain_unit(), unit)


def _trapz(function: Any, arguments: Tuple[Any, ...], options: Dict[str, Any]) -> Any:
    bound = inspect.signature(function).bind(*arguments, **options)
    bound.apply_defaults()
    y, step = _checked(bound.arguments["y"]), bound.arguments["x"]
    name = "dx" if step is None else "x"
    width = _checked(bound.arguments[name])
    bound.arguments.update({"y": y._value, name: width._value})
    result = function(*bound.args, **bound.kwargs)
    return _wrap(result, product(y._plain_unit(), width._plain_unit(), 1), y)


def _gradient(function: Any, arguments: Tuple[Any, ...], options: Dict[str, Any]) -> Any:
    y, *steps = [_checked(x) for x in arguments]
    if len(steps) > 1:
        return NotImplemented
    result = function(y._value, *(step._value for step in steps), **options)
    unit = product(y._plain_unit(), steps[0]._plain_unit(), -1) if steps else y._plain_unit()
    return _wrap(result, unit, y)


_SPECIAL: Dict[str, Callable[[Any, Tuple[Any, ...], Dict[str, Any]], Any]] = {
    "interp": _interp, "trapz": _trapz, "gradient": _gradient,
}


def supported() -> List[str]:
    """Return the names of the functions of numpy that take measured arrays.

    >>> "concatenate" in supported(), len(supported()) > 140
    (True, True)
    """
    names = {*_UFUNC_RULES, *KEEPING, *JOINING, *COMPARING, *MULTIPLYING, *SQUARING, *_SPECIAL}
    return sorted(names)
