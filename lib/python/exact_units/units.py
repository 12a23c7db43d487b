# SPDX-License-Identifier: MIT OR Apache-2.0
"""The class `Units`: definitions that can be queried and edited."""

from __future__ import annotations

import os
import shutil
from decimal import Decimal
from fractions import Fraction
from typing import Any, Iterable, Iterator, List, Mapping, Optional, Tuple, Union

from .backend import BackEnd, Definitions
from .faults import (
    ArgumentNeeded,
    BackEndError,
    ConformabilityError,
    NumeralTooLong,
)
from .lines import Scale, base_expression
from .measured import Measured
from .quantity import Quantity, make_quantity
from .shown import in_list, on_scale
from .targets import Target, Targets
from .texts import edit_line, expression_line, plain_number
from .unit import Unit, read_fraction

Real = Union[int, float, Fraction, Decimal]

_FOLDER = os.path.dirname(os.path.abspath(__file__))
_REPOSITORY = os.path.dirname(os.path.dirname(os.path.dirname(_FOLDER)))
# Debian's package calls the program exact-units, because GNU units is called units.
_PROGRAMS = ("exact-units", "units")
# Of a number in a question. Both back ends refuse much shorter ones.
_MOST_BITS = 8192


class Units:
    """Unit definitions that answer questions exactly.

    ``Units()`` has the whole library of units, ``Units(built_in=True)`` the few definitions of the program itself,
    ``Units(path)`` those of a file with its includes, and ``Units(text=...)`` those of a text.

    The backend "library" uses the shared library: a question takes microseconds and no other process. The backend
    "session" uses a session of the program. "auto" uses the library if it is available. The answers are the
    same. Threads may share the object, and the child of a fork may use it.

    path: a definition file in the format of GNU units.
    text: definitions instead of a file.
    built_in: whether to take the built-in definitions.
    locale: the locale of ``!locale`` lines.
    variables: the variables of ``!var`` and ``!varnot`` lines; by default the environment.
    library: the shared library; by default ``$EXACT_UNITS_LIBRARY``, the one in this package, or ``libunits.so.1``.
    program: the program; by default ``$EXACT_UNITS_PROGRAM``, or else the first of ``exact-units`` and ``units``.

    Raises `BackEndError` if the back end is not available, and `DefinitionFault` if the definitions cannot be loaded.

    >>> with Units() as units:
    ...     print(units.convert("60 mph", "km/h"))
    301752/3125
    >>> units = Units(text="m !\\nspan 9|40 m\\n")
    >>> units.convert("2 span", "m")
    Fraction(9, 20)
    >>> units.close()
    """

    def __init__(
        self,
        path: Union[str, "os.PathLike[str]", None] = None,
        *,
        text: Optional[str] = None,
        built_in: bool = False,
        locale: str = "en_US",
        variables: Optional[Mapping[str, str]] = None,
        backend: str = "auto",
        library: Optional[str] = None,
        program: Optional[str] = None,
    ) -> None:
        if (path is not None) + (text is not None) + built_in > 1:
            raise TypeError("path, text and built_in exclude each other")
        if path is None and text is None and not built_in:
            path = _path_of_library()
        environment = dict(os.environ if variables is None else variables)
        words = None if text is None else text.encode("utf-8", "surrogateescape")
        definitions = Definitions(None if path is None else os.fspath(path), words, locale, environment)
        self._targets = Targets()
        self._back_end = _open(definitions, backend, library, program)

    @property
    def backend(self) -> str:
        """The back end: "library" or "session"."""
        return "library" if type(self._back_end).__name__ == "LibraryBackEnd" else "session"

    def convert(self, source: str, target: str) -> Fraction:
        """Return how many `target` the quantity `source` is, exactly.

        `target` is a unit expression or the name of a function. There is no reciprocal conversion.

        Raises `ConformabilityError` if the dimensions differ, and the exception of any other fault.

        >>> units = Units()
        >>> units.convert("60 mile/hr", "km/hr")
        Fraction(301752, 3125)
        >>> units.convert("tempF(45)", "tempC")
        Fraction(65, 9)
        >>> units.convert("1 parsnip", "m")
        Traceback (most recent call last):
        ...
        exact_units.faults.UnknownUnit: unknown unit: parsnip
        >>> units.convert("m", "s")
        Traceback (most recent call last):
        ...
        exact_units.faults.ConformabilityError: conformability error: 1 m and 1 s
        """
        return read_fraction(plain_number(self._back_end.convert(expression_line(source), expression_line(target))))

    def to_float(self, source: str, target: str) -> float:
        """Return the float nearest to `convert(source, target)`.

        >>> Units().to_float("60 ft", "m")
        18.288
        """
        return float(self.convert(source, target))

    def value(self, expression: str) -> Quantity:
        """Return the value of an expression in base units.

        >>> print(Units().value("2 J / s"))
        2 kg m^2 / s^3
        """
        quantity = self._back_end.value(expression_line(expression))
        quantity._home = self
        return quantity

    def convert_column(self, numbers: Iterable[Real], source: str, target: str) -> List[float]:
        """Return each number of `source` in `target`, as the float nearest to the exact answer.

        A float counts as its exact binary value. The ratio of two units is computed once. A function is evaluated for
        each number: a `source` such as ``tempF`` is applied to it, and a `target` such as ``tempC`` is inverted.

        Raises `ConformabilityError` if the dimensions differ, the exception of any other fault, `OverflowError` for
        infinity and for an answer beyond the largest float, and `ValueError` for NaN.

        >>> Units().convert_column([1, 2.5], "ft", "in")
        [12.0, 30.0]
        >>> Units().convert_column([32, 212], "tempF", "tempC")
        [0.0, 100.0]
        """
        return list(self._column(numbers, source, target))

    def _column(self, numbers: Iterable[Real], source: str, target: str) -> Iterator[float]:
        one, unit = self.unit(source), self.unit(target)
        if one is None or unit is None:
            words = expression_line(source), expression_line(target)
            yield from self._function_column(numbers, *words, is_function=one is None)
            return
        if not one.conforms(unit):
            raise ConformabilityError(f"conformability error: {one} and {unit}")
        ratio = (one / unit).magnitude
        top, bottom = ratio.numerator, ratio.denominator
        for x in numbers:
            n, d = x.as_integer_ratio()
            # Python rounds the quotient of two integers to the nearest float.
            yield n * top / (d * bottom)

    def _function_column(
        self, numbers: Iterable[Real], source: bytes, target: bytes, is_function: bool
    ) -> Iterator[float]:
        pattern = b"%b(%d|%d)" if is_function else b"%d|%d (%b)"
        for x in numbers:
            n, d = x.as_integer_ratio()
            if max(n.bit_length(), d.bit_length()) > _MOST_BITS:
                raise NumeralTooLong("numeral too long")
            words = (source, n, d) if is_function else (n, d, source)
            top, _, bottom = plain_number(self._back_end.convert(pattern % words, target)).partition("|")
            yield int(top) / int(bottom or 1)

    def __getitem__(self, unit: str) -> Quantity:
        """Return one of a unit, shown in that unit: ``5 * units["ft"]`` is exact, ``2.5 * units["ft"]`` is measured.

        Raises `ConformabilityError` for a function and a list, and the exception of any other fault.

        >>> units = Units()
        >>> print(5 * units["ft"], 2.5 * units["ft"], 3 * units["kg"] * units["m"] / units["s"] ** 2)
        5 ft 2.5 ft 3 kg m / s^2
        """
        target = self.target(unit)
        if not isinstance(target, Unit):
            raise ConformabilityError(f"not a unit: {unit}")
        return make_quantity(*target.size.as_integer_ratio(), target, self)

    def measured(self, value: Any, unit: str) -> Measured:
        """Return a float or an array of floats with a unit, or on a scale such as ``tempF``.

        >>> Units().measured(72, "tempF").to("K").value
        295.3722222222222
        """
        return Measured(value, unit, self)

    def conforming(self, quantity: Union[str, Quantity]) -> List[str]:
        """Return the names of the units that a quantity or the value of an expression can be converted to.

        >>> Units(built_in=True).conforming("2 N")
        ['N', 'newton']
        """
        one = self.value(quantity) if isinstance(quantity, str) else quantity
        return self._back_end.conforming(base_expression(Fraction(1), one._unit).encode("utf-8", "surrogateescape"))

    def target(self, text: str) -> Target:
        """Return what a quantity can be shown in: a unit, the scale of a function, or a list of units."""
        return self._targets.find(self, text)

    def show(self, quantity: Quantity, text: str) -> Quantity:
        """Return a quantity that is shown in a unit, by a function or in a list. See `Quantity.to`."""
        target = self.target(text)
        if isinstance(target, Unit):
            if target.dimension != quantity._unit.dimension:
                raise ConformabilityError(f"conformability error: {quantity} and {text}")
            return make_quantity(quantity._top, quantity._bottom, target, self)
        source = base_expression(Fraction(quantity._top, quantity._bottom), quantity._unit)
        if isinstance(target, Scale):
            return on_scale(quantity, self.convert(source, text), target)
        words = b";".join(expression_line(name) for name in target.names)
        reply = self._back_end.convert(expression_line(source), words)
        unit = self[target.names[0]]._unit
        return in_list(quantity, unit, tuple(read_fraction(count) for count in reply.split(";")), target)

    def unit(self, text: str) -> Optional[Quantity]:
        """Return the value of a unit, or None for the name of a function."""
        try:
            return self.value(text)
        except ArgumentNeeded:
            return None

    def define(self, line: str) -> None:
        """Add a definition. It replaces an earlier one of the same name.

        Raises a `DefinitionFault`, or the fault of the expression.

        >>> units = Units()
        >>> units.define("desk 30 in")
        >>> units.convert("2 desk", "in")
        Fraction(60, 1)
        >>> units.undo()
        >>> units.convert("2 desk", "in")
        Traceback (most recent call last):
        ...
        exact_units.faults.UnknownUnit: unknown unit: desk
        """
        with self._targets.edit():
            self._back_end.define(edit_line(line))

    def drop(self, key: str) -> None:
        """Remove the last definition of a key, such as ``ft``, the prefix ``kilo-`` or the function ``tempF()``.

        Raises `NoSuchDefinition`, or `BadKey` if the text is not a key.
        """
        with self._targets.edit():
            self._back_end.drop(edit_line(key))

    def undo(self) -> None:
        """Undo the last edit. Raises `NothingToUndo` if there is none."""
        with self._targets.edit():
            self._back_end.undo()

    def redo(self) -> None:
        """Redo the last undone edit. Raises `NothingToRedo` if there is none."""
        with self._targets.edit():
            self._back_end.redo()

    def search(self, text: str) -> List[Tuple[str, str]]:
        """Return the name and the definition of each unit, prefix, function and list whose name contains a text.

        >>> Units().search("furlong")
        [('furlong', '660 foot'), ('survey_furlong', '660 survey_foot')]
        """
        rows = self._back_end.search(edit_line(text))
        return [(name, definition) for _, name, definition in (row.split("\t", 2) for row in rows if "\t" in row)]

    def close(self) -> None:
        """End the session or free the table. Any later question raises `BackEndError`."""
        with self._targets.edit():
            self._back_end.close()

    def __enter__(self) -> "Units":
        return self

    def __exit__(self, *_: object) -> None:
        self.close()


def _open(definitions: Definitions, backend: str, library: Optional[str], program: Optional[str]) -> BackEnd:
    if backend not in ("auto", "library", "session"):
        raise ValueError(f"no back end: {backend!r}")
    if backend != "session":
        try:
            return _open_library(definitions, library, program)
        except BackEndError:
            if backend == "library" or library is not None:
                raise
    from .session import SessionBackEnd

    return SessionBackEnd(_program(program), definitions)


def _open_library(definitions: Definitions, library: Optional[str], program: Optional[str]) -> BackEnd:
    from .library import LibraryBackEnd, load_library

    path = library or os.environ.get("EXACT_UNITS_LIBRARY") or _path_of("libunits.so.1", "release") or "libunits.so.1"
    return LibraryBackEnd(load_library(path), definitions, lambda: _built_in(program))


def _program(program: Optional[str]) -> str:
    named = program or os.environ.get("EXACT_UNITS_PROGRAM") or _path_of("units", "bin")
    if named:
        return named
    return next((name for name in _PROGRAMS if shutil.which(name)), _PROGRAMS[0])


def _path_of(name: str, folder: str) -> Optional[str]:
    """Return the path of a file of this package, or else of a folder of the repository that the package is in."""
    paths = [os.path.join(_FOLDER, name)]
    if os.path.exists(os.path.join(_REPOSITORY, "crates.txt")):
        paths.append(os.path.join(_REPOSITORY, folder, name))
    return next((path for path in paths if os.path.exists(path)), None)


def _path_of_library() -> str:
    path = _path_of("all.units", "share/units")
    if path is None:
        raise BackEndError(f"the library of units, {os.path.join(_FOLDER, 'all.units')}, is not installed")
    return path


def _built_in(program: Optional[str]) -> bytes:
    """Return the built-in definitions: those of this package, or else those of the program."""
    path = _path_of("built_in.units", "share/units")
    if path is not None:
        with open(path, "rb") as file:
            return file.read()
    from .session_process import saved_definitions

    return saved_definitions(_program(program))


class _Default:
    """The definitions of quantities that have none of their own."""

    units: Optional[Units] = None


def default_units() -> Units:
    """Return the definitions of quantities that have none of their own, such as unpickled ones."""
    if _Default.units is None:
        # Of two threads that open one, both take the same.
        units = Units()
        _Default.units = _Default.units or units
    return _Default.units


def set_default_units(units: Optional[Units]) -> None:
    """Choose the definitions of quantities that have none of their own. None chooses `Units()`."""
    _Default.units = units
