# SPDX-License-Identifier: MIT OR Apache-2.0
"""What a quantity is converted to, by the text that names it: a unit, the scale of a function, or a list of units."""

from __future__ import annotations

import contextlib
from typing import TYPE_CHECKING, Dict, Iterator, Optional, Tuple, Union

from .faults import ArgumentNeeded, DivisionByZero, UnitsError
from .lines import Scale
from .shown import UnitList
from .unit import Unit, read_unit

if TYPE_CHECKING:
    from .units import Units

Target = Union[Unit, Scale, UnitList]
_MOST_KEPT = 1024


class Targets:
    """The targets that were asked for since the last edit."""

    def __init__(self) -> None:
        self._kept: Dict[str, Target] = {}

    def find(self, units: "Units", text: str) -> Target:
        """Return a target. Raises the fault of the text, and `DivisionByZero` for a unit of the value 0."""
        if not isinstance(text, str):
            raise TypeError(f"not a text: {text!r:.40}")
        kept = self._kept
        target = kept.get(text)
        if target is None:
            target = _read(units, text.strip(" \t"))
            if len(kept) < _MOST_KEPT:
                # If there was an edit meanwhile, nobody looks into this dictionary again.
                kept[text] = target
        return target

    @contextlib.contextmanager
    def edit(self) -> Iterator[None]:
        """Forget all targets before and after an edit, also one that is interrupted."""
        self._kept = {}
        try:
            yield
        finally:
            self._kept = {}


def _read(units: "Units", text: str) -> Target:
    if ";" in text:
        return _list_of(text)
    try:
        value, fault = units.value(text), None
    except ArgumentNeeded:
        return Scale(text)
    except UnitsError as error:
        value, fault = None, error
    names = _named_list(units, text)
    if names is not None:
        return names
    if value is None:
        assert fault is not None
        raise fault
    if not value:
        raise DivisionByZero(f"a unit of the value 0: {text}")
    return read_unit(text, value.magnitude, value._unit.dimension)


def _named_list(units: "Units", text: str) -> Optional[UnitList]:
    """Return the list of a name. Its name is a word, which as a unit may have another meaning, such as ``hms``."""
    if not text.isidentifier():
        return None
    return next((_list_of(names) for key, names in units.search(text) if key == f"!unitlist {text}"), None)


def _list_of(text: str) -> UnitList:
    names: Tuple[str, ...] = tuple(name.strip(" \t") for name in text.split(";"))
    return UnitList(names)
