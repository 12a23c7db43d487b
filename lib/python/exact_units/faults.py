# SPDX-License-Identifier: MIT OR Apache-2.0
"""The exceptions: one for each kind of fault."""

from __future__ import annotations

from typing import Dict, NamedTuple, Tuple, Type


class UnitsError(ValueError):
    """A question that has no answer. ``str()`` of it is the text of the fault."""


class SyntaxFault(UnitsError):
    """A text is not an expression."""


class NumeralTooLong(UnitsError):
    """A numeral is too long."""


class NestedTooDeep(UnitsError):
    """An expression has more than 64 levels of parentheses."""


class UnknownUnit(UnitsError):
    """A word is not the name of a unit."""


class RefusedFunction(UnitsError):
    """A word is a function without exact values, such as ``sin``."""


class CyclicDefinition(UnitsError):
    """A definition refers to itself."""


class NumberFault(UnitsError):
    """A number has no exact value. Base class."""


class Overflow(NumberFault, OverflowError):
    """A numerator or a denominator needs more than 127 bits."""


class DivisionByZero(NumberFault, ZeroDivisionError):
    """A division by zero."""


class NoExactRoot(NumberFault):
    """A root is not a fraction."""


class ExponentNotNumber(NumberFault):
    """An exponent has a unit."""


class ExponentRange(NumberFault):
    """An exponent is out of range."""


class ConformabilityError(UnitsError):
    """Two quantities have different dimensions, in a sum or in a conversion."""


class UnlikeSum(ConformabilityError):
    """The terms of a sum have different dimensions."""


class ListUnitNotPositive(UnitsError):
    """A unit of a list is not positive."""


class FunctionFault(UnitsError):
    """A function has no value. Base class."""


class NotInDomain(FunctionFault):
    """The argument of a function is outside its domain."""


class NotInRange(FunctionFault):
    """The value of a function is outside its range."""


class WrongArgument(FunctionFault):
    """The argument of a function has the wrong dimension."""


class WrongResult(FunctionFault):
    """The value of a function has the wrong dimension."""


class NoInverse(FunctionFault):
    """A function has no inverse."""


class OutsideTable(FunctionFault):
    """An argument is outside a table of points."""


class ArgumentNeeded(FunctionFault):
    """A function has no argument."""


class CallsTooDeep(FunctionFault):
    """Functions call each other too deeply."""


class ScaleFault(FunctionFault):
    """A number on a scale such as ``tempF`` takes part in arithmetic."""


class DefinitionFault(UnitsError):
    """Definitions are not loaded, or an edit is refused. Base class."""


class NoSuchFile(DefinitionFault):
    """There is no definition file with this name."""


class FileTooLong(DefinitionFault):
    """A definition file is longer than 16,777,216 bytes."""


class DeckFull(DefinitionFault):
    """There are too many definitions."""


class BadName(DefinitionFault):
    """The name in a definition is not a name."""


class BadDefinition(DefinitionFault):
    """A line is not a definition."""


class BadTable(DefinitionFault):
    """The points of a definition are not a table."""


class BadKey(DefinitionFault):
    """A text is not the key of a definition."""


class NoSuchDefinition(DefinitionFault):
    """No active definition has this key."""


class NothingToUndo(DefinitionFault):
    """No edit is left to undo."""


class NothingToRedo(DefinitionFault):
    """No undone edit is left."""


class NotAnExpression(UnitsError):
    """A text is not passed to the back end: it is blank, of several lines, too long, or a command or list."""


class BackEndError(UnitsError):
    """The session or the library failed, is missing, or is closed."""


class OutOfMemory(BackEndError, MemoryError):
    """There was not enough memory. The definitions are as before."""


class DefinitionWarning(UserWarning):
    """A definition file includes a file that was skipped, because it is absent or too long."""


class Kind(NamedTuple):
    """A kind of fault: its status in units.h, the beginning of its text in a session, and its exception."""

    status: int
    words: str
    exception: Type[UnitsError]


KINDS: Tuple[Kind, ...] = (
    Kind(1, "out of memory", OutOfMemory),
    Kind(16, "no file: ", NoSuchFile),
    Kind(17, "file too long: ", FileTooLong),
    Kind(19, "deck full", DeckFull),
    Kind(20, "bad name: ", BadName),
    Kind(21, "bad definition", BadDefinition),
    Kind(22, "bad table", BadTable),
    Kind(23, "bad command: :drop", BadKey),
    Kind(24, "no such definition: ", NoSuchDefinition),
    Kind(25, "nothing to undo", NothingToUndo),
    Kind(26, "nothing to redo", NothingToRedo),
    Kind(32, "syntax error at ", SyntaxFault),
    Kind(33, "numeral too long", NumeralTooLong),
    Kind(34, "nested too deep", NestedTooDeep),
    Kind(35, "unknown unit: ", UnknownUnit),
    Kind(36, "refused function: ", RefusedFunction),
    Kind(37, "cycle: ", CyclicDefinition),
    Kind(38, "overflow", Overflow),
    Kind(39, "division by zero", DivisionByZero),
    Kind(40, "no exact root", NoExactRoot),
    Kind(41, "sum of unlike units: ", UnlikeSum),
    Kind(42, "exponent is not a number", ExponentNotNumber),
    Kind(43, "exponent out of range", ExponentRange),
    Kind(44, "not in domain: ", NotInDomain),
    Kind(45, "not in range: ", NotInRange),
    Kind(46, "wrong argument: ", WrongArgument),
    Kind(47, "wrong result: ", WrongResult),
    Kind(48, "no inverse: ", NoInverse),
    Kind(49, "outside table: ", OutsideTable),
    Kind(50, "argument needed: ", ArgumentNeeded),
    Kind(51, "calls too deep: ", CallsTooDeep),
    Kind(52, "list unit not positive: ", ListUnitNotPositive),
    Kind(53, "conformability error", ConformabilityError),
)

_BY_STATUS: Dict[int, Type[UnitsError]] = {kind.status: kind.exception for kind in KINDS}


def fault_of_text(text: str) -> UnitsError:
    """Return the exception for the text of a fault in a session."""
    for kind in KINDS:
        if text.startswith(kind.words):
            return kind.exception(_readable(text))
    return UnitsError(text)


def fault_of_status(status: int, text: str) -> UnitsError:
    """Return the exception for a status of the library and its text."""
    return _BY_STATUS.get(status, UnitsError)(_readable(text))


def _readable(text: str) -> str:
    """Join the three lines of a conformability error."""
    first, _, rest = text.partition("\n")
    return f"{first}: {rest}".replace("\n", " and ") if rest else first
