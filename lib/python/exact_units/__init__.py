# SPDX-License-Identifier: MIT OR Apache-2.0
"""Exact unit conversion, by the shared library of `units` or by a session of the program.

>>> from exact_units import Units
>>> units = Units()
>>> units.convert("60 mph", "km/h")
Fraction(301752, 3125)
>>> units.value("9.81 N").dimension
{'kg': Fraction(1, 1), 'm': Fraction(1, 1), 's': Fraction(-2, 1)}
"""

from .faults import (
    ArgumentNeeded,
    BackEndError,
    BadDefinition,
    BadKey,
    BadName,
    BadTable,
    CallsTooDeep,
    ConformabilityError,
    CyclicDefinition,
    DeckFull,
    DefinitionFault,
    DefinitionWarning,
    DivisionByZero,
    ExponentNotNumber,
    ExponentRange,
    FileTooLong,
    FunctionFault,
    ListUnitNotPositive,
    NestedTooDeep,
    NoExactRoot,
    NoInverse,
    NoSuchDefinition,
    NoSuchFile,
    NotAnExpression,
    NotInDomain,
    NotInRange,
    NothingToRedo,
    NothingToUndo,
    NumberFault,
    NumeralTooLong,
    OutOfMemory,
    OutsideTable,
    Overflow,
    RefusedFunction,
    ScaleFault,
    SyntaxFault,
    UnitsError,
    UnknownUnit,
    UnlikeSum,
    WrongArgument,
    WrongResult,
)
from .measured import Measured
from .quantity import Quantity
from .units import Units, default_units, set_default_units

__version__ = "1.1.0"

__all__ = [
    "ArgumentNeeded",
    "BackEndError",
    "BadDefinition",
    "BadKey",
    "BadName",
    "BadTable",
    "CallsTooDeep",
    "ConformabilityError",
    "CyclicDefinition",
    "DeckFull",
    "DefinitionFault",
    "DefinitionWarning",
    "DivisionByZero",
    "ExponentNotNumber",
    "ExponentRange",
    "FileTooLong",
    "FunctionFault",
    "ListUnitNotPositive",
    "Measured",
    "NestedTooDeep",
    "NoExactRoot",
    "NoInverse",
    "NoSuchDefinition",
    "NoSuchFile",
    "NotAnExpression",
    "NotInDomain",
    "NotInRange",
    "NothingToRedo",
    "NothingToUndo",
    "NumberFault",
    "NumeralTooLong",
    "OutOfMemory",
    "OutsideTable",
    "Overflow",
    "Quantity",
    "RefusedFunction",
    "ScaleFault",
    "SyntaxFault",
    "Units",
    "UnitsError",
    "UnknownUnit",
    "UnlikeSum",
    "WrongArgument",
    "WrongResult",
    "default_units",
    "set_default_units",
]
