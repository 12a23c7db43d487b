"""Tests of exact_units with each back end.

EXACT_UNITS_LIBRARY and EXACT_UNITS_PROGRAM name the library and the program. The tests of a back end whose variable is
not set are skipped, and so are those of numpy and pandas if these are not installed.
"""

from __future__ import annotations

import doctest
import importlib
import os
import random
import re
import tempfile
import threading
import unittest
import unittest.mock
from decimal import Decimal
from fractions import Fraction
from pathlib import Path
from typing import Any

import exact_units
from exact_units import Quantity, Units, arrays, faults, quantity, units

LIBRARY = os.environ.get("EXACT_UNITS_LIBRARY")
PROGRAM = os.environ.get("EXACT_UNITS_PROGRAM")
HEADER = Path(__file__).resolve().parents[2] / "units.h"

TEXT = """m !
kg !
s !
kilo- 1000
inch 254|10000 m
ft 12 inch
N kg m / s^2
half(x) units=[1;1] domain=[0,10] range=[0,5] x/2 ; half*2
oneway(x) units=[1;1] 2 x
wrong(x) units=[m;m] x s ; wrong/s
gauge[m] 1 2 3 6
bad 2 nothing
round rounder
rounder round
negative -1 m
"""

# A question for each kind of fault, with the text of the fault.
FAULTS = {
    ("2 +", "m"): (faults.SyntaxFault, "syntax error at 3"),
    ("m", "2 +"): (faults.SyntaxFault, "syntax error at 3"),
    ("1" * 1200, "m"): (faults.NumeralTooLong, "numeral too long"),
    ("(" * 70 + "1" + ")" * 70, "m"): (faults.NestedTooDeep, "nested too deep"),
    ("yard", "m"): (faults.UnknownUnit, "unknown unit: yard"),
    ("m", "bad"): (faults.UnknownUnit, "unknown unit: nothing in bad"),
    ("sin(1)", "m"): (faults.RefusedFunction, "refused function: sin"),
    ("round", "m"): (faults.CyclicDefinition, "cycle: round -> rounder -> round"),
    ("1e38 * 1e38", "m"): (faults.Overflow, "overflow"),
    ("1/0", "m"): (faults.DivisionByZero, "division by zero"),
    ("sqrt(2)", "m"): (faults.NoExactRoot, "no exact root"),
    ("m + s", "m"): (faults.UnlikeSum, "sum of unlike units: 1 m and 1 s"),
    ("2^m", "m"): (faults.ExponentNotNumber, "exponent is not a number"),
    ("m^40000", "m"): (faults.ExponentRange, "exponent out of range"),
    ("half(11)", "1"): (faults.NotInDomain, "not in domain: half"),
    ("~half(6)", "1"): (faults.NotInRange, "not in range: half"),
    ("half(1 m)", "1"): (faults.WrongArgument, "wrong argument: half"),
    ("wrong(1 m)", "m"): (faults.WrongResult, "wrong result: wrong"),
    ("~oneway(1)", "1"): (faults.NoInverse, "no inverse: oneway"),
    ("gauge(4)", "m"): (faults.OutsideTable, "outside table: gauge"),
    ("half", "m"): (faults.ArgumentNeeded, "argument needed: half"),
    ("ft", "kg"): (faults.ConformabilityError, "conformability error: 381|1250 m and 1 kg"),
    ("1/s", "s"): (faults.ConformabilityError, "conformability error: 1 / s and 1 s"),
}


def _module(name: str) -> Any:
    """Return a module, or skip the test."""
    try:
        return importlib.import_module(name)
    except ImportError:
        raise unittest.SkipTest(f"{name} is not installed") from None


class BackEndTests:
    """Tests for both back ends."""

    def open(self, **options: object) -> Units:
        raise NotImplementedError

    def setUp(self) -> None:
        self.units = self.open(text=TEXT)

    def tearDown(self) -> None:
        self.units.close()

    def test_conversions(self) -> None:
        self.assertEqual(self.units.convert("3 ft", "m"), Fraction(1143, 1250))
        self.assertEqual(self.units.convert(" -2 ft ", "\tinch"), -24)
        self.assertEqual(self.units.convert("half(3)", "1"), Fraction(3, 2))
        self.assertEqual(self.units.convert("3", "half"), 6)
        self.assertEqual(self.units.to_float("60 ft", "m"), 18.288)

    def test_values(self) -> None:
        value = self.units.value("-3|2 N (4 m)^(1|2)")
        self.assertEqual(value.dimension, {"kg": 1, "m": Fraction(3, 2), "s": -2})
        self.assertEqual(self.units.value("2^126/3^70").magnitude, Fraction(2**126, 3**70))
        self.assertEqual(self.units.value("7"), 7)
        self.assertEqual(str(self.units.value("1/s")), "1 / s")

    def test_faults_keep_in_step(self) -> None:
        for (source, target), (kind, text) in FAULTS.items():
            with self.subTest(source=source[:20], target=target):
                with self.assertRaises(exact_units.UnitsError) as context:
                    self.units.convert(source, target)
                self.assertIs(type(context.exception), kind)
                self.assertEqual(str(context.exception), text)
                self.assertEqual(self.units.convert("3 ft", "inch"), 36)

    def test_faults_of_values(self) -> None:
        for (source, target), (kind, text) in FAULTS.items():
            if target == "m" and kind is not faults.ConformabilityError:
                with self.subTest(source=source[:20]):
                    with self.assertRaises(kind) as context:
                        self.units.value(source)
                    self.assertEqual(str(context.exception), text)

    def test_texts_that_are_not_passed_on(self) -> None:
        for text in ("", " ", "m\ns", "m\rs", "m\0s", ":undo", "?", "# m", "m # s", "ft;inch", "search", "quit", "help",
                     "exit now", "conformable", "m" * 70_000):
            with self.subTest(text=text[:20]):
                with self.assertRaises(exact_units.NotAnExpression):
                    self.units.convert(text, "m")
                with self.assertRaises(exact_units.NotAnExpression):
                    self.units.convert("m", text)
        self.assertEqual(self.units.convert("3 ft", "inch"), 36)

    def test_edits(self) -> None:
        with self.assertRaises(exact_units.NothingToUndo):
            self.units.undo()
        self.units.define("span 9 inch")
        self.assertEqual(self.units.convert("2 span", "inch"), 18)
        self.units.undo()
        with self.assertRaises(exact_units.UnknownUnit):
            self.units.convert("2 span", "inch")
        self.units.redo()
        with self.assertRaises(exact_units.NothingToRedo):
            self.units.redo()
        self.units.drop("span")
        with self.assertRaises(exact_units.NoSuchDefinition) as context:
            self.units.drop("span")
        self.assertEqual(str(context.exception), "no such definition: span")
        for line, kind in {"2x 3 m": faults.BadName, "x": faults.BadDefinition, "x[m] 1 2 1 3": faults.BadTable,
                           "x 2 +": faults.SyntaxFault}.items():
            with self.assertRaises(kind):
                self.units.define(line)
        with self.assertRaises(exact_units.BadKey):
            self.units.drop("2 span")

    def test_search(self) -> None:
        self.assertEqual(self.units.search("nch"), [("inch", "254|10000 m")])
        names = [name for name, _ in self.units.search("o")]
        self.assertEqual(names, ["kilo-", "oneway()", "round", "rounder", "wrong()"])
        self.assertEqual(self.units.search("zzz"), [])

    def test_columns(self) -> None:
        rng = random.Random(7)
        numbers = [rng.uniform(-1e9, 1e9) for _ in range(200)] + [0, 1, Fraction(1, 3), Decimal("0.1"), 1e-300, 1e300]
        ratio = self.units.convert("ft", "inch")
        nearest = [float(Fraction(x) * ratio) for x in numbers]
        self.assertEqual(self.units.convert_column(numbers, "ft", "inch"), nearest)
        self.assertEqual(self.units.convert_column([1, 2.5], "half", "1"), [0.5, 1.25])
        self.assertEqual(self.units.convert_column([1, 2.5], "1", "half"), [2.0, 5.0])
        self.assertEqual(self.units.convert_column([], "ft", "inch"), [])
        with self.assertRaises(exact_units.ConformabilityError):
            self.units.convert_column([1], "ft", "s")
        with self.assertRaises((ValueError, OverflowError)):
            self.units.convert_column([float("nan")], "ft", "inch")

    def test_arrays(self) -> None:
        numpy = _module("numpy")
        array = numpy.array([[1.5, -2.0], [0.0, float("nan")]])
        result = arrays.convert_array(self.units, array, "ft", "inch")
        self.assertEqual(result.shape, (2, 2))
        self.assertEqual(result[0].tolist() + result[1][:1].tolist(), [18.0, -24.0, 0.0])
        self.assertTrue(numpy.isnan(result[1][1]))
        self.assertEqual(arrays.convert_array(self.units, [1, 2.5], "half", "1").tolist(), [0.5, 1.25])
        with self.assertRaises(exact_units.ConformabilityError):
            arrays.convert_array(self.units, array, "ft", "s")

    def test_series(self) -> None:
        pandas = _module("pandas")
        series = pandas.Series([1.0, 2.5], index=["a", "b"], name="length")
        result = arrays.convert_series(self.units, series, "ft", "inch")
        self.assertEqual((result.name, result.to_dict()), ("length", {"a": 12.0, "b": 30.0}))

    def test_files(self) -> None:
        with tempfile.TemporaryDirectory() as folder:
            root = Path(folder)
            (root / "sub").mkdir()
            (root / "main.units").write_text(f"m !\n!include sub/a.units\n!include {root}/c.units # there\n"
                                             "!include gone.units\n!include \\\nd.units\n")
            (root / "sub/a.units").write_text("a 2 m\n!include b.units\n!include ../main.units\n")
            (root / "sub/b.units").write_text("b 3 a\n")
            (root / "c.units").write_text("c 5 b\n")
            (root / "d.units").write_text("d 7 c\n")
            with self.open(path=root / "main.units") as instance:
                self.assertEqual(instance.convert("c", "m"), 30)
                self.assertEqual(instance.convert("d", "m"), 210)
            with self.assertRaises(exact_units.NoSuchFile):
                self.open(path=root / "absent.units")
            (root / "long.units").write_bytes(b"\n" * 16_777_217)
            with self.assertRaises(exact_units.FileTooLong):
                self.open(path=root / "long.units")
            (root / "longest.units").write_bytes(b"\n" * 16_777_216)
            with self.open(path=root / "longest.units") as instance:
                self.assertEqual(instance.convert("6", "3"), 2)
            (root / "full.units").write_text("a 1\n" * 100_001)
            with self.assertRaises(exact_units.DeckFull):
                self.open(path=root / "full.units")

    def test_locales_and_variables(self) -> None:
        text = "m !\n!locale en_GB\nx 2 m\n!endlocale\n!var V w\ny 3 m\n!endvar\n"
        with self.open(text=text, locale="en_GB", variables={"V": "w"}) as instance:
            self.assertEqual(instance.convert("x", "m"), 2)
            self.assertEqual(instance.convert("y", "m"), 3)
        with self.open(text=text, variables={}) as instance:
            for name in "xy":
                with self.assertRaises(exact_units.UnknownUnit):
                    instance.convert(name, "m")

    def test_the_library_of_units_is_the_default(self) -> None:
        with self.open() as instance:
            self.assertEqual(instance.convert("60 mph", "km/h"), Fraction(301752, 3125))
        with self.open(locale="en_GB") as instance:
            self.assertEqual(instance.convert("gallon", "litre"), Fraction(454609, 100_000))

    def test_built_in_definitions(self) -> None:
        with self.open(built_in=True) as instance, self.assertRaises(exact_units.UnknownUnit):
            instance.convert("mph", "km/h")
        with self.open(built_in=True) as instance:
            self.assertEqual(instance.convert("mile", "ft"), 5280)
            self.assertEqual(instance.convert("tempF(45)", "tempC"), Fraction(65, 9))

    def test_a_long_fault(self) -> None:
        names = ["a" + "".join("abcdefghij"[int(digit)] for digit in str(n)) + "x" * 40 for n in range(800)]
        names.append(names[0])
        rows = zip(names, names[1:])
        with self.open(text="".join(f"{name} {other}\n" for name, other in rows)) as instance:
            with self.assertRaises(exact_units.CyclicDefinition) as context:
                instance.convert(names[0], "1")
        self.assertGreater(len(str(context.exception)), 16_384)

    def test_closing(self) -> None:
        self.units.close()
        self.units.close()
        for call in (lambda: self.units.convert("m", "m"), lambda: self.units.value("m"), self.units.undo,
                     lambda: self.units.define("x 2 m"), lambda: self.units.search("m")):
            with self.assertRaises(exact_units.BackEndError):
                call()

    def test_text_path_and_built_in_exclude_each_other(self) -> None:
        for options in ({"path": "a", "text": "m !"}, {"path": "a", "built_in": True}, {"text": "", "built_in": True}):
            with self.assertRaises(TypeError):
                self.open(**options)

    def test_doctests(self) -> None:
        for module in (exact_units, units):
            self.assertEqual(doctest.testmod(module).failed, 0)


@unittest.skipUnless(LIBRARY, "EXACT_UNITS_LIBRARY is not set")
class LibraryTests(BackEndTests, unittest.TestCase):
    def open(self, **options: object) -> Units:
        return Units(backend="library", **options)  # type: ignore[arg-type]

    def test_auto_is_the_library(self) -> None:
        with Units(text=TEXT) as instance:
            self.assertEqual(instance.backend, "library")

    def test_a_missing_library(self) -> None:
        with self.assertRaises(exact_units.BackEndError):
            Units(text=TEXT, library="/absent/libunits.so.1")

    def test_threads(self) -> None:
        right = []

        def work() -> None:
            with self.open(text=TEXT) as instance:
                right.append(all(instance.convert(f"{n} ft", "inch") == 12 * n for n in range(300)))

        threads = [threading.Thread(target=work) for _ in range(4)]
        for thread in threads:
            thread.start()
        for thread in threads:
            thread.join()
        self.assertEqual(right, [True] * 4)


@unittest.skipUnless(PROGRAM, "EXACT_UNITS_PROGRAM is not set")
class SessionTests(BackEndTests, unittest.TestCase):
    def open(self, **options: object) -> Units:
        return Units(backend="session", **options)  # type: ignore[arg-type]

    def test_a_missing_program(self) -> None:
        with self.assertRaises(exact_units.BackEndError):
            Units(text=TEXT, backend="session", program="/absent/units")

    def test_another_program(self) -> None:
        for program in ("/bin/false", "/bin/true"):
            with self.assertRaises(exact_units.BackEndError):
                Units(text=TEXT, backend="session", program=program)


class ProgramTests(unittest.TestCase):
    """A pure wheel looks for the program by its two names, of which GNU units has one."""

    def setUp(self) -> None:
        folder = tempfile.TemporaryDirectory()
        self.addCleanup(folder.cleanup)
        self.folder = Path(folder.name)
        for name, value in (("_FOLDER", f"{folder.name}/package"), ("_REPOSITORY", folder.name)):
            patch = unittest.mock.patch.object(units, name, value)
            patch.start()
            self.addCleanup(patch.stop)
        patch = unittest.mock.patch.dict(os.environ, {"PATH": folder.name}, clear=True)
        patch.start()
        self.addCleanup(patch.stop)

    def add(self, name: str, text: str) -> None:
        (self.folder / name).write_text(f"#!/bin/sh\n{text}\n")
        (self.folder / name).chmod(0o755)

    def message(self) -> str:
        with self.assertRaises(exact_units.BackEndError) as context:
            Units(text=TEXT, backend="session")
        return str(context.exception)

    def test_gnu_units_is_refused(self) -> None:
        self.add("units", '[ "$1" = --version ] && echo "GNU Units version 2.22"; exit 1')
        self.assertIn(f"{self.folder}/units is GNU units", self.message())

    def test_exact_units_comes_first(self) -> None:
        self.add("units", "exit 1")
        self.add("exact-units", "exit 9")
        self.assertIn("status 9", self.message())

    def test_no_program(self) -> None:
        self.assertIn("cannot start exact-units", self.message())


class QuantityTests(unittest.TestCase):
    length, time = Quantity(3, {"m": 1}), Quantity(Fraction(1, 2), {"s": 1})

    def test_arithmetic(self) -> None:
        self.assertEqual(str(self.length / self.time), "6 m / s")
        self.assertEqual(str(2 * self.length - self.length / 3), "5 m")
        self.assertEqual(str((self.length * self.length) ** Fraction(1, 2)), "3 m")
        self.assertEqual(1 / (self.time / self.time), 1)
        self.assertEqual(self.length ** -1, Quantity(Fraction(1, 3), {"m": -1}))
        self.assertEqual(str(-self.length + abs(-self.length)), "0 m")
        self.assertEqual(Quantity(Fraction(-8, 27)) ** Fraction(1, 3), Fraction(-2, 3))
        self.assertEqual(sum([self.length, self.length], Quantity(0, {"m": 1})), 2 * self.length)
        self.assertEqual(len({self.length, Quantity(3, {"m": 1}), 3, Quantity(3)}), 2)

    def test_comparisons(self) -> None:
        self.assertLess(self.length, 2 * self.length)
        self.assertGreaterEqual(self.length, self.length)
        self.assertNotEqual(self.length, 3)
        self.assertNotEqual(self.length, "3 m")

    def test_refusals(self) -> None:
        for kind, act in (
            (faults.UnlikeSum, lambda: self.length + self.time),
            (faults.UnlikeSum, lambda: 1 - self.length),
            (faults.UnlikeSum, lambda: self.length < 1),
            (faults.DivisionByZero, lambda: self.length / 0),
            (faults.DivisionByZero, lambda: Quantity(0) ** -1),
            (faults.NoExactRoot, lambda: Quantity(2) ** Fraction(1, 2)),
            (faults.NoExactRoot, lambda: Quantity(-4) ** Fraction(1, 2)),
            (faults.ConformabilityError, lambda: float(self.length)),
            (faults.UnlikeSum, lambda: self.length + 1.5),
            (TypeError, lambda: self.length + "1.5"),
            (TypeError, lambda: Quantity(1.5)),
            (TypeError, lambda: self.length ** "0.5"),
        ):
            with self.assertRaises(kind):
                act()

    def test_it_is_immutable(self) -> None:
        self.length.dimension["m"] = Fraction(7)
        self.assertEqual(self.length.dimension, {"m": 1})
        with self.assertRaises(AttributeError):
            self.length.magnitude = Fraction(1)  # type: ignore[misc]

    def test_doctests(self) -> None:
        self.assertEqual(doctest.testmod(quantity).failed, 0)


class HeaderTests(unittest.TestCase):
    def test_statuses_are_those_of_the_header(self) -> None:
        header = dict(re.findall(r"UNITS_(\w+) = (\d+)", HEADER.read_text()))
        kinds = {str(kind.status) for kind in faults.KINDS}
        others = {"DONE", "NO_ROOM", "CLOSED", "ALREADY_OPEN", "BAD_OPTIONS", "READ_FAILED", "CELL_ERROR"}
        self.assertEqual({n for name, n in header.items() if name not in others}, kinds)


if __name__ == "__main__":
    unittest.main()
