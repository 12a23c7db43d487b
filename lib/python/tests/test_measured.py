"""Tests of measured numbers, numpy arrays and pandas columns, with each back end.

The tests of numpy and pandas are skipped by name if these are not installed.
"""

from __future__ import annotations

import importlib
import math
import os
import pickle
import random
import subprocess
import sys
import unittest
from decimal import Decimal
from fractions import Fraction
from pathlib import Path
from typing import Any

import exact_units
from exact_units import Measured, Quantity, Units, faults
from exact_units.nearest import Line

LIBRARY = os.environ.get("EXACT_UNITS_LIBRARY")
PROGRAM = os.environ.get("EXACT_UNITS_PROGRAM")
PACKAGE = Path(exact_units.__file__).resolve().parent
LINES = [Line(Fraction(381, 1250)), Line(Fraction(12)), Line(Fraction(1, 12)), Line(Fraction(45359237, 10**8)),
         Line(Fraction(5, 9), Fraction(-160, 9)), Line(Fraction(1), Fraction(5463, 20)), Line(Fraction(-1, 3)),
         Line(Fraction(3**60, 7**40), Fraction(1, 3)), Line(Fraction(1, 3**70)), Line(Fraction(2**126 + 1, 3))]
ODD = [0.0, -0.0, math.inf, -math.inf, 5e-324, 1.7976931348623157e308, -2.2250738585072014e-308, 1e-300, 32.0, 1250.0]


def module(name: str) -> Any:
    """Return a module, or skip the test."""
    try:
        return importlib.import_module(name)
    except ImportError:
        raise unittest.SkipTest(f"{name} is not installed") from None


class MeasuredTests:
    """Tests for both back ends."""

    backend = ""
    units: Units

    @classmethod
    def setUpClass(cls) -> None:
        cls.units = Units(backend=cls.backend)
        exact_units.set_default_units(cls.units)

    @classmethod
    def tearDownClass(cls) -> None:
        exact_units.set_default_units(None)
        cls.units.close()

    def test_mixed_arithmetic_is_measured(self) -> None:
        ft = self.units["ft"]
        for result, text in ((2.5 * ft, "2.5 ft"), (ft * 2.5, "2.5 ft"), (2.5 * ft + 6 * self.units["in"], "3.0 ft"),
                             (ft + Measured(6, "in"), "1.5 ft"), (1 / (0.5 * ft), "2.0 1 / ft".replace(" 1", "")),
                             (Measured(7, "ft") % ft, "0.0 ft"), (Measured(4, "ft^2") ** 0.5, "2.0 ft"),
                             (Decimal("1.5") * Measured(2, "ft"), "3.0 ft"), (0 + Measured(2, "ft"), "2.0 ft"),
                             (sum([Measured(2, "ft")] * 2), "4.0 ft"), (round(Measured(2.345, "ft"), 1), "2.3 ft")):
            self.assertIs(type(result), Measured)
            self.assertEqual(str(result), text)
        self.assertEqual(Measured(1, "ft").to("m").value, 0.3048)
        self.assertEqual(Measured(12, "in"), ft)
        self.assertLess(Measured(11.5, "in"), ft)
        self.assertNotEqual(Measured(1, "ft"), self.units["s"])
        self.assertEqual(float(Measured(1, "ft") / Measured(1, "in")), 12.0)
        self.assertEqual(f"{Measured(2.5, 'ft'):.1f cm}", "76.2 cm")
        self.assertEqual(Measured(0.5, "ft").exact(), Quantity(Fraction(381, 2500), {"m": 1}))
        self.assertEqual(str(pickle.loads(pickle.dumps(Measured(2.5, "ft"))).to("in")), "30.0 in")

    def test_refusals(self) -> None:
        length = Measured(2.5, "ft")
        for kind, act in ((faults.UnlikeSum, lambda: length + 1), (faults.UnlikeSum, lambda: length < 1.0),
                          (faults.ConformabilityError, lambda: length.to("s")), (TypeError, lambda: hash(length)),
                          (faults.ConformabilityError, lambda: length.to("ft;in")), (TypeError, lambda: Measured("1")),
                          (faults.ScaleFault, lambda: Measured(72, "tempF") + 1), (TypeError, lambda: Measured(1j)),
                          (faults.NotInDomain, lambda: Measured(-500, "tempF").to("tempC")),
                          (ValueError, lambda: length ** 0.12345678)):
            with self.assertRaises(kind):
                act()

    def test_scales(self) -> None:
        self.assertEqual(Measured(72, "tempF").to("tempC").value, float(Fraction(40 * 5, 9)))
        self.assertEqual(str(Measured(25, "tempC").to("K")), "298.15 K")
        self.assertEqual(str(Measured(300, "K").to("tempF")), "tempF(80.33)")
        self.assertEqual(Measured(1e-30, "tempC").to("K").value, 273.15)

    def test_random_pairs(self) -> None:
        rng = random.Random(10)
        groups = [["ft", "m", "mile", "survey_foot", "nm", "parsec"], ["psi", "kPa", "atm", "mmHg", "inH2O"],
                  ["mph", "km/h", "knot", "ft/s"], ["lb", "kg", "oz", "grain"], ["BTU", "kWh", "J", "eV"]]
        for _ in range(500):
            one, other = rng.sample(rng.choice(groups), 2)
            x = rng.uniform(-1, 1) * 10 ** rng.randint(-9, 9)
            exact = Fraction(x) * self.units.convert(one, other)
            self.assertEqual(self.units.measured(x, one).to(other).value, float(exact), (x, one, other))

    def test_arrays_of_scales(self) -> None:
        numpy = module("numpy")
        rng = numpy.random.default_rng(11)
        for one, other in (("tempF", "tempC"), ("K", "tempF"), ("tempC", "K"), ("psig", "kPa"), ("tempcelsius", "tempF")):
            numbers = rng.uniform(1, 1e3, 300)
            column = self.units.convert_column(numbers.tolist(), one, other)
            numbers[:2] = math.nan, math.inf
            result = self.units.measured(numbers, one).to(other).value.tolist()
            self.assertEqual(result[2:], column[2:], (one, other))
            self.assertTrue(math.isnan(result[0]) and result[1] == math.inf)
        # This one is no line.
        result = self.units.measured(numpy.array([4.0, 8.0]), "scoop").to("us_fluid_ounce").value.tolist()
        self.assertEqual(result, [8.0, 4.0])
        with self.assertRaises(faults.NotInDomain):
            self.units.measured(numpy.array([0.0, -500.0]), "tempF").to("tempC")

    def test_numpy(self) -> None:
        numpy = module("numpy")
        ft, lengths = self.units["ft"], numpy.array([1.0, 2.0, 3.0]) * self.units["ft"]
        for result, text in (
            (lengths + 6 * self.units["in"], "[1.5 2.5 3.5] ft"), (numpy.sum(lengths), "6.0 ft"),
            (lengths.mean(), "2.0 ft"), (numpy.concatenate([lengths, lengths.to("in")])[3:], "[1. 2. 3.] ft"),
            (numpy.where(lengths > ft, lengths, 0), "[0. 2. 3.] ft"), (numpy.sqrt(lengths * lengths), "[1. 2. 3.] ft"),
            (numpy.clip(lengths, 2 * ft, None), "[2. 2. 3.] ft"), (numpy.dot(lengths, lengths), "14.0 ft^2"),
            (numpy.linspace(0 * ft, 3 * ft, 4), "[0. 1. 2. 3.] ft"), (numpy.trapz(lengths), "4.0 ft"),
            (numpy.sin(Measured([0.0, 90.0], "deg")), "[0. 1.]"), (numpy.int64(3) * ft, "3 ft"),
            (numpy.float64(2.5) * ft, "2.5 ft"), (numpy.var(lengths) * 3, "2.0 ft^2"), (lengths[1:], "[2. 3.] ft"),
        ):
            self.assertEqual(str(result), text)
        self.assertEqual((lengths == lengths.to("m")).tolist(), [True] * 3)
        self.assertEqual((lengths == self.units["s"]).tolist(), [False] * 3)
        self.assertTrue(numpy.allclose(lengths, lengths.to("m")))
        masked = ft * numpy.ma.array([1.0, 2.0], mask=[False, True])
        self.assertEqual(str(masked.to("in") + ft), "[24.0 --] in")
        for act in (lambda: lengths + 1, lambda: numpy.exp(lengths), lambda: numpy.asarray(lengths),
                    lambda: numpy.prod(lengths), lambda: numpy.linalg.inv(lengths), lambda: numpy.clip(lengths, 1, 2),
                    lambda: numpy.add(lengths, lengths, out=numpy.zeros(3)), lambda: numpy.frexp(lengths)):
            with self.assertRaises((TypeError, faults.UnitsError)):
                act()

    def test_pandas(self) -> None:
        pandas = module("pandas")
        importlib.import_module("exact_units.pandas")
        numpy = module("numpy")
        table = pandas.DataFrame({"length": [1.0, None, 3.0], "width": [2, 4, 6], "kind": ["x", "y", "x"]})
        table = table.astype({"length": "unit[ft]", "width": "unit[in]"})
        table["area"] = table.length * table.width
        self.assertEqual([str(kind) for kind in table.dtypes], ["unit[ft]", "unit[in]", "object", "unit[ft in]"])
        self.assertEqual(table.length.isna().tolist(), [False, True, False])
        self.assertEqual(table.length.unit.to("in").isna().tolist(), [False, True, False])
        self.assertEqual(str(table.length.sum().to("in")), "48.0 in")
        self.assertEqual(str(table.area.astype("unit[ft^2]").max()), "1.5 ft^2")
        self.assertEqual([str(x) for x in table.groupby("kind").length.sum()], ["4.0 ft", "0.0 ft"])
        self.assertIn("1.0 ft,2.0 in,x", table.to_csv())
        self.assertTrue(pickle.loads(pickle.dumps(table)).equals(table))
        self.assertEqual(table[table.length > self.units["ft"]].index.tolist(), [2])
        self.assertEqual(str(pandas.concat([table.length, table.width.astype("unit[ft]")]).dtype), "unit[ft]")
        whole = pandas.Series([1, None], dtype="Int64").astype("unit[ft]")
        self.assertEqual(whole.isna().tolist(), [False, True])
        warmth = pandas.Series([32.0, None], dtype="unit[tempF]").unit.to("tempC")
        self.assertEqual((warmth.unit.name, warmth.array.measured.value[0]), ("tempC", 0.0))
        for act in (lambda: table.length + 1, lambda: table.length.prod(), lambda: table.length + self.units["s"],
                    lambda: pandas.Series([1.0], dtype="unit[parsnip]"), lambda: pandas.Series(["a"], dtype="unit[ft]"),
                    lambda: pandas.Series(numpy.array([1.0]) * self.units["ft"]), lambda: warmth.sum()):
            with self.assertRaises((TypeError, faults.UnitsError)):
                act()

    def test_pipe_flow(self) -> None:
        """What a user of pint writes: the loss of pressure in a pipe."""
        u = self.units
        diameter, length, flow = 4 * u["in"], 250 * u["ft"], 300 * u["gal/min"]
        density, viscosity, roughness = 998.2 * u["kg/m^3"], 1.002e-3 * u["Pa s"], 0.045 * u["mm"]
        area = u.value("pi") * diameter**2 / 4
        velocity = (flow / area).to("m/s")
        reynolds = float(density * velocity * diameter / viscosity)
        smooth = float(roughness / (3.7 * diameter))
        factor = (-1.8 * math.log10(smooth**1.11 + 6.9 / reynolds)) ** -2
        loss = factor * (length / diameter) * density * velocity**2 / 2
        self.assertEqual(f"{velocity:.3f}", "2.335 m / s")
        self.assertTrue(2.3e5 < reynolds < 2.4e5)
        self.assertIs(type(velocity), Quantity)
        self.assertTrue(30 < loss.to("kPa").value < 40, loss.to("kPa"))
        self.assertRegex(f"{loss:.1f kPa}", r"^3\d\.\d kPa$")
        self.assertRegex(f"{loss:.2f psi}", r"^\d\.\d\d psi$")


@unittest.skipUnless(LIBRARY, "EXACT_UNITS_LIBRARY is not set")
class LibraryTests(MeasuredTests, unittest.TestCase):
    backend = "library"


@unittest.skipUnless(PROGRAM, "EXACT_UNITS_PROGRAM is not set")
class SessionTests(MeasuredTests, unittest.TestCase):
    backend = "session"


class NearestTests(unittest.TestCase):
    def test_a_million_numbers(self) -> None:
        numpy = module("numpy")
        rng = numpy.random.default_rng(12)
        for line in LINES:
            numbers = numpy.concatenate([
                rng.integers(0, 2**64, 20_000, dtype=numpy.uint64).view(float), rng.uniform(-1e3, 1e3, 60_000),
                numpy.round(rng.uniform(-1e5, 1e5, 20_000)) * 1250, ODD])
            with numpy.errstate(all="ignore"):
                result = line.array(numbers)
            exact = numpy.array([line.number(x) if x == x else x for x in numbers.tolist()])
            self.assertTrue(numpy.array_equal(result, exact, equal_nan=True), line)
            self.assertEqual(numpy.signbit(result[-10:]).tolist(), numpy.signbit(exact[-10:]).tolist())

    def test_numbers_beside_fractions(self) -> None:
        rng = random.Random(13)
        for line in LINES:
            for x in (rng.uniform(-1e6, 1e6) for _ in range(500)):
                self.assertEqual(line.number(x), float(Fraction(x) * line.ratio + line.offset))

    def test_the_fast_way_errs_by_one_last_digit(self) -> None:
        numpy = module("numpy")
        with Units() as units:
            numbers = units.measured(numpy.random.default_rng(14).uniform(-1e6, 1e6, 20_000), "ft")
            near, fast = numbers.to("m").value, numbers.to("m", nearest=False).value
        self.assertTrue((numpy.abs(near - fast) <= numpy.spacing(numpy.abs(near))).all())
        self.assertFalse((near == fast).all())

    def test_without_numpy(self) -> None:
        program = ("import sys\nsys.modules['numpy'] = sys.modules['pandas'] = None\n"
                   "from exact_units import Units\nu = Units()\nprint(2.5 * u['ft'], u.measured(2.5, 'ft').to('m'))")
        done = subprocess.run([sys.executable, "-c", program], stdin=subprocess.DEVNULL, capture_output=True, text=True,
                              env={**os.environ, "PYTHONPATH": str(PACKAGE.parent)}, check=False)
        self.assertEqual((done.stdout, done.stderr), ("2.5 ft 0.762 m\n", ""))

    def test_types(self) -> None:
        api = module("mypy.api")
        output, _, status = api.run(["--strict", "--cache-dir", os.devnull, str(PACKAGE)])
        self.assertEqual(status, 0, output)


if __name__ == "__main__":
    unittest.main()
