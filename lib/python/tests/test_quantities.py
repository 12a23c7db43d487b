"""Tests of exact quantities that are shown in units, with each back end."""

from __future__ import annotations

import copy
import decimal
import doctest
import math
import operator
import os
import pickle
import random
import unittest
from decimal import Decimal
from fractions import Fraction
from typing import Any, Callable, Dict

import exact_units
from exact_units import Measured, Quantity, Units, faults, floats, lines, nearest, number_text, quantity, roots, shown, unit

LIBRARY = os.environ.get("EXACT_UNITS_LIBRARY")
PROGRAM = os.environ.get("EXACT_UNITS_PROGRAM")
TEXT = "m !\ns !\nkg !\nK !\nin 254|10000 m\nft 12 in\nfoot ft\nN kg m/s^2\n<b> 2 m\nnegative -1 m\nnothing 0 m\n"


class QuantityTests:
    """Tests for both back ends."""

    backend = ""
    units: Units

    @classmethod
    def setUpClass(cls) -> None:
        cls.units = Units(backend=cls.backend)

    @classmethod
    def tearDownClass(cls) -> None:
        cls.units.close()

    def test_units_and_texts(self) -> None:
        force = self.units.value("9.81 kg m/s^2")
        for text, shown_text in {"N": "981|100 N", "kN": "981|100000 kN", "kg m/s^2": "981|100 kg m / s^2",
                                 "kg*m / s s": "981|100 kg m / s^2", "1/(s^2/kg m)": "981|100 (1/(s^2/kg m))",
                                 "10 N": "981|1000 (10 N)", "newton": "981|100 newton"}.items():
            with self.subTest(text=text):
                there = force.to(text)
                self.assertEqual(str(there), shown_text)
                self.assertEqual(there, force)
                self.assertEqual(hash(there), hash(force))
                self.assertEqual(self.units.value(str(there)), force)
        self.assertEqual((force.to("kN").magnitude, force.to("kN").unit), (Fraction(981, 100000), "kN"))
        self.assertEqual(force.number("kN"), Fraction(981, 100000))
        self.assertEqual(str(force.to("kN").to_base()), "981|100 kg m / s^2")
        self.assertEqual(repr(force.to("kN")), "<Quantity 981|100000 kN>")

    def test_words_are_read_back(self) -> None:
        rng = random.Random(8)
        names = ["ft", "kg", "s", "in^2", "N^-1", "m^3", "kPa", "1"]
        for _ in range(60):
            text = "".join(rng.choice(names) + rng.choice([" ", " * ", " / ", "/", "*"]) for _ in range(4)) + "s"
            one = self.units[text]
            self.assertEqual(self.units.value(one.unit), self.units.value(text), text)
            self.assertEqual(self.units.value(f"({one.unit}) {one.unit}"), one * one, text)

    def test_formats(self) -> None:
        pressure = self.units.value("123456.789 Pa")
        for form, text in {".3f kPa": "123.457 kPa", " kPa": "123456789|1000000 kPa", ".4g psi": "17.91 psi",
                           ">12.1f kPa": "       123.5 kPa", "": str(pressure), ".2e": "1.23e+05 kg / m s^2",
                           ",.1f": "123,456.8 kg / m s^2", "+.30f bar": "+1.234567890000000000000000000000 bar"}.items():
            self.assertEqual(format(pressure, form), text)
        for form in ("~.3g", ".3f~P", ".3fkPa", "d", ".3x", "05,.1f", ".99999f", "999999.1f"):
            with self.assertRaises(ValueError):
                format(pressure, form)
        with self.assertRaises(faults.ConformabilityError):
            format(pressure, ".3f m")

    def test_numbers_are_formatted_as_floats_are(self) -> None:
        rng = random.Random(9)
        for _ in range(3000):
            x = rng.choice([rng.uniform(-1e6, 1e6), rng.uniform(-1, 1) * 10 ** rng.randint(-20, 20), 0.0, 0.5, 2.5])
            group = rng.choice(["", ",", "_"])
            form = (rng.choice(["", "<", ">", "^", "=", "*<", "x^"]) + rng.choice(["", "+", " ", "-"])
                    + ("" if group else rng.choice(["", "0"])) + rng.choice(["", "12", "25"]) + group
                    + f".{rng.randint(0, 12)}{rng.choice('eEfFgG')}")
            self.assertEqual(number_text.format_fraction(Fraction(x), form), format(x + 0.0, form), (x, form))

    def test_rounding(self) -> None:
        length = self.units.value("1.2345 m")
        self.assertEqual(str(round(length.to("cm"), 1)), "617|5 cm")
        self.assertEqual(str(round(length.to("cm"))), "123 cm")
        self.assertEqual(str(round(self.units.value("2.5 m"))), "2 m")
        self.assertEqual(str(round(self.units.value("12345 m"), -2)), "12300 m")

    def test_lists(self) -> None:
        height = self.units.value("66.5 in")
        for text in ("ft;in", " ft ; in", "ftin"):
            there = height.to(text)
            self.assertEqual((str(there), there.counts), ("5 ft + 13|2 in", (5, Fraction(13, 2))))  # type: ignore
            self.assertEqual(there, height)
        self.assertEqual(str(self.units.value("5400 s").to("hms")), "1 hr + 30 min + 0 sec")
        self.assertEqual(f"{self.units.value('71.96 in'):.1f ft;in}", "6 ft + 0.0 in")
        self.assertEqual(f"{self.units.value('-71.96 in'):.1f ft;in}", "-6 ft + 0.0 in")
        self.assertEqual(str(height.to("ft;in") / 7), "19|24 ft")
        self.assertEqual(str(pickle.loads(pickle.dumps(height.to("ft;in")))), "5 ft + 13|2 in")
        for text, kind in {"ft;s": faults.ConformabilityError, ";ft": faults.NotAnExpression,
                           "ft;": faults.NotAnExpression, "ft;parsnip": faults.UnknownUnit,
                           "ft;in\n:quit": faults.NotAnExpression}.items():
            with self.assertRaises(kind):
                height.to(text)
        with self.assertRaises(ValueError):
            format(height, ".1e ft;in")

    def test_functions(self) -> None:
        warmth = self.units.value("tempF(45)")
        there = warmth.to("tempC")
        self.assertEqual((str(there), there.magnitude, there.unit), ("tempC(65|9)", Fraction(65, 9), "tempC"))
        self.assertEqual(self.units.value(str(there)), warmth)
        self.assertEqual(f"{warmth:.2f tempC}", "tempC(7.22)")
        self.assertEqual(str(round(there, 1)), "tempC(36|5)")
        self.assertEqual(there + self.units.value("1 K"), warmth + self.units.value("1 K"))
        self.assertEqual(str(pickle.loads(pickle.dumps(there))), str(there))
        with self.assertRaises(faults.NotInRange):
            self.units.value("-1 K").to("tempC")

    def test_refused_units(self) -> None:
        with Units(text=TEXT, backend=self.backend) as units:
            length = units.value("3 m")
            self.assertEqual(str(length.to("negative")), "-3 negative")
            for text, kind in {"nothing": faults.DivisionByZero, "s": faults.ConformabilityError,
                               "parsnip": faults.UnknownUnit, "2 +": faults.SyntaxFault, "": faults.NotAnExpression,
                               "m\n:quit": faults.NotAnExpression}.items():
                with self.assertRaises(kind):
                    length.to(text)
            for call in (lambda: units[0], lambda: list(units), lambda: length.to(None)):  # type: ignore
                with self.assertRaises(TypeError):
                    call()

    def test_edits_are_seen(self) -> None:
        with Units(text=TEXT, backend=self.backend) as units:
            length = units.value("6 m")
            units.define("span 2 m")
            self.assertEqual(str(length.to("span")), "3 span")
            units.define("span 3 m")
            self.assertEqual(str(length.to("span")), "2 span")
            units.undo()
            self.assertEqual(str(length.to("span")), "3 span")
            units.drop("span")
            with self.assertRaises(faults.UnknownUnit):
                length.to("span")
        with self.assertRaises(faults.BackEndError):
            length.to("ft")

    def test_conforming_units(self) -> None:
        with Units(text=TEXT + "f(x) units=[1;m] x m\ng[m] 1 2 3 6\n!unitlist l ft;in\nkilo- 1000\nbad 2 gone\n",
                   backend=self.backend) as units:
            self.assertEqual(units.value("3 ft").conforming(), ["<b>", "foot", "ft", "in", "m", "negative", "nothing"])
            self.assertEqual(units.conforming("2 N/kg"), [])
            with self.assertRaises(faults.UnknownUnit):
                units.conforming("parsnip")
            self.assertEqual(units.convert("3 ft", "in"), 36)
        self.assertIn("psi", self.units.conforming("1 kPa"))

    def test_notebooks(self) -> None:
        with Units(text=TEXT, backend=self.backend) as units:
            one = units.value("2|3 m").to("<b>") / units.value("s^2")
            self.assertEqual(one._repr_html_(), "≈ 0.333333333 &lt;b&gt;/s<sup>2</sup>")
            self.assertEqual((2.5 * units["<b>"])._repr_html_(), "2.5 &lt;b&gt;")
            self.assertEqual(Quantity(Fraction(1, 8))._repr_html_(), "0.125")
            self.assertEqual(one._repr_latex_(), r"$≈ 0.333333333\ \mathrm{<b>} / \mathrm{s}^{2}$".replace("≈", r"\approx"))
        self.assertEqual(self.units["survey_foot"]._repr_latex_(), r"$1\ \mathrm{survey\_foot}$")
        self.assertEqual((10**20 * self.units["m"] * self.units["K"])._repr_latex_(),
                         r"$1 \times 10^{20}\ \mathrm{m} \cdot \mathrm{K}$")

    def test_units_of_results(self) -> None:
        u = self.units
        for result, text in {
            3 * u["kg"] * u["m"] / u["s"] ** 2: "3 kg m / s^2", 5 * u["ft"] + 6 * u["in"]: "11|2 ft",
            u["ft"] / u["in"]: "1 ft / in", 2 / u["s"]: "2 1 / s".replace("2 1", "2"), u["ft"] ** 2: "1 ft^2",
            (4 * u["ft^2"]) ** Fraction(1, 2): "2 ft", u["ft"] - 0: "1 ft", 0 + u["ft"]: "1 ft",
            (u.value("4|25 m") * u["ft"] / u["ft"]) ** 2: "16|625 m^2", u["ft"] * u["ft"] / u["ft"]: "1 ft",
        }.items():
            self.assertEqual(str(result), text)
        self.assertEqual(float(u["ft"] / u["in"]), 12.0)
        self.assertEqual(u["ft"] / u["in"], 12)
        self.assertEqual(hash(u["ft"] / u["in"]), hash(12))

    def test_a_pickled_quantity_has_the_default_definitions(self) -> None:
        with Units(text=TEXT + "ourspan 9 in\n", backend=self.backend) as units:
            length = units.value("18 in").to("ourspan")
            there = pickle.loads(pickle.dumps(length))
            self.assertEqual((str(there), there), ("2 ourspan", length))
            with self.assertRaises(faults.UnknownUnit):
                there.to("3 ourspan")
            exact_units.set_default_units(units)
            self.addCleanup(exact_units.set_default_units, None)
            self.assertEqual(str(there.to("3 ourspan")), "2|3 (3 ourspan)")
            exact_units.set_default_units(None)
            self.assertEqual(str(copy.deepcopy(length).to("3 ourspan")), "2|3 (3 ourspan)")
            self.assertEqual(str(copy.copy(length).to("3 ourspan")), "2|3 (3 ourspan)")


@unittest.skipUnless(LIBRARY, "EXACT_UNITS_LIBRARY is not set")
class LibraryTests(QuantityTests, unittest.TestCase):
    backend = "library"


@unittest.skipUnless(PROGRAM, "EXACT_UNITS_PROGRAM is not set")
class SessionTests(QuantityTests, unittest.TestCase):
    backend = "session"


class Foreign:
    """A class whose operators take anything."""

    def __getattr__(self, name: str) -> Any:
        raise AttributeError(name)

    __radd__ = __rsub__ = __rmul__ = __rtruediv__ = __rfloordiv__ = __rmod__ = __rpow__ = __rdivmod__ = (
        lambda self, other: "mine"
    )
    __lt__ = __le__ = __gt__ = __ge__ = __eq__ = lambda self, other: "mine"  # type: ignore[assignment]


class ArithmeticTests(unittest.TestCase):
    length, time = Quantity(3, {"m": 1}), Quantity(Fraction(1, 2), {"s": 1})

    def test_quotients_and_remainders(self) -> None:
        one, other = Quantity(Fraction(17, 2), {"m": 1}), Quantity(-2, {"m": 1})
        self.assertEqual((one // other, one % other), (-5, Quantity(Fraction(-3, 2), {"m": 1})))
        self.assertEqual(divmod(one, other), (one // other, one % other))
        self.assertEqual(divmod(7, Quantity(2)), (3, 1))
        self.assertEqual((7 // Quantity(2), 7 % Quantity(2), Decimal("7.5") % Quantity(2)), (3, 1, Fraction(3, 2)))
        for act in (operator.floordiv, operator.mod, divmod):
            for two in (self.time, 2):
                with self.assertRaises(faults.UnlikeSum):
                    act(one, two)
            with self.assertRaises(faults.DivisionByZero):
                act(one, Quantity(0, {"m": 1}))

    def test_sums(self) -> None:
        self.assertEqual(sum([self.length, self.length]), 2 * self.length)
        self.assertEqual(sum([], self.length), self.length)
        self.assertEqual(self.length - 0, self.length)
        self.assertEqual(0 - self.length, -self.length)
        self.assertTrue(self.length > 0 and not self.length < 0 and 0 < self.length)
        with self.assertRaises(faults.UnlikeSum):
            sum([self.length, self.time])
        self.assertNotEqual(Quantity(0, {"m": 1}), 0)

    def test_numbers_by_value(self) -> None:
        half = Quantity(Fraction(1, 2))
        for number in (0.5, Fraction(1, 2), Decimal("0.5"), Quantity(Fraction(1, 2))):
            self.assertTrue(half == number and number == half and not half != number, number)
            self.assertEqual(hash(half), hash(number))
            self.assertTrue(half <= number <= half and not half < number)
            self.assertEqual({half: 1}[number], 1)
        self.assertNotEqual(Quantity(Fraction(1, 10)), 0.1)
        self.assertEqual(Quantity(Fraction(1, 10)), Decimal("0.1"))
        self.assertFalse(half == math.nan or half < math.nan or half > math.nan)
        self.assertTrue(half < math.inf and half > -math.inf)
        self.assertNotEqual(half, Decimal("nan"))
        self.assertNotEqual(self.length, 3)
        with self.assertRaises(faults.UnlikeSum):
            self.length < 1.5

    def test_foreign_operands(self) -> None:
        acts: Dict[str, Callable[[Any, Any], Any]] = {
            name: getattr(operator, name) for name in ("add", "sub", "mul", "truediv", "floordiv", "mod", "pow", "lt", "eq")
        }
        for act in (*acts.values(), divmod):
            for one in (self.length, Measured(3.0)):
                self.assertEqual(act(one, Foreign()), "mine")
        for act in (operator.add, operator.mul, operator.truediv, operator.lt, operator.mod):
            for other in ("x", None, [1], object(), 1j, Decimal("nan")):
                with self.assertRaises(TypeError):
                    act(self.length, other)
                with self.assertRaises(TypeError):
                    act(other, self.length)

    def test_exact_numbers(self) -> None:
        for two in (2, Fraction(2), Decimal("2.0"), True + 1):
            self.assertEqual((self.length * two, two * self.length), (Quantity(6, {"m": 1}),) * 2)
            self.assertIs(type(self.length * two), Quantity)
        with decimal.localcontext() as context:
            context.prec = 3
            self.assertEqual(self.length * Decimal("1.23456789"), Quantity(Fraction("3.70370367"), {"m": 1}))

    def test_a_root_of_a_great_degree(self) -> None:
        with self.assertRaises(faults.NoExactRoot):
            Quantity(2) ** Fraction(1, 10**9)
        self.assertEqual(Quantity(1) ** Fraction(1, 10**9), 1)

    def test_doctests(self) -> None:
        for module in (quantity, unit, number_text, roots, shown, lines, nearest, floats):
            self.assertEqual(doctest.testmod(module).failed, 0, module)


if __name__ == "__main__":
    unittest.main()
