"""Quantities as fractions with dicts of exponents, within the limits of the program."""

import math
from fractions import Fraction

GREATEST = 2**127 - 1
GREATEST_EXPONENT, GREATEST_SHARE = 32767, 60


class Fault(Exception):
    """Why there is no value."""


def number(text):
    """The value of a bound or a number of a table."""
    numerator, _, denominator = text.strip().partition("|")
    return Fraction(numerator) / Fraction(denominator or 1)


def fitting(x):
    if max(abs(x.numerator), x.denominator) > GREATEST:
        raise Fault("overflow")
    return x


def added(x, y):
    """The sum over the least common multiple. It, both numerators and their sum have to fit."""
    multiple = math.lcm(x.denominator, y.denominator)
    left = x.numerator * (multiple // x.denominator)
    right = y.numerator * (multiple // y.denominator)
    if max(multiple, abs(left), abs(right), abs(left + right)) > GREATEST:
        raise Fault("overflow")
    return Fraction(left + right, multiple)


def over(x, y):
    if y == 0:
        raise Fault("division by zero")
    return fitting(x / y)


class Quantity:
    """A number with exponents of names, none of which is 0."""

    def __init__(self, value, exponents=()):
        self.value = Fraction(value)
        self.exponents = {name: by for name, by in dict(exponents).items() if by != 0}

    def text(self):
        def power(name, by):
            if by == 1:
                return f" {name}"
            return f" {name}^{by.numerator}" + (f"|{by.denominator}" if by.denominator > 1 else "")

        x = self.value
        number = str(x.numerator) + (f"|{x.denominator}" if x.denominator > 1 else "")
        names = sorted(self.exponents.items())
        positive = "".join(power(n, by) for n, by in names if by > 0)
        negative = "".join(power(n, -by) for n, by in names if by < 0)
        return number + positive + (" /" + negative if negative else "")

    def scaled(self, other, sign):
        value = fitting(self.value * other.value) if sign > 0 else over(self.value, other.value)
        exponents = {
            name: self.exponents.get(name, 0) + sign * other.exponents.get(name, 0)
            for name in self.exponents.keys() | other.exponents.keys()
        }
        return Quantity(value, {name: in_range(by) for name, by in exponents.items()})

    def plus(self, other, sign):
        if self.exponents != other.exponents:
            raise Fault(f"sum of unlike units: {self.text()} and {other.text()}")
        return Quantity(added(self.value, sign * other.value), self.exponents)

    def power(self, other):
        if other.exponents:
            raise Fault("exponent is not a number")
        p, q = other.value.numerator, other.value.denominator
        if max(abs(p), q) > GREATEST_EXPONENT:
            raise Fault("exponent out of range")
        base = Fraction(root(self.value.numerator, q), root(self.value.denominator, q))
        exponents = {name: by * other.value for name, by in self.exponents.items()}
        if base == 0 and p < 0:
            raise Fault("division by zero")
        if abs(base.numerator) > 1 or base.denominator > 1:
            if abs(p) > 200:
                raise Fault("overflow")
        value = fitting(base**p)
        return Quantity(value, {name: in_range(by) for name, by in exponents.items()})


def in_range(by):
    by = Fraction(by)
    if abs(by.numerator) > GREATEST_EXPONENT or by.denominator > GREATEST_SHARE:
        raise Fault("exponent out of range")
    return by


def root(x, degree):
    """The whole root of a whole number."""
    if x < 0 and degree % 2 == 0:
        raise Fault("no exact root")
    low, high = 0, abs(x)
    while low < high:
        middle = (low + high + 1) // 2
        if middle > 1 and degree * (middle.bit_length() - 1) > 200 or middle**degree > abs(x):
            high = middle - 1
        else:
            low = middle
    if low**degree != abs(x):
        raise Fault("no exact root")
    return low if x >= 0 else -low
