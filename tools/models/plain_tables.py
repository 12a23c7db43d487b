"""The values of expressions, calls and inverses in a table of definitions, by plain recursion with fractions."""

import re
from fractions import Fraction

from plain_quantities import Fault, Quantity, added, fitting, number, over

TOKEN = re.compile(r"\s*((?:[0-9]+\.?[0-9]*|\.[0-9]+)(?:[eE][+-]?[0-9]+)?|[^\s+*/|^;~#()\[\]-]+|.)", re.ASCII)
SIGNS = {"+": 1, "-": -1}
OPTION = re.compile(
    r"\s*(?:units=\[([^;]*);([^\]]*)\]|(domain|range)=([\[(])([^,]*),([^\])]*)([\])])|noerror(?=\s))", re.ASCII
)


class Reader:
    """Parses an expression into a function of the table and the argument, which returns its value."""

    def __init__(self, text, binder):
        matches = list(TOKEN.finditer(text.strip(" \t")))
        self.tokens = [m.group(1) for m in matches]
        self.has_blank_before = [m.group(0) != m.group(1) for m in matches]
        self.at, self.binder, self.words = 0, binder, []

    def peek(self):
        return self.tokens[self.at] if self.at < len(self.tokens) else ""

    def next(self):
        self.at += 1
        return self.tokens[self.at - 1]

    def chain(self, part, steps):
        first, rest = part(), []
        while self.peek() in steps:
            step = steps[self.next()]
            rest.append((step, part()))

        def value(table, a):
            result = first(table, a)
            for step, operand in rest:
                result = step(result, operand(table, a))
            return result

        return value

    def sum(self):
        return self.chain(
            self.product, {"+": lambda x, y: x.plus(y, 1), "-": lambda x, y: x.plus(y, -1)}
        )

    def product(self):
        times, over_by = (lambda x, y: x.scaled(y, 1)), (lambda x, y: x.scaled(y, -1))
        return self.chain(self.juxtaposition, {"*": times, "/": over_by, "per": over_by})

    def juxtaposition(self):
        if self.peek() in SIGNS:
            return self.with_sign(self.juxtaposition)
        first, rest = self.power(), []
        while self.peek() not in ("", "+", "-", "*", "/", "per", "^", ")"):
            rest.append(self.power())

        def value(table, a):
            result = first(table, a)
            for operand in rest:
                result = result.scaled(operand(table, a), 1)
            return result

        return value

    def with_sign(self, part):
        sign, operand = SIGNS[self.next()], part()

        def value(table, a):
            x = operand(table, a)
            return Quantity(sign * x.value, x.exponents)

        return value

    def power(self):
        base = self.atom()
        if self.peek() != "^":
            return base
        self.next()
        exponent = self.exponent()

        def value(table, a):
            base_value = base(table, a)
            return base_value.power(exponent(table, a))

        return value

    def exponent(self):
        return self.with_sign(self.exponent) if self.peek() in SIGNS else self.power()

    def atom(self):
        token = self.next()
        if token[0].isdigit() or token[0] == ".":
            denominator = None
            if self.peek() == "|":
                self.next()
                denominator = self.next()
            return lambda table, a: Quantity(
                fitting(Fraction(token)) if denominator is None
                else over(fitting(Fraction(token)), fitting(Fraction(denominator)))
            )
        if token == "(":
            return self.parenthesized()
        if token in ("sqrt", "cuberoot"):
            self.next()
            operand, degree = self.parenthesized(), 2 if token == "sqrt" else 3
            return lambda table, a: operand(table, a).power(Quantity(Fraction(1, degree)))
        if token == "~":
            return self.called(self.next(), "unapply")
        if self.peek() == "(" and not self.has_blank_before[self.at]:
            if token != self.binder:
                return self.called(token, "apply")
            self.next()
            operand = self.parenthesized()
            return lambda table, a: a.scaled(operand(table, a), 1)
        return self.word(token)

    def parenthesized(self):
        operand = self.sum()
        self.next()
        return operand

    def called(self, name, way):
        self.next()
        self.words.append(name)
        operand = self.parenthesized()

        def value(table, a):
            if name not in table.functions:
                return table.worth(name).scaled(operand(table, a), 1)
            return getattr(table.functions[name], way)(table, operand(table, a))

        return value

    def word(self, token):
        name, by = (token[:-1], int(token[-1])) if token[-1] in "23456789" else (token, None)
        if token.rfind("_") > 0 and token[token.rfind("_") + 1:].isdigit():
            name, by = token, None
        if name == self.binder:
            plain = lambda table, a: a
        else:
            self.words.append(name)
            plain = lambda table, a: table.worth(name)
        return plain if by is None else (lambda table, a: plain(table, a).power(Quantity(by)))


class End:
    """One end of a function: its unit and its interval."""

    def __init__(self, unit, interval):
        self.unit, self.interval = unit, interval

    def check(self, table, name, x, wrong, outside):
        unit = self.unit(table, None) if self.unit else None
        if unit is None and self.interval and x.exponents:
            raise Fault(f"{wrong}: {name}")
        if unit is not None and unit.exponents != x.exponents:
            raise Fault(f"{wrong}: {name}")
        if self.interval and not holds(self.interval, over(x.value, unit.value if unit else 1)):
            raise Fault(f"not in {outside}: {name}")


def holds(interval, x):
    opening, low, high, closing = interval
    is_above = low is None or low < x or (opening == "[" and low == x)
    return is_above and (high is None or x < high or (closing == "]" and x == high))


class Function:
    def __init__(self, name, rank, argument, result, forward, inverse):
        self.name, self.rank = name, rank
        self.argument, self.result = argument, result
        self.forward, self.inverse = forward, inverse

    def apply(self, table, a):
        shallow(self)
        self.argument.check(table, self.name, a, "wrong argument", "domain")
        b = self.forward(table, a)
        self.result.check(table, self.name, b, "wrong result", "range")
        return b

    def unapply(self, table, b):
        shallow(self)
        if self.inverse is None:
            raise Fault(f"no inverse: {self.name}")
        self.result.check(table, self.name, b, "wrong argument", "range")
        a = self.inverse(table, b)
        self.argument.check(table, self.name, a, "wrong result", "domain")
        return a


def shallow(function):
    if function.rank > 16:
        raise Fault(f"calls too deep: {function.name}")


class Alias:
    def __init__(self, name, target):
        self.name, self.target, self.rank = name, target, target.rank + 1

    def apply(self, table, a):
        shallow(self)
        return self.target.apply(table, a)

    def unapply(self, table, b):
        shallow(self)
        return self.target.unapply(table, b)


class Points:
    def __init__(self, name, rank, unit, points):
        self.name, self.rank, self.unit, self.points = name, rank, unit, points

    def apply(self, table, a):
        shallow(self)
        if a.exponents:
            raise Fault(f"wrong argument: {self.name}")
        unit = self.unit(table, None)
        return Quantity(self.between(a.value, 0, 1)).scaled(unit, 1)

    def unapply(self, table, b):
        shallow(self)
        unit = self.unit(table, None)
        if unit.exponents != b.exponents:
            raise Fault(f"wrong argument: {self.name}")
        return Quantity(self.between(over(b.value, unit.value), 1, 0))

    def between(self, at, key, other):
        for p, q in zip(self.points, self.points[1:]):
            if min(p[key], q[key]) <= at <= max(p[key], q[key]):
                if p[key] == q[key]:
                    return p[other]
                steps = fitting(added(q[other], -p[other]) * added(at, -p[key]))
                return added(p[other], over(steps, added(q[key], -p[key])))
        raise Fault(f"outside table: {self.name}")


class Table:
    """A table of definitions. A subclass looks up its words and parses its expressions."""

    def __init__(self):
        self.outcomes, self.functions = {}, {}

    def points(self, name, definition):
        unit, _, numbers = definition[1:].partition("]")
        unit_value = self.read(unit)
        numbers = [number(n) for n in re.findall(r"[^\s,]+", numbers) if n != "noerror"]
        return Points(name, unit_value.rank + 1, unit_value, list(zip(numbers[::2], numbers[1::2])))

    def function(self, name, definition):
        parameter, _, text = definition[1:].partition(")")
        parameter = parameter.strip()
        units, domain, range_ = ("", ""), None, None
        while option := OPTION.match(text):
            text = text[option.end():]
            if option.group(1) is not None:
                units = option.group(1).strip(), option.group(2).strip()
            elif option.group(3) is not None:
                bounds = [number(b) if b.strip() else None for b in option.group(5, 6)]
                interval = (option.group(4), *bounds, option.group(7))
                if option.group(3) == "domain":
                    domain = interval
                else:
                    range_ = interval
        forward, _, inverse = text.partition(";")
        parts = [self.read(unit) if unit else None for unit in units]
        parts.append(self.read(forward, parameter))
        parts.append(self.read(inverse, name) if inverse else None)
        rank = 1 + max(part.rank for part in parts if part)
        in_unit, out_unit, forward, inverse = parts
        return Function(name, rank, End(in_unit, domain), End(out_unit, range_), forward, inverse)
