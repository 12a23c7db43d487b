"""Random tables of definitions, and expressions with their names. The argument of `table` is a random.Random.
"""

from numbers_at_limits import MOST, size

PRIMITIVES = ["m", "s", "kg"]
SMALL = ["0", "1", "2", "3", "4", "8", "9", "16", "27", "0.5", "0.25", "1.5", "1e3", "1e-3", "12"]
BOUNDS = ["-2", "-1", "-1|2", "0", "1|3", "0.5", "1", "2", "3", "4", "273.15"]
ADDITIONS = ["", "", "", "", " + 1e-20", " - 1e-20", " + 1|7", " - 1"]
EXPONENTS = ["0", "1", "2", "3", "-1", "-2", "1|2", "1|3", "-1|2", "2|3", "3|2", "1|60", "1|61", "5|7"]
LIMITS = ["127", "-127", "32767", "-32767", "32768", "-32768", "1|32767", "1|32768"]


class Made:
    """The lines of a table, and the names that they have defined so far."""

    def __init__(self, r):
        self.r, self.lines = r, []
        self.units, self.prefixes, self.functions = [], [], []
        self.ends = {}  # the units of a function's argument and result

    def one_in(self, count):
        return self.r.randrange(count) == 0

    def number(self):
        if self.one_in(12):
            return str(size(self.r))
        if self.one_in(20):
            return str(MOST - self.r.randrange(2))
        if self.one_in(5):
            return f"{self.r.randrange(1, 13)}|{self.r.randrange(0 if self.one_in(8) else 1, 13)}"
        return self.r.choice(SMALL)

    def unit(self):
        if self.one_in(500):
            return "unknown"
        name = self.r.choice(self.units)
        return f"{self.r.choice(self.prefixes)}{name}" if self.prefixes and self.one_in(4) else name

    def word(self, binder):
        if binder and not self.one_in(3):
            return binder
        if self.functions and self.one_in(100):
            return self.r.choice(self.functions)
        name = self.unit()
        return name + self.r.choice("23") if self.one_in(12) else name

    def exponent(self):
        if self.one_in(8):
            return self.r.choice(LIMITS)
        return self.r.choice(EXPONENTS)

    def atom(self, depth, binder):
        kind = self.r.randrange(12)
        if depth == 0 or kind < 5:
            return self.number() if self.one_in(2) else self.word(binder)
        if kind < 7:
            return f"({self.sum(depth - 1, binder)})"
        if kind == 7:
            return f"{self.r.choice(['sqrt', 'sqrt', 'cuberoot'])}({self.sum(depth - 1, binder)})"
        if kind < 11 and self.functions:
            name, way = self.r.choice(self.functions), self.r.randrange(2)
            return f"{'~' * way}{name}({self.argument(name, way, depth - 1, binder)})"
        if binder and self.one_in(2):
            return f"{binder}({self.sum(depth - 1, binder)})"
        return f"{self.r.choice(self.units)}({self.sum(depth - 1, binder)})"

    def argument(self, name, way, depth, binder=None):
        """An argument of a function or its inverse: usually a number in its unit, which may be a bound."""
        if self.one_in(4):
            return self.sum(depth, binder)
        number = f"({self.r.choice(BOUNDS)}{self.r.choice(ADDITIONS)})" if self.one_in(2) else self.number()
        return f"{number} ({self.ends[name][way]})"

    def power(self, depth, binder):
        base = self.atom(depth, binder)
        if not self.one_in(6) or base[-1].isdigit():
            return base
        if depth and self.one_in(5):
            return f"{base}^({self.sum(depth - 1, binder)})"
        return f"{base}^{self.exponent()}"

    def product(self, depth, binder):
        text = self.power(depth, binder)
        for _ in range(self.r.choice([0, 0, 0, 1, 1, 2])):
            text += self.r.choice([" ", " ", " * ", " / "]) + self.power(depth, binder)
        return ("-" if self.one_in(8) else "") + text

    def sum(self, depth, binder=None):
        alike = self.word(binder)
        if self.one_in(2):
            return self.product(depth, binder)
        text = f"{self.number()} {alike}"
        for _ in range(self.r.choice([0, 0, 0, 1, 1, 2])):
            member = self.product(depth, binder) if self.one_in(8) else f"{self.number()} {alike}"
            text += self.r.choice([" + ", " - "]) + member
        return text

    def span(self):
        low, high = sorted(self.r.sample(range(len(BOUNDS)), 2))
        low = "" if self.one_in(5) else BOUNDS[low]
        high = "" if self.one_in(4) else BOUNDS[high]
        opening = "(" if low == "" else self.r.choice("[(")
        closing = ")" if high == "" else self.r.choice("])")
        return f"{opening}{low},{high}{closing}"

    def function(self, name):
        options, argument_unit, result_unit = "", "1", "1"
        inner = self.r.choice(self.functions) if self.functions and self.one_in(3) else None
        if not self.one_in(3):
            argument_unit, result_unit = (self.product(0, None) if self.one_in(4) else self.unit() for _ in "ab")
            if inner and not self.one_in(4):
                argument_unit, result_unit = self.ends[inner]
            options += f" units=[{'' if self.one_in(8) else argument_unit};{'' if self.one_in(8) else result_unit}]"
        if self.one_in(2):
            options += f" domain={self.span()}"
        if self.one_in(2):
            options += f" range={self.span()}"
        self.ends[name] = argument_unit, result_unit
        if inner:
            forward, inverse = f"{inner}(x)", f"~{inner}({name})"
        elif self.one_in(4):
            forward, inverse = self.sum(2, "x"), self.sum(2, name)
        else:
            by, more = self.number(), self.number()
            forward = f"({by} x / ({argument_unit}) + {more}) ({result_unit})"
            inverse = f"({name} / ({result_unit}) - {more}) / {by} ({argument_unit})"
        return f"{name}(x){options} {forward}" + ("" if self.one_in(6) else f" ; {inverse}")

    def table(self, name):
        xs = sorted(self.r.sample(range(-4, 20), self.r.randrange(2, 6)))
        points = ", ".join(f"{x} {size(self.r) if self.one_in(6) else self.r.choice(BOUNDS)}" for x in xs)
        self.ends[name] = "1", self.sum(1) if self.one_in(3) else self.unit()
        return f"{name}[{self.ends[name][1]}] {points}"

    def alias(self, name):
        target = self.r.choice(self.functions)
        self.ends[name] = self.ends[target]
        return f"{name}() {target}{self.r.choice(['', '()'])}"

    def define(self, line, names, name):
        self.lines.append(line)
        names.append(name)

    def definitions(self):
        for name in PRIMITIVES:
            self.define(f"{name} !", self.units, name)
        self.define("rad !dimensionless", self.units, "rad")
        for name in "ab":
            self.define(f"p{name}- {self.number() if self.one_in(2) else self.sum(1)}", self.prefixes, f"p{name}")
        for name in "abcd":
            self.define(f"u{name} {self.sum(1)}", self.units, f"u{name}")
        for name in "abcdef":
            kind = self.r.randrange(6)
            if kind == 0 and self.functions:
                line = self.alias(f"f{name}")
            elif kind < 3:
                line = self.table(f"f{name}")
            else:
                line = self.function(f"f{name}")
            self.define(line, self.functions, f"f{name}")

    def deep(self):
        """Functions that call one another, with ranks near the greatest one."""
        for count in range(self.r.randrange(15, 19)):
            name, inner = f"d{chr(97 + count)}", f"d{chr(96 + count)}"
            kind = self.r.randrange(4) if count else 3
            if kind == 0:
                line = f"{name}() {inner}"
            elif kind == 1:
                line = f"{name}[{inner}(0)] 0 1, 2 3"
            else:
                line = f"{name}(x) {f'{inner}(x)' if count else 'x'} + 1 ; {f'~{inner}({name} - 1)' if count else f'{name} - 1'}"
            self.ends[name] = "1", "1"
            self.define(line, self.functions, name)

    def query(self):
        if self.one_in(3):
            return self.sum(2)
        name, way = self.r.choice(self.functions), self.r.randrange(2)
        return f"{'~' * way}{name}({self.argument(name, way, 2)})"


def table(r):
    """The lines of one table, and expressions with its names."""
    maker = Made(r)
    maker.definitions()
    if maker.one_in(10):
        maker.deep()
    return maker.lines, [maker.query() for _ in range(40)]
