"""Random tables of names that lead to one another, with queries.

Names are short and made of few letters, so that words have several readings: as a name, as a plural, after a prefix.
The keys of a table are in a random order. Most entries lead to earlier keys; some lead anywhere.
"""

UNITS = ["a", "b", "ab", "ba", "dab", "y", "bay", "bas", "abes", "m", "s", "f"]
PREFIXES = ["d", "da", "a", "k", "f"]
FUNCTIONS = ["f", "g", "h", "fa", "a", "b", "m"]
LISTS = ["a", "l", "da"]
NUMBERS = ["2", "3", "1|2", "0.5", "4", "10", "0", "7|3", "1e20"]
UNKNOWN = ["nosuch", "z", "q_1", "l", "zs"]
REFUSED = ["sin", "ln", "log2", "exp"]
ADDITIONS = ["", "", "", " + 1", " - 1"]
DOMAINS = ["", "", "", " domain=[0,10]", " domain=(,4)", " range=[1,)", " domain=[-5,) range=(0,30]"]


class Made:
    """The keys of a table in a random order, and its lines."""

    def __init__(self, r):
        self.r = r
        kinds = [("unit", UNITS, 8), ("prefix", PREFIXES, 3), ("function", FUNCTIONS, 4), ("list", LISTS, 1)]
        self.keys = [
            (kind, name) for kind, names, most in kinds for name in r.sample(names, r.randrange(most // 2, most + 1))
        ]
        r.shuffle(self.keys)
        self.loose = r.choice([4, 8, 20, 1000])  # one word in this many leads anywhere
        self.lines = [self.line(at) for at in range(len(self.keys))]
        r.shuffle(self.lines)

    def one_in(self, count):
        return self.r.randrange(count) == 0

    def number(self):
        return self.r.choice(NUMBERS)

    def names(self, keys, kind):
        return [name for k, name in keys if k == kind]

    def plural(self, name):
        if name.endswith("y") and self.one_in(2):
            return name[:-1] + "ies"
        return name + self.r.choice(["s", "es"])

    def unit(self, keys):
        """A word for a unit, which may have a prefix and be a plural."""
        name = self.r.choice(self.names(keys, "unit") or ["m"])
        if self.one_in(4):
            name = self.plural(name)
        prefixes = self.names(keys, "prefix")
        return self.r.choice(prefixes) + name if prefixes and self.one_in(4) else name

    def atom(self, keys, depth, binder=None):
        if binder and not self.one_in(3):
            return binder
        if self.one_in(40 if binder is None else 200):
            return self.r.choice(UNKNOWN + REFUSED)
        if self.one_in(self.loose):
            keys = self.keys
        functions, kind = self.names(keys, "function"), self.r.randrange(10)
        if kind < 3 and functions:
            name = self.r.choice(functions)
            if self.one_in(12):
                return name
            return f"{self.r.choice(['', '~'])}{name}({self.sum(keys, depth - 1, binder)})"
        if kind == 3:
            return self.r.choice(self.names(keys, "prefix") or ["k"])
        if kind == 4:
            return f"{self.unit(keys)}({self.sum(keys, depth - 1, binder)})"
        return self.unit(keys) if kind < 9 else self.number()

    def product(self, keys, depth, binder):
        text = self.atom(keys, depth, binder) if depth > 0 else self.number()
        if self.one_in(8) and text[-1] not in "0123456789":
            text += self.r.choice(["^2", "^-1", "^(1|2)", "^0"])
        if self.one_in(3):
            text = f"{self.number()} {text}"
        if depth > 0 and self.one_in(4):
            text += self.r.choice([" ", " / "]) + self.atom(keys, depth, binder)
        return text

    def sum(self, keys, depth, binder=None):
        text = self.product(keys, depth, binder)
        if self.one_in(5):
            other = self.r.choice([text, text, self.product(keys, depth, binder)])
            text += self.r.choice([f" + {other}", f" - {self.number()} {other}"])
        return text

    def line(self, at):
        kind, name = self.keys[at]
        earlier = self.keys[:at]
        if kind == "unit":
            if self.one_in(5) or at == 0:
                return f"{name} {self.r.choice(['!', '!', '!', '!dimensionless'])}"
            return f"{name} {self.sum(earlier, 2)}"
        if kind == "prefix":
            return f"{name}- {self.number() if self.one_in(2) else self.sum(earlier, 1)}"
        if kind == "list":
            return f"!unitlist {name} {self.unit(earlier)};{self.unit(earlier)}"
        return self.function(name, earlier)

    def function(self, name, earlier):
        form = self.r.randrange(6)
        others = self.names(self.keys if self.one_in(self.loose) else earlier, "function")
        if form == 0 and (others or self.one_in(4)):
            return f"{name}() {self.r.choice(others or UNITS)}"
        if form == 1:
            return f"{name}[{self.sum(earlier, 1)}] 0 1, 2 {self.r.choice(['3', '1', '-4'])}, 5 9"
        options = self.r.choice(DOMAINS)
        if self.one_in(3):
            argument_unit = self.r.choice(["", self.unit(earlier)])
            result_unit = self.r.choice(["1", self.unit(earlier)])
            options = f" units=[{argument_unit};{result_unit}]" + options
        if others and self.one_in(2):
            inner = self.r.choice(others)
            bodies = f"{inner}(x){self.r.choice(ADDITIONS)}", f"~{inner}({name})"
        elif self.one_in(2):
            bodies = f"2 x{self.r.choice(ADDITIONS)}", f"{name} / 2"
        else:
            bodies = self.sum(earlier, 1, "x"), self.sum(earlier, 1, name)
        return f"{name}(x){options} {bodies[0]}" + ("" if self.one_in(4) else f" ; {bodies[1]}")

    def query(self):
        kind = self.r.randrange(1, 20)
        functions = self.names(self.keys, "function") or ["f"]
        if self.one_in(50):
            return "settle"
        if kind < 5:
            return f"unapply {self.r.choice(functions)} {self.sum(self.keys, 1)}"
        if kind < 9:
            return f"value {self.r.choice(functions)}({self.sum(self.keys, 1)})"
        return f"value {self.unit(self.keys) if kind < 14 else self.sum(self.keys, 2)}"


def entry_points(maker):
    """A query of each key, in a random order."""
    words = {"unit": "value {}", "prefix": "value {}", "function": "unapply {} 2", "list": "value {}"}
    queries = [words[kind].format(name) for kind, name in maker.keys]
    maker.r.shuffle(queries)
    return queries


def table(r):
    """The lines of one table, and queries."""
    maker = Made(r)
    queries = entry_points(maker) if maker.one_in(3) else []
    return maker.lines, queries + [maker.query() for _ in range(20)]
