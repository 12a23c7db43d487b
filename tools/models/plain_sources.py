"""The rows of units-why, and the steps of expressions that have no value, by plain recursion over a table."""

from __future__ import annotations

from fractions import Fraction

from plain_lines import REFUSED, key_text
from plain_live import Expression, Live, stems
from plain_quantities import Fault, Quantity, fitting
from plain_tables import SIGNS

ROOTS = {"sqrt": 2, "cuberoot": 3}
MEMBERS_END = ("", "+", "-", "*", "/", "per", "^", ")")


class StepFault(Fault):
    """A fault of a step whose operands have values."""

    def __init__(self, fault, operator, operands):
        super().__init__(str(fault))
        self.step = {"operator": operator, "operands": [operand.text() for operand in operands]}


def attempt(operator, operands, compute):
    """The value of a step, or the fault of the step."""
    try:
        return compute()
    except Fault as fault:
        raise StepFault(fault, operator, operands) from None


def joined(operator, left, right):
    if operator in "+-":
        compute = lambda: left.plus(right, SIGNS[operator])  # noqa: E731
    else:
        compute = lambda: left.scaled(right, 1 if operator == "*" else -1)  # noqa: E731
    return attempt(operator, [left, right], compute)


class Steps(Expression):
    """An expression whose faults say which step has them."""

    def chain(self, part, steps):
        first, rest = part(), []
        while self.peek() in steps:
            operator = self.next()
            rest.append(("/" if operator == "per" else operator, part()))

        def value(table, a):
            result = first(table, a)
            for operator, operand in rest:
                result = joined(operator, result, operand(table, a))
            return result

        return value

    def juxtaposition(self):
        if self.peek() in SIGNS:
            return self.with_sign(self.juxtaposition)
        members = [self.power()]
        while self.peek() not in MEMBERS_END:
            members.append(self.power())

        def value(table, a):
            result = members[0](table, a)
            for member in members[1:]:
                result = joined("*", result, member(table, a))
            return result

        return value

    def raised(self, base, exponent):
        def value(table, a):
            left = base(table, a)
            right = exponent(table, a)
            return attempt("^", [left, right], lambda: left.power(right))

        return value

    def power(self):
        base = self.atom()
        if self.peek() != "^":
            return base
        self.next()
        return self.raised(base, self.exponent())

    def atom(self):
        token = self.peek()
        if token in ROOTS:
            self.at += 2
            return self.rooted(token, self.parenthesized())
        if self.tokens[self.at + 1 : self.at + 2] == ["|"]:
            self.at += 3
            return self.quotient(token, self.tokens[self.at - 1])
        return super().atom()

    @staticmethod
    def rooted(name, operand):
        def value(table, a):
            x = operand(table, a)
            return attempt(name, [x], lambda: x.power(Quantity(Fraction(1, ROOTS[name]))))

        return value

    @staticmethod
    def quotient(top, bottom):
        def value(table, a):
            left, right = (Quantity(fitting(Fraction(text))) for text in (top, bottom))
            return joined("/", left, right)

        return value

    def called(self, name, way):
        self.next()
        place = "call" if way == "apply" else "inverse"
        self.places.append(place)
        self.words.append(name)
        operand = self.parenthesized()

        def value(table, a):
            if name not in table.functions:
                return joined("*", table.worth(name), operand(table, a))
            x = operand(table, a)
            mark = "~" if place == "inverse" else ""
            return attempt(mark + name, [x], lambda: getattr(table.functions[name], way)(table, x))

        return value

    def word(self, token):
        name, by = (token[:-1], int(token[-1])) if token[-1] in "23456789" else (token, None)
        if token.rfind("_") > 0 and token[token.rfind("_") + 1 :].isdigit():
            name, by = token, None
        self.words.append(name)
        self.places.append("plain")
        value = lambda table, a: table.worth(name)  # noqa: E731
        return value if by is None else self.raised(value, lambda table, a: Quantity(by))


def has_fault(live: Live, key: tuple[str, str]) -> bool:
    return isinstance(live.outcome(key), Fault)


def outcome_of(live: Live, text: str) -> dict:
    """What a row shows about a definition: its value, its own fault and its failed step, or a fault below."""
    expression = Steps(text)
    if live.name_fault(expression.uses):
        return {"fault_below": True}
    try:
        return {"value": expression.value(live, None).text()}
    except StepFault as fault:
        return {"fault": str(fault), "step": fault.step}
    except Fault as fault:
        # A numeral out of range is no step, so the fault of a word counts, even after the numeral.
        is_below = any(has_fault(live, key) for use in expression.uses for key in live.targets(use))
        return {"fault_below": True} if is_below else {"fault": str(fault)}


def resolution(live: Live, place: str, word: str, key: tuple[str, str]) -> str:
    """How a word leads to a key."""
    if key[0] == "prefix":
        return "prefix"
    if key[0] == "function":
        return "inverse function" if place == "inverse" else "function"
    is_whole = any((kind, word) in live.entries for kind in ("unit", "function"))
    is_plural = not is_whole and any(live.targets((place, stem)) for stem in stems(word))
    return "plural" if is_plural else "unit"


def rows_of(live: Live, uses: list[tuple[str, str]]) -> list[dict]:
    """The rows of the words of an expression, in order."""
    rows, shown = [], set()

    def put(uses, path):
        for place, word in uses:
            targets = live.targets((place, word))
            fault = "refused function" if word in REFUSED else "unknown unit"
            if not targets or word in REFUSED:
                rows.append({"word": word, "depth": len(path), "fault": fault})
            for key in targets if word not in REFUSED else ():
                put_key(place, word, key, path)

    def put_key(place, word, key, path):
        is_alias = place == "inverse" and path and path[-1][0] == "function" and is_alias_of(live, path[-1])
        how = "function" if is_alias else resolution(live, place, word, key)
        row = {"word": word, "depth": len(path), "key": key_text(key), "how": how}
        rows.append(row)
        if key in shown:
            row |= {"fault": "cycle"} if key in path else {"above": True}
            return
        shown.add(key)
        text = live.entries[key]
        if text.startswith("!"):
            row["value"] = Quantity(1, {key[1]: 1} if text == "!" else {}).text()
        elif key[0] in ("unit", "prefix"):
            row |= outcome_of(live, text)
        put(live.uses(key), [*path, key])

    put(uses, [])
    return rows


def is_alias_of(live: Live, key: tuple[str, str]) -> bool:
    text = live.entries[key]
    return text.startswith("(") and not text[1 : text.find(")")].strip()
