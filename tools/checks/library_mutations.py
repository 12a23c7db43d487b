"""Checks that each numeral of the library has a witness: if it were 1 % larger, a comparison would notice.

Exponents and the options of a function are not changed. In a table all values are changed at once, and each point needs
a comparison of its own. The definitions with a numeral without a witness are listed in tests/library/unwitnessed.tsv.

One run of the program tries many changes: those of a batch cannot hide each other, since no comparison reaches two.
"""

from __future__ import annotations

import re
import tempfile
from collections.abc import Iterator
from dataclasses import dataclass
from fractions import Fraction

from library_functions import OPTION, as_operand, number_of
from library_values import Comparison, rows_of
from unit_answers import Fault, Session
from unit_files import Definition, Kind
from unit_names import Names

CHANGE = Fraction(101, 100)
NUMERAL = re.compile(r"(?<![\w.^|])(?:\d+\.?\d*|\.\d+)(?:e[-+]?\d+)?(?:\|\d+(?:e\d+)?)?")
WORD = re.compile(r"[^\s()\[\]+*/^|;,~-]+")
POINT = re.compile(r"(?P<number>[-\d.|]+) (?P<value>[-\d.|]+)")
CALL = re.compile(r"(?P<name>\w+)\((?P<number>\(?-?[\d.|]+\)?)\)")


@dataclass(frozen=True)
class Mutation:
    """A definition with a changed numeral, or a table with changed values; each of its parts needs a witness."""

    definition: Definition
    text: str
    parts: frozenset[str]

    def line(self) -> str:
        name, text = self.definition.name, self.text
        if self.definition.kind is Kind.FUNCTION:
            return name + text
        return f"{name}- {text}" if self.definition.kind is Kind.PREFIX else f"{name} {text}"


def changed(numeral: str) -> str:
    """A numeral that is 1 % larger, or 1 % instead of zero, as a fraction of whole numbers."""
    numerator, _, denominator = numeral.partition("|")
    number = Fraction(numerator) / Fraction(denominator or 1)
    return str(number * CHANGE if number else CHANGE - 1).replace("/", "|")


def start_of_body(text: str) -> int:
    """Where the body of a function begins, after its parameter and options."""
    start = text.index(")") + 1
    while option := OPTION.match(text, start):
        start = option.end()
    return start


def part_of(table: str, number: str) -> str:
    """The name of the point of a table at a number."""
    return f"{table}({as_operand(number_of(number.strip('()').replace('/', '|')))})"


def mutations_of(definition: Definition) -> Iterator[Mutation]:
    text, start = definition.text, 0
    if text.startswith("["):
        parts = frozenset(part_of(definition.name, point["number"]) for point in POINT.finditer(text))
        points = POINT.sub(lambda point: f"{point['number']} {changed(point['value'])}", text)
        yield Mutation(definition, points, parts)
        return
    if definition.kind is Kind.FUNCTION:
        start = start_of_body(text)
    for numeral in NUMERAL.finditer(text, start):
        mutated = text[: numeral.start()] + f"({changed(numeral[0])})" + text[numeral.end() :]
        yield Mutation(definition, mutated, frozenset([definition.key]))


class Reach:
    """The definitions, and the points of tables, that an expression reaches."""

    def __init__(self, definitions: list[Definition]) -> None:
        self.names = Names(definitions)
        self.reached: dict[str, frozenset[str]] = {}

    def of_text(self, text: str) -> frozenset[str]:
        call = CALL.fullmatch(text)
        if call and self.is_table(call["name"]):
            return self.of_definition(self.names.functions[call["name"]]) | {part_of(call["name"], call["number"])}
        words = WORD.findall(NUMERAL.sub(" ", text))
        return frozenset().union(*map(self.of_word, words))

    def is_table(self, name: str) -> bool:
        function = self.names.functions.get(name)
        return function is not None and function.text.startswith("[")

    def of_word(self, word: str) -> frozenset[str]:
        names = self.names
        reading = names.derived_reading(word)
        found = [names.units.get(word), names.functions.get(word)]
        if reading:
            found += [names.prefixes.get(reading.prefix), names.units.get(reading.unit)]
        elif not any(found) and word[-1:].isdigit():
            return self.of_word(word[:-1])
        return frozenset().union(*(self.of_definition(definition) for definition in found if definition))

    def of_definition(self, definition: Definition) -> frozenset[str]:
        key = definition.key
        if key not in self.reached:
            self.reached[key] = frozenset([key])
            text = definition.text
            body = text[1 : text.index("]")] if text.startswith("[") else text
            self.reached[key] |= self.of_text(body)
        return self.reached[key]


@dataclass
class Batch:
    """Mutations of which no comparison reaches two."""

    mutations: list[Mutation]
    comparisons: set[int]

    def unnoticed(self, session: Session, comparisons: list[Comparison], reaches: list[frozenset[str]]) -> set[str]:
        """The parts of the mutations that no comparison notices. A refusal, such as an overflow, notices nothing."""
        chosen = [comparisons[number] for number in sorted(self.comparisons)]
        values = mutated_values(session, self.mutations, chosen)
        noticed: set[str] = set()
        for number, comparison in zip(sorted(self.comparisons), chosen):
            own = [values[text] for text in comparison.expressions]
            if not any(isinstance(value, Fault) for value in own) and comparison.fault_of(*own):
                noticed |= reaches[number]
        return set().union(*(mutation.parts for mutation in self.mutations)) - noticed


def mutated_values(session: Session, mutations: list[Mutation], comparisons: list[Comparison]) -> dict:
    """The values of the expressions of comparisons over the library with the mutations after it."""
    expressions = list(dict.fromkeys(text for comparison in comparisons for text in comparison.expressions))
    with tempfile.NamedTemporaryFile("w", suffix=".units", encoding="utf-8") as file:
        lines = [f"!include {session.file}", *(mutation.line() for mutation in mutations)]
        file.write("\n".join(lines) + "\n")
        file.flush()
        mutated = Session(session.program, file.name, session.locale)
        return dict(zip(expressions, mutated.values(expressions)))


def batches_of(mutations: list[Mutation], reaches: list[frozenset[str]]) -> list[Batch]:
    reached_by: dict[str, set[int]] = {}
    for number, reach in enumerate(reaches):
        for part in reach:
            reached_by.setdefault(part, set()).add(number)
    batches: list[Batch] = []
    numbers_of = [set().union(*(reached_by.get(part, set()) for part in mutation.parts)) for mutation in mutations]
    for mutation, numbers in sorted(zip(mutations, numbers_of), key=lambda pair: -len(pair[1])):
        for batch in batches:
            if batch.comparisons.isdisjoint(numbers) and all(
                mutation.definition.key != other.definition.key for other in batch.mutations
            ):
                break
        else:
            batch = Batch([], set())
            batches.append(batch)
        batch.mutations.append(mutation)
        batch.comparisons |= numbers
    return batches


def check_mutations(session: Session, definitions: list[Definition], comparisons: list[Comparison], results) -> None:
    """Each numeral is noticed or listed in unwitnessed.tsv, and no listed one is noticed."""
    mutations = [mutation for definition in definitions for mutation in mutations_of(definition)]
    reach = Reach(definitions)
    reaches = [frozenset().union(*map(reach.of_text, comparison.expressions)) for comparison in comparisons]
    unnoticed: set[str] = set()
    for batch in batches_of(mutations, reaches):
        unnoticed |= batch.unnoticed(session, comparisons, reaches)
    listed = {name for name, _ in rows_of("unwitnessed.tsv")}
    for part in sorted(set().union(*(mutation.parts for mutation in mutations)) | listed):
        is_right = (part in unnoticed) == (part in listed)
        detail = "unwitnessed.tsv lists it" if part in listed else "no comparison notices if it is 1 % larger"
        results.check(f"numeral {part}", is_right, detail)
    print(f"changes of numerals: {len(mutations)}, without a witness {len(unnoticed)}: {', '.join(sorted(unnoticed))}")
