"""The rows of bench/scaling.sh: runs of growing size, and the most that each may cost."""

from __future__ import annotations

import math
import random
from collections.abc import Callable
from dataclasses import dataclass, field
from pathlib import Path
from string import ascii_lowercase

LINEAR = 1.2
# A switch of the settings and a load pass over the whole deck.
PASSES = 2.5
FOUR_LINES = Path(__file__).resolve().parent.parent / "examples/first.units"


@dataclass(frozen=True)
class Run:
    """The words of a run, its definition file (None for the built-in text), its input, and its variables."""

    words: tuple[str, ...] = ()
    definitions: str | None = None
    input: str = ""
    variables: dict[str, str] = field(default_factory=dict)


@dataclass(frozen=True)
class Row:
    """A row: a function that makes the run of a size, the sizes, and the largest exponents allowed.

    The cost of a run of the size `base` is subtracted, or that of `start` for the same size if the start grows too. If
    there is an easier input, the largest size may take at most twice its time, less that of `easier_start`.
    `most_bytes` is the most memory that a size may take beyond the subtracted run. `in_gnu` says that GNU units accepts
    the same run, and `is_static` that the static program is measured.
    """

    name: str
    make: Callable[[int], Run]
    sizes: tuple[int, int, int]
    time: float = LINEAR
    memory: float = LINEAR
    base: int = 1
    start: Callable[[int], Run] | None = None
    easier: Callable[[int], Run] | None = None
    easier_start: Callable[[int], Run] | None = None
    most_bytes: Callable[[int], float] | None = None
    in_gnu: bool = False
    is_static: bool = False


def lines(*texts: str) -> str:
    return "".join(text + "\n" for text in texts)


def many(form: str, count: int, *, start: int = 0) -> list[str]:
    return [form.format(i=i, before=i - 1) for i in range(start, start + count)]


def unknown_words(count: int, length: int) -> Run:
    """Definitions by words without a common prefix, so that nothing stored for a prefix is shared."""
    words = ("".join(random.Random(i).choices(ascii_lowercase, k=length)) for i in range(count))
    return Run(("-c",), lines("m !", *(f"u_{i}a {word}" for i, word in enumerate(words))))


def session(*texts: str, definitions: str | None = None, **variables: str) -> Run:
    return Run(("-q",), definitions, lines(*texts), variables)


def definitions_and_undos(count: int) -> Run:
    words = ("".join(random.Random(i).choices(ascii_lowercase, k=20)) for i in range(count))
    return session(*(f":define v_a {word}\nv_a\n:undo" for word in words))


def definitions_and_drops(count: int) -> Run:
    return session(*many(":define v_{i}a {i} m\n:drop v_{i}a", count))


def locales_after_dead_names(names: int, locales: int) -> Run:
    switches = [":locale en_GB", ":locale en_US"] * (locales // 2)
    return session(*many(":define v_{i}a 2 m\n:undo", names), *switches)


def drops(count: int) -> Run:
    deck = lines("m !", *many("v_{i}a {i} m", count, start=1))
    return session(*many(":drop v_{i}a", count, start=1), definitions=deck)


def drops_in_random_order(count: int) -> Run:
    names = list(range(1, count + 1))
    random.Random(count).shuffle(names)
    deck = lines("m !", *many("v_{i}a {i} m", count, start=1))
    return session(*(f":drop v_{i}a" for i in names), definitions=deck)


def drops_of_second_lines(count: int) -> Run:
    names = range(count, 0, -1)
    deck = lines("m !", *many("v_{i}a {i} m", count, start=1), *many("v_{i}a 2 m", count, start=1))
    return session(*(f":drop v_{i}a" for i in names), definitions=deck)


def distinct_variables(count: int) -> Run:
    return session(*many(":set V{i} {i}", count))


def set_in_environment(count: int, sets: int) -> Run:
    return Run(("-q",), None, lines(*many(":set W {i}", sets)), {f"V{i}": "x" for i in range(count)})


def chain(count: int, backwards: bool) -> str:
    names = ["c_0a 2 nosuch", *many("c_{i}a 2 c_{before}a", count - 1, start=1)]
    return lines("m !", *(reversed(names) if backwards else names))


def ring(count: int) -> str:
    return lines("m !", f"r_0a r_{count - 1}a", *many("r_{i}a r_{before}a", count - 1, start=1))


def column_of_fault(count: int) -> Run:
    return Run(("--column", "1", "c_4999a", "m"), chain(5000, False), lines(*map(str, range(count))))


def repeated_set(count: int) -> Run:
    return session(*many(":set V {i}", count))


def repeated_locale(count: int) -> Run:
    return session(*[":locale en_US"] * count)


def bytes_of_text(run: Run) -> int:
    return len(run.definitions or "") + len(run.input)


def environment(count: int) -> Run:
    return Run(("m",), None, "", {f"V{i}": "x" for i in range(count)})


def column_of_list(count: int) -> Run:
    """Rows that make and free blocks of different sizes."""
    return Run(("--column", "1", "ft" + "*1" * 1600, "ft;in"), None, lines(*map(str, range(count))))


def edits_of_deck(count: int, *edits: str) -> Run:
    """As many edits as the deck has lines."""
    deck = lines("m !", *many("v_{i}a {i} m", count, start=1))
    return session(*(edit.format(i=i) for i in range(count) for edit in edits), definitions=deck)


def watches(count: int) -> Run:
    return session(*many(":watch {i} ft ; m", count, start=1), *many(":define w_{i}a 2 s", 200))


def search(count: int) -> Run:
    deck = lines("m !", *(f"{'a' * 120}_{i}a 2 m" for i in range(count)))
    return session("search " + "a" * 60 + "b", definitions=deck)


def product(count: int) -> Run:
    deck = lines(*many("p_{i}a !", count), "w " + " ".join(many("p_{i}a", count)))
    return Run(("w",), deck)


# The hash of a name in the tables of the program under the fixed seed.
HASH_START = 0x243F6A8885A308D3
HASH_MULTIPLIER = 0x9E3779B97F4A7C15
WORD = (1 << 64) - 1


def hash_after(state: int, number: int, length: int) -> int:
    """The state after a number of `length` bytes."""
    product = (state ^ number) * (HASH_MULTIPLIER ^ 2 * length)
    return (product & WORD) ^ (product >> 64)


def colliding_names(count: int) -> list[str]:
    """Names with the same tag, by which a table distinguishes the names of a group. All searches begin in the first
    quarter of the groups of a table of this size."""
    groups = 1 << max(2, math.ceil(math.log2(count / 9)))
    mask = 0xFF << 24 | groups - groups // 4
    # A single byte is hashed as three equal ones.
    numbers = {letter: ord(letter) * 0x010101 for letter in ascii_lowercase}
    multiplier = HASH_MULTIPLIER ^ 2
    start = hash_after(HASH_START, 8, 8)
    choices = random.Random(count)
    names: dict[str, None] = {}
    while len(names) < count:
        front = "".join(choices.choices(ascii_lowercase, k=6))
        state = start
        for letter in front:
            state = hash_after(state, numbers[letter], 1)
        for before, number in numbers.items():
            next_state = hash_after(state, number, 1)
            for letter, last in numbers.items():
                product = (next_state ^ last) * multiplier
                if (product ^ product >> 32 ^ product >> 64 ^ product >> 96) & mask == 1 << 24:
                    names[front + before + letter] = None
    return list(names)[:count]


def names_of_file(names: list[str]) -> Run:
    return Run(("m",), lines("m !", *(f"{name} 2 m" for name in names)))


def random_names(count: int) -> Run:
    choices = random.Random(count)
    return names_of_file(["".join(choices.choices(ascii_lowercase, k=8)) for _ in range(count)])


ROWS = [
    Row(
        "unknown words, more of them",
        lambda n: unknown_words(n, 60),
        (1000, 2000, 4000),
        most_bytes=lambda n: 30 * bytes_of_text(unknown_words(n, 60)),
        in_gnu=True,
    ),
    Row(
        "unknown words, longer ones",
        lambda n: unknown_words(1000, n),
        (60, 120, 240),
        base=20,
        most_bytes=lambda n: 30 * bytes_of_text(unknown_words(1000, n)),
        in_gnu=True,
    ),
    Row("define a fault, query it, undo", definitions_and_undos, (4000, 8000, 16000), most_bytes=lambda n: 4e6),
    Row("define and drop", definitions_and_drops, (20000, 40000, 80000)),
    Row(
        "5,000 locales after undone definitions",
        lambda n: locales_after_dead_names(n, 5000),
        (12500, 25000, 50000),
        start=lambda n: locales_after_dead_names(n, 0),
        easier=lambda n: locales_after_dead_names(0, 5000),
        easier_start=lambda n: locales_after_dead_names(0, 0),
    ),
    Row("drops over a deck of that size", drops, (4000, 8000, 16000)),
    Row("drops in random order", drops_in_random_order, (4000, 8000, 16000)),
    Row("drops of second lines, the last first", drops_of_second_lines, (4000, 8000, 16000)),
    Row("sets of distinct variables", distinct_variables, (1000, 2000, 4000)),
    Row(
        "10,000 sets in an environment",
        lambda n: set_in_environment(n, 10000),
        (2500, 5000, 10000),
        start=lambda n: set_in_environment(n, 0),
    ),
    Row(
        "check of a faulty chain",
        lambda n: Run(("-c",), chain(n, False)),
        (2000, 4000, 8000),
        in_gnu=True,
    ),
    Row(
        "check of a faulty chain, backwards",
        lambda n: Run(("-c",), chain(n, True)),
        (2000, 4000, 8000),
        in_gnu=True,
    ),
    Row("units that conform, over a faulty chain", lambda n: Run(("m", "?"), chain(n, False)), (2000, 4000, 8000)),
    Row("units that conform, over a ring", lambda n: Run(("m", "?"), ring(n)), (1000, 2000, 4000)),
    # The output grows with the square of the ring, and so does the time (docs/DECISIONS.md).
    Row(
        "check of a ring, memory alone",
        lambda n: Run(("-c",), ring(n)),
        (1000, 2000, 4000),
        time=9.0,
        start=lambda n: Run(("m", "?"), ring(n)),
        most_bytes=lambda n: 1e6,
    ),
    Row("a column with a faulty FROM", column_of_fault, (1000, 2000, 4000)),
    Row(
        "sets of one variable",
        repeated_set,
        (75000, 150000, 300000),
        most_bytes=lambda n: 100 * n + sum(len(str(i)) for i in range(n)),
    ),
    Row("the same locale again", repeated_locale, (75000, 150000, 300000), most_bytes=lambda n: 48 * n),
    # The toolchain's call walks from the first variable each time (docs/DECISIONS.md).
    Row("variables of the environment", environment, (8000, 16000, 32000), time=2.2),
    Row("variables of the environment, static program", environment, (8000, 16000, 32000), is_static=True),
    Row("a column with a list", column_of_list, (250, 500, 1000)),
    Row(
        "loads over a deck of that size",
        lambda n: edits_of_deck(n, f":load {FOUR_LINES}"),
        (1000, 2000, 4000),
        time=PASSES,
    ),
    Row(
        "locales and undos over a deck of that size",
        lambda n: edits_of_deck(n, ":locale en_GB", ":undo"),
        (1000, 2000, 4000),
        time=PASSES,
    ),
    Row("sets over a deck of that size", lambda n: edits_of_deck(n, ":set Y {i}"), (1000, 2000, 4000), time=PASSES),
    Row("200 edits beside watches", watches, (250, 500, 1000)),
    Row("a search in long names", search, (4000, 8000, 16000)),
    Row("a product of distinct primitives", product, (4000, 8000, 16000), in_gnu=True),
    Row(
        "names that collide under the fixed seed",
        lambda n: names_of_file(colliding_names(n)),
        (2000, 4000, 8000),
        easier=random_names,
        in_gnu=True,
    ),
]
