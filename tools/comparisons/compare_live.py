#!/usr/bin/env python3
"""Compares a live table with plain recursion over its definitions, on random tables and queries.

    tools/comparisons/compare_live.py [TABLES] [SEED]

The program of crates/test_calls answers queries of TABLES tables (400 by default) from SEED (1 by default), with
cycles, prefixes, plurals, functions, aliases, tables of points and lists; then queries with edits between them. Each
answer and the counts after each query and edit are compared with those of the recursion. Then a ring of 20,000 names
and a chain of 60,000 are compared in the same way.

    tools/comparisons/compare_live.py --definitions FILE

Queries each name of a file, in a random order, and compares the answers.

    tools/comparisons/compare_live.py --answer < CALLS

Answers calls, including edits, by recursion, with the files of the current folder.

Decks are those of plain_decks.py, and values those of plain_tables.py. Each query follows every path from its names to
find faults and reachable names; in large tables it visits each name once.
"""

import itertools
import os
import random
import subprocess
import sys
import tempfile
from collections import Counter
from pathlib import Path

sys.path[:0] = [str(Path(__file__).resolve().parents[1] / name) for name in (".", "models")]
import plain_decks  # noqa: E402
import tables_at_random  # noqa: E402
from built import program  # noqa: E402
from plain_lines import Refusal, need  # noqa: E402
from plain_live import LARGE, Live, entries_of  # noqa: E402
from plain_quantities import Fault  # noqa: E402

PROGRAM, KIND = "test_calls", "values"
SHOWN = 5  # how many differences are printed
RING, CHAIN = 20_000, 60_000
EDITS = ["define", "drop", "switch", "append", "splice", "back"]


class Board:
    """Answers calls as `test_calls values` does."""

    def __init__(self, load):
        """Loads the table of a line, or stores why there is none."""
        self.decks, self.live, self.refusal = plain_decks.Board(), None, "no deck"
        if load.startswith("load "):
            try:
                self.refusal = self.decks.load(plain_decks.Files(), load.removeprefix("load "))
                self.live = Live(entries_of(self.decks.deck))
            except Refusal as refusal:
                self.refusal = str(refusal)

    def ask(self, word, rest):
        if word == "value":
            return self.live.value_of(rest).text()
        if word == "unapply":
            name, _, text = rest.partition(" ")
            return self.live.inverse_of(name, text).text()
        if word == "counts":
            return self.live.counts()
        if word in EDITS:
            return self.edit(word, rest)
        need(word == "settle", "bad call")
        self.live.settle()
        return "ok"

    def edit(self, word, rest):
        """Makes an edit and returns the answer. A switch names its locale, and a splice keeps the settings."""
        deck = self.decks.deck
        self.decks.locale, self.decks.vars = (rest, {}) if word == "switch" else (deck.locale, dict(deck.vars))
        answer = self.decks.answer(f"{word} {rest}" if rest and word != "switch" else word)
        if not answer.startswith("changed: "):
            return answer if answer in ("not a key", "no splice", "no such splice") else "refused"
        self.live = self.live.after(entries_of(self.decks.deck))
        return "ok"

    def answer(self, line):
        word, _, rest = line.partition(" ")
        try:
            return self.ask(word, rest)
        except (Fault, Refusal) as fault:
            return str(fault)


def answers_by_recursion(calls):
    """The board that the first call loads, and the answers to all calls, or to the first one if there is no table."""
    board = Board(calls[0] if calls else "")
    return board, [board.refusal, *(board.answer(call) for call in calls[1:] if board.live)]


def answers_of_program(calls):
    given = "".join(call + "\n" for call in calls).encode("latin-1")
    run = subprocess.run([program(PROGRAM), KIND], input=given, stdout=subprocess.PIPE, check=True)
    return run.stdout.decode("latin-1").split("\n")[:-1]


class Tally:
    """Compares and counts answers, and shows the first that differ."""

    def __init__(self):
        self.kinds, self.differences = Counter(), 0

    def compare(self, calls):
        """Compares the answers to a load and to the calls after it."""
        board, expected = answers_by_recursion(calls)
        answers = answers_of_program(calls)
        if len(answers) != len(expected):
            sys.exit(f"{calls[0]}: {len(answers)} answers instead of {len(expected)}")
        for at, (call, want, answer) in enumerate(zip(calls, expected, answers)):
            self.kinds[kind_of(call, want)] += 1
            if answer != want:
                self.differences += 1
                if self.differences <= SHOWN:
                    show(board, calls[: at + 1], want, answer)

    def say(self, title):
        print(", ".join(f"{count} {kind}" for kind, count in self.kinds.most_common()))
        print(f"{title}: {self.kinds.total()} answers, {self.differences} differences")
        return self.differences > 0


def kind_of(call, answer):
    if not call.startswith(("value", "unapply")):
        return call.split()[0]
    return "value" if answer[:1] in "-0123456789" else answer.split(":")[0].split(" at ")[0]


def show(board, calls, want, got):
    print(f"    {calls[-1]!r}: {got[:400]!r}, not {want[:400]!r}")
    if len(board.decks.deck.lines) <= LARGE:
        print(f"    over {[text for _, text, _ in board.decks.deck.lines]}")
        print(f"    after {calls[1:-1]}")


def random_runs(r, tables):
    """Writes tables to the current folder; yields calls on each, and the same calls with edits."""
    for at in range(tables):
        (lines, queries), (others, _) = tables_at_random.table(r), tables_at_random.table(r)
        Path(f"{at}.units").write_text("".join(line + "\n" for line in lines))
        Path(f"{at}_more.units").write_text("".join(line + "\n" for line in others[::2]))
        yield [f"load {at}.units", *(call for query in queries for call in (query, "counts"))]
        edits = (random_edit(r, lines, others, f"{at}_more.units") for _ in queries)
        calls = ((query, edit, "counts", r.choice(queries), "counts") for query, edit in zip(queries, edits))
        yield [f"load {at}.units", *itertools.chain.from_iterable(calls)]


def random_edit(r, lines, others, more):
    """An edit of a deck with these lines; `others` are lines to add, `more` is a file of them."""
    kind = r.choices(EDITS, [4, 4, 4, 1, 4, 4])[0]
    if kind == "define":
        return f"define {r.choice(others)}"
    if kind == "drop":
        return f"drop {r.choice(lines + others).split()[0].split('(')[0]}"
    if kind == "switch":
        return f"switch {r.choice(['en_GB', 'en_US'])}"
    if kind == "append":
        return f"append {more}"
    if kind == "splice":
        new_lines = ";".join(line for line in r.sample(others, 2) if ";" not in line)
        return f"splice {r.randrange(len(lines))} {r.randrange(3)} {new_lines}"
    return kind


def long_runs():
    """Calls on a ring and on a chain of names."""
    Path("ring.units").write_text("".join(f"u_{i} 2 u_{(i + 1) % RING}\n" for i in range(RING)))
    queries = [f"value 3 u_{i} / nosuch" for i in (0, 1, 777, RING - 1)]
    yield ["load ring.units", *(call for query in queries for call in (query, "counts"))]
    lines = ["u_0 !", *(f"u_{i} {2 if i % 2 else '1|2'} u_{i - 1}" for i in range(1, CHAIN + 1))]
    Path("chain.units").write_text("".join(line + "\n" for line in lines))
    queries = [f"value {text}" for text in ("u_777", f"u_{CHAIN} + m", f"u_{CHAIN}", "u_1 u_0", f"u_{CHAIN - 1}")]
    yield ["load chain.units", *(call for query in queries for call in (query, "counts"))]


def definition_runs(r, file):
    """Calls that query each name of a file in a random order, and calls that settle all at once."""
    yield [f"load {file}", "settle", "counts"]
    keys = list(Board(f"load {file}").live.entries)
    r.shuffle(keys)
    calls = [f"load {file}"]
    for at, (kind, name) in enumerate(keys):
        if kind == "function":
            inverse = f"value ~{name}({r.choice(['2', '3 m', '300 K'])})"
            calls += [f"value {name}(2)", f"unapply {name} 3", inverse]
        else:
            calls.append(f"value {name}")
        if at % 20 == 0:
            calls.append("counts")
    yield [*calls, "settle", "counts"]


def main():
    if sys.argv[1:] == ["--answer"]:
        calls = sys.stdin.buffer.read().decode("latin-1").removesuffix("\n").split("\n")
        for answer in answers_by_recursion(calls)[1]:
            sys.stdout.buffer.write((answer + "\n").encode("latin-1"))
        return 0
    tally = Tally()
    if sys.argv[1:2] == ["--definitions"]:
        for calls in definition_runs(random.Random(1), sys.argv[2]):
            tally.compare(calls)
        return tally.say(sys.argv[2])
    tables = int(sys.argv[1]) if len(sys.argv) > 1 else 400
    r = random.Random(sys.argv[2] if len(sys.argv) > 2 else "1")
    with tempfile.TemporaryDirectory() as folder:
        os.chdir(folder)
        for calls in itertools.chain(random_runs(r, tables), long_runs()):
            tally.compare(calls)
        os.chdir("/")
    return tally.say(f"{tables} tables at random, a ring and a chain")


if __name__ == "__main__":
    sys.exit(main())
