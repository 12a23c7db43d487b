#!/usr/bin/env python3
"""Compares reports on random tables with plain recursion over their definitions.

    tools/comparisons/compare_reports.py [TABLES] [SEED]

The program of crates/test_calls checks TABLES tables (400 by default) from SEED (1 by default), with lists of parts
that are unlike or not above 0, searches each for every byte of its names and for other texts, and lists the units that
conform to random expressions. Each answer is compared with that of the recursion.

    tools/comparisons/compare_reports.py --definitions FILE

Does the same with the definitions of a file.

    tools/comparisons/compare_reports.py --answer < CALLS

Answers calls by recursion, with the files of the current folder.

    tools/comparisons/compare_reports.py --prefixes FILE

Saves each prefix of a file as `p.units`, the shortest first, and prints the report of its check: its notices, the
faults of its keys, and a line with the status.

Tables and their faults are those of plain_live.py. A prefix has a fault if its own entry has one. All numbers are
exact.
"""

import os
import random
import subprocess
import sys
import tempfile
from pathlib import Path

sys.path[:0] = [str(Path(__file__).resolve().parents[1] / name) for name in (".", "models")]
import tables_at_random  # noqa: E402
from built import program  # noqa: E402
from plain_decks import Board, Files, keys_in_order  # noqa: E402
from plain_lines import BLANKS, Refusal, key_text  # noqa: E402
from plain_live import Live  # noqa: E402
from plain_quantities import Fault  # noqa: E402
from plain_tables import Alias, Points  # noqa: E402

PROGRAM, KIND = "test_calls", "answers"
SHOWN = 5  # how many differences are printed
PARTS = ["m", "2 m", "0 m", "-1 m", "1|2 a", "a", "s", "b / 0", "1e20 1e20", "nosuch", "sin(2)", "ab", "fa(2)", "3"]


class Reports:
    """The reports on a table."""

    def __init__(self, entries):
        self.live = Live(entries)
        self.keys = keys_in_order(entries)

    def check(self):
        for key in self.keys:
            fault = self.fault_of(key)
            if fault:
                yield f"{key_text(key)}: {fault}"

    def fault_of(self, key):
        try:
            if key[0] == "list":
                return self.list_fault(self.live.entries[key])
            fault = self.live.name_fault(self.live.uses(key), [key])
            return fault or (self.function_fault(key[1]) if key[0] == "function" else text_of(self.live.outcome(key)))
        except Fault as fault:
            return str(fault)

    def function_fault(self, name):
        """The first fault in the values of the units of a function."""
        function = self.live.callable(name)
        if isinstance(function, Points):
            function.unit(self.live, None)
        elif not isinstance(function, Alias):
            for end in (function.argument, function.result):
                if end.unit:
                    end.unit(self.live, None)
        return None

    def list_fault(self, text):
        parts = [self.live.value_of(part.strip(BLANKS)) for part in text.split(";")]
        if any(part.exponents != parts[0].exponents for part in parts):
            return "conformability error"
        not_positive = [at for at, part in enumerate(parts, 1) if part.value <= 0]
        return f"list unit not positive: {not_positive[0]}" if not_positive else None

    def search(self, text):
        for key in self.keys:
            if text in key[1]:
                yield f"\t{key_text(key)}\t{self.live.entries[key]}"

    def conformable(self, text):
        exponents = self.live.value_of(text.strip(BLANKS)).exponents
        for key in self.keys:
            if key[0] == "unit" and not self.live.name_fault([("plain", key[1])]):
                value = self.live.outcome(key)
                if not isinstance(value, Fault) and value.exponents == exponents:
                    yield f"\t{key[1]}\t{self.live.entries[key]}"

    def answer(self, call):
        """The lines of an answer."""
        word, _, rest = call.partition(" ")
        try:
            if word == "check":
                return list(self.check())
            return list((self.search if word == "search" else self.conformable)(rest)) or ["no matching names"]
        except Fault as fault:
            return [str(fault), "refused"]


def text_of(outcome):
    return str(outcome) if isinstance(outcome, Fault) else None


def deck_of(name):
    """The deck of a file, or None if it is refused."""
    board = Board()
    try:
        board.load(Files(), name)
    except Refusal:
        return None
    return board.deck


def reports_on(name):
    """The reports on the deck of a file, or None if it is refused."""
    deck = deck_of(name)
    return deck and Reports({key: text for key, (text, _) in deck.table().items()})


def prefix_lines(file):
    """The lines of checks of all prefixes of a file."""
    whole = Path(file).read_bytes()
    with tempfile.TemporaryDirectory() as folder:
        os.chdir(folder)
        for end in range(len(whole) + 1):
            Path("p.units").write_bytes(whole[:end])
            lines = [*deck_of("p.units").notices, *reports_on("p.units").check()]
            yield from [*lines, "1" if lines else "0"]
        os.chdir("/")


def answers_of_program(name, calls):
    """The lines of each answer. Options are set before each call, to mark where its answer begins."""
    lines = [f"load {name}", *(line for call in calls for line in ("options exact", call))]
    given = "".join(line + "\n" for line in lines).encode("latin-1")
    run = subprocess.run([program(PROGRAM), KIND], input=given, stdout=subprocess.PIPE, check=True)
    answers = run.stdout.decode("latin-1").split("\n")[:-1]
    starts = [at for at, line in enumerate(answers) if line == "ok"][1:]
    return [answers[start + 1 : end] for start, end in zip(starts, [*starts[1:], len(answers)])]


class Tally:
    def __init__(self):
        self.lines, self.answers, self.differences = 0, 0, 0

    def compare(self, name, calls):
        reports = reports_on(name)
        expected = [reports.answer(call) for call in calls]
        answers = answers_of_program(name, calls)
        if len(answers) != len(expected):
            sys.exit(f"{name}: {len(answers)} answers instead of {len(expected)}")
        self.lines += sum(map(len, expected))
        self.answers += len(expected)
        for call, lines_wanted, lines in zip(calls, expected, answers):
            if lines != lines_wanted:
                self.differences += 1
                if self.differences <= SHOWN:
                    show(name, call, lines_wanted, lines)

    def say(self, title):
        print(f"{title}: {self.answers} answers of {self.lines} lines, {self.differences} differences")
        return self.differences > 0


def show(name, call, want, got):
    at = next((at for at, (one, other) in enumerate(zip(want, got)) if one != other), min(len(want), len(got)))
    print(f"    {call!r}, line {at}: {got[at : at + 1]}, not {want[at : at + 1]}")
    text = Path(name).read_text(encoding="latin-1")
    if len(text) < 2_000:
        print(f"    over {text!r}")


def random_lists(r):
    """Lists whose parts may be unlike, not above 0, or faulty."""
    for name in r.sample(["p", "pq", "q", "m", "b"], 3):
        yield f"!unitlist {name} {'; '.join(r.choice(PARTS) for _ in range(r.randrange(1, 4)))}"


def random_calls(r, maker):
    names = [name for _, name in maker.keys]
    texts = ["", "nosuch", "()", "-", "1", r.choice(names) + r.choice("ab"), *sorted(set("".join(names)))]
    calls = ["check", *(f"search {text}" for text in texts)]
    calls += [f"conformable {maker.sum(maker.keys, 2)}" for _ in range(10)]
    r.shuffle(calls)
    return [*calls, "check"]


def compare_random(tally, r, tables):
    for at in range(tables):
        maker = tables_at_random.Made(r)
        lines = [*maker.lines, *random_lists(r)]
        Path(f"{at}.units").write_text("".join(line + "\n" for line in lines))
        tally.compare(f"{at}.units", random_calls(r, maker))


def compare_definitions(tally, file):
    texts = ["", "m", "inch", "uk", "nosuch", "()", "%"]
    froms = ["m", "s", "kg m / s^2", "1", "m^3", "1/s", "K", "nosuch", "m + s"]
    tally.compare(file, ["check", *(f"search {text}" for text in texts), *(f"conformable {text}" for text in froms)])


def main():
    if sys.argv[1:] == ["--answer"]:
        load, *calls = sys.stdin.buffer.read().decode("latin-1").removesuffix("\n").split("\n")
        reports = reports_on(load.removeprefix("load "))
        answers = [["ok"] if call.startswith("options") else reports.answer(call) for call in calls]
        for line in ["ok", *(line for answer in answers for line in answer)]:
            sys.stdout.buffer.write((line + "\n").encode("latin-1"))
        return 0
    if sys.argv[1:2] == ["--prefixes"]:
        for line in prefix_lines(sys.argv[2]):
            sys.stdout.buffer.write((line + "\n").encode("latin-1"))
        return 0
    tally = Tally()
    if sys.argv[1:2] == ["--definitions"]:
        compare_definitions(tally, sys.argv[2])
        return tally.say(sys.argv[2])
    tables = int(sys.argv[1]) if len(sys.argv) > 1 else 400
    r = random.Random(sys.argv[2] if len(sys.argv) > 2 else "1")
    with tempfile.TemporaryDirectory() as folder:
        os.chdir(folder)
        compare_random(tally, r, tables)
        os.chdir("/")
    return tally.say(f"{tables} tables at random")


if __name__ == "__main__":
    sys.exit(main())
