#!/usr/bin/env python3
"""Compares the values of units with those of Python's fractions.

    tools/comparisons/compare_values.py [TABLES] [SEED]

Evaluates each query of tests/values.t with fractions and dicts of exponents, and compares the result with the answer in
the transcript. Then it makes TABLES random tables of definitions (none by default) and expressions from SEED (1 by
default), asks a session of `units` for each expression, and compares each answer. Prints the differences and a line
with the counts. The status is 1 if there is a difference.
"""

import os
import random
import re
import subprocess
import sys
import tempfile
from collections import Counter
from pathlib import Path

sys.path[:0] = [str(Path(__file__).resolve().parents[1] / name) for name in (".", "models")]
import plain_decks  # noqa: E402
import values_at_random  # noqa: E402
from built import program  # noqa: E402
from plain_live import Live, entries_of  # noqa: E402
from plain_quantities import Fault  # noqa: E402

ROOT = Path(__file__).resolve().parents[2]
TRANSCRIPT = ROOT / "tests/values.t"
NAME = "t.units"
SHOWN = 20  # how many differences in random tables are printed


def evaluate(definitions, expressions):
    """The value or the fault of each expression in a table with these lines, which are written to the file NAME."""
    Path(NAME).write_text("".join(f"{line}\n" for line in definitions))
    decks = plain_decks.Board()
    decks.load(plain_decks.Files(), NAME)
    table = Live(entries_of(decks.deck))
    for expression in expressions:
        try:
            yield table.value_of(expression).text()
        except Fault as fault:
            yield str(fault)


def here_documents(text):
    """Each command of a transcript with the lines of its here-document, and the place and lines of its output."""
    lines = text.splitlines()
    for at, line in enumerate(lines):
        if not (line.startswith("  $ ") and line.endswith("<<'END'")):
            continue
        end = lines.index("  > END", at)
        inputs = [line[4:] for line in lines[at + 1:end]]
        outputs = [line[2:] for line in lines[end + 1:end + 1 + len(inputs)]]
        yield line[4:], at + 2, inputs, outputs


def transcript_differences():
    count = differences = 0
    definitions = []
    for command, place, inputs, outputs in here_documents(TRANSCRIPT.read_text()):
        if command.startswith("cat"):
            definitions = inputs
            continue
        for offset, (line, answer, expected) in enumerate(zip(inputs, outputs, evaluate(definitions, inputs))):
            count += 1
            if answer != expected:
                differences += 1
                print(f"line {place + offset}: {line}: {answer}, but Python has {expected}")
    print(f"{TRANSCRIPT.name}: {count} answers, {differences} differences")
    return differences


def answers_of_program(expressions):
    """The answers of a session of units, one line for each expression."""
    lines = "".join(f"{expression}\n\n" for expression in expressions)
    command = [program("units"), "-q", "-t", "--exact", "-f", NAME]
    run = subprocess.run(command, input=lines.encode(), stdout=subprocess.PIPE, stderr=subprocess.STDOUT, check=False)
    return run.stdout.decode().splitlines()


def random_differences(tables, seed):
    r = random.Random(seed)
    kinds, differences = Counter(), 0
    for _ in range(tables):
        definitions, expressions = values_at_random.table(r)
        expected_answers = list(evaluate(definitions, expressions))
        answers = answers_of_program(expressions)
        if len(answers) != len(expected_answers):
            print(f"{len(answers)} answers to {len(expected_answers)} expressions over", *definitions, sep="\n    ")
            differences += 1
        for expression, answer, expected in zip(expressions, answers, expected_answers):
            kinds["value" if re.match("-?[0-9]", expected) else expected.split(":")[0]] += 1
            if answer != expected:
                differences += 1
                if differences <= SHOWN:
                    print(f"{expression}: {answer}, but Python has {expected}", *definitions, sep="\n    ")
    print(", ".join(f"{count} {kind}" for kind, count in kinds.most_common()))
    print(f"{tables} tables at random: {kinds.total()} answers, {differences} differences")
    return differences


def main():
    tables = int(sys.argv[1]) if len(sys.argv) > 1 else 0
    seed = sys.argv[2] if len(sys.argv) > 2 else "1"
    with tempfile.TemporaryDirectory() as folder:
        os.chdir(folder)
        differences = transcript_differences()
        if tables:
            differences += random_differences(tables, seed)
    return 1 if differences else 0


if __name__ == "__main__":
    sys.exit(main())
