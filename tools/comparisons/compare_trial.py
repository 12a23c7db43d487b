#!/usr/bin/env python3
"""Compares the trial of the built program with a plain model of its session.

    tools/comparisons/compare_trial.py [N..]

Runs each trial of N edits (1, 2, 3, 7, 100 and 20,000 by default) twice and compares the line that the program writes.

    tools/comparisons/compare_trial.py --answer N..

Writes the lines of the model.

The model has a definition for each name in a dict, and follows each name to the one in its definition. If a name gets a
different definition, the values of the name and of all names that lead to it are dropped; these are the names with
twice its number and with one more than that, and so on.
"""

import subprocess
import sys
from fractions import Fraction
from pathlib import Path

sys.path[:0] = [str(Path(__file__).resolve().parents[1] / name) for name in (".", "models")]
from built import program  # noqa: E402
from compare_numbers import digits_answer  # noqa: E402

PROGRAM = "units"
DIGITS = 8


class Trial:
    """The definitions of a trial: each name but `u_0` has a number and the name that the number multiplies."""

    def __init__(self, names):
        self.names = names
        self.definitions = {i: (1 + i % 3, i // 2) for i in range(1, names + 1)}
        self.settled, self.reductions, self.reply_bytes = set(), 0, 0

    def path(self, name):
        """The name, and the names that it leads to."""
        while name:
            yield name
            name = self.definitions[name][1]
        yield 0

    def define(self, name, number, other):
        if self.definitions[name] != (number, other):
            self.forget(name)
        self.definitions[name] = number, other

    def forget(self, name):
        if name in self.settled:
            self.settled.remove(name)
            self.forget(2 * name)
            self.forget(2 * name + 1)

    def value(self, name):
        """The value of the name in `u_0`. Settles the name and those that it leads to."""
        path = list(self.path(name))
        self.reductions += len(set(path) - self.settled)
        self.settled |= set(path)
        product = 1
        for one in path[:-1]:
            product *= self.definitions[one][0]
        return product

    def step(self, k):
        name = 1 + 7 * k % self.names
        self.define(name, 2 + k % 3, name // 2)
        value = Fraction(self.value(1 + 11 * k % self.names), self.value(0))
        lines = f"\t* {digits_answer(value, DIGITS)}\n", f"\t/ {digits_answer(1 / value, DIGITS)}\n"
        self.reply_bytes += sum(map(len, lines))

    def run(self):
        for k in range(1, self.names + 1):
            self.step(k)
        return (
            f"definitions {self.names + 1}, edits {self.names}, reply bytes {self.reply_bytes}, "
            f"settled {len(self.settled)} of {len(self.definitions) + 1}, reductions {self.reductions}"
        )


def main():
    answer = sys.argv[1:2] == ["--answer"]
    counts = [int(word) for word in sys.argv[1 + answer :]] or [1, 2, 3, 7, 100, 20_000]
    differences = 0
    for count in counts:
        expected = Trial(count).run()
        if answer:
            print(expected)
            continue
        for _ in range(2):
            process = subprocess.run([program(PROGRAM), "--trial", str(count)], stdout=subprocess.PIPE, check=False)
            if (process.stdout.decode(), process.returncode) != (f"{expected}\n", 0):
                differences += 1
                print(f"{count}: {process.stdout.decode()!r}, status {process.returncode}, not {expected!r}")
    if not answer:
        print(f"{len(counts)} trials, each twice, {differences} differences")
    return differences > 0


if __name__ == "__main__":
    sys.exit(main())
