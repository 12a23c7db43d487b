#!/usr/bin/env bash
# Compares the program of crates/test_calls with Python's fractions on the same 200,000 sums and products of small
# numbers, of numbers of one word, and of numbers of two words that share a factor. Both read a call and write an answer
# in each line. Prints the seconds of the processor, the lowest of three runs, in parentheses those to read and compare
# the same numbers, and whether all answers that do not overflow are equal.
set -u
root=$(cd "$(dirname "${BASH_SOURCE[0]}")/.." && pwd)
program=$("$root/tools/built.sh" test_calls) || exit
folder=$(mktemp -d)
trap 'rm -rf "$folder"' EXIT

python3 - "$program" "$folder" <<'PYTHON'
import random
import resource
import subprocess
import sys
from fractions import Fraction

program, folder = sys.argv[1:]
CALLS = 200_000
MODEL = """
import operator, sys
from fractions import Fraction
steps = {"add": operator.add, "mul": operator.mul, "cmp": lambda x, y: (x > y) - (x < y)}
for line in sys.stdin:
    word, x, y = line.split()
    x, y = Fraction(x.replace("|", "/")), Fraction(y.replace("|", "/"))
    print(str(steps[word](x, y)).replace("/", "|"))
"""


def number(r, bits):
    return r.randrange(1, 1 << bits)


def independent(bits, below):
    """Two fractions of `bits` bits above the bar and `below` bits below it."""
    return lambda r: [Fraction(number(r, bits), number(r, below)) for _ in "xy"]


def shared_below(r):
    """Two fractions whose denominators share a factor of 60 bits."""
    factor = number(r, 60)
    return [Fraction(number(r, 60), number(r, 15) * factor) for _ in "xy"]


def shared_crosswise(r):
    """Two fractions; each numerator shares a factor of 60 bits with the other denominator."""
    first, second = number(r, 60), number(r, 60)
    top, bottom = first * number(r, 30), second * number(r, 30)
    return [Fraction(top, bottom), Fraction(second * number(r, 30), first * number(r, 30))]


RUNS = [
    ("add", "small", independent(20, 12)),
    ("add", "one word", independent(60, 40)),
    ("add", "two words", shared_below),
    ("mul", "small", independent(20, 12)),
    ("mul", "one word", independent(60, 60)),
    ("mul", "two words", shared_crosswise),
]


def written(x):
    return f"{x.numerator}|{x.denominator}"


def seconds(command, path):
    best, answers = float("inf"), b""
    for _ in range(3):
        before = resource.getrusage(resource.RUSAGE_CHILDREN).ru_utime
        with open(path, "rb") as calls:
            answers = subprocess.run(command, stdin=calls, stdout=subprocess.PIPE, check=True).stdout
        best = min(best, resource.getrusage(resource.RUSAGE_CHILDREN).ru_utime - before)
    return best, answers.split(b"\n")


for word, kind, operands in RUNS:
    r = random.Random(kind)
    pairs = [tuple(map(written, operands(r))) for _ in range(CALLS)]
    taken = []
    for step in "cmp", word:
        path = f"{folder}/calls"
        with open(path, "w", encoding="ascii") as calls:
            calls.writelines(f"{step} {x} {y}\n" for x, y in pairs)
        ours, answers = seconds([program, "numbers"], path)
        theirs, wanted = seconds([sys.executable, "-c", MODEL], path)
        taken.append((ours, theirs))
    (spare, their_spare), (ours, theirs) = taken
    overflows = answers.count(b"overflow")
    equal = all(a in (b, b"overflow") for a, b in zip(answers, wanted))
    print(
        f"{word} {kind:9}  {ours:5.2f} s ({spare:.2f}), Python {theirs:5.2f} s ({their_spare:.2f}), "
        f"{overflows} overflows, {'equal' if equal else 'NOT EQUAL'}"
    )
PYTHON
