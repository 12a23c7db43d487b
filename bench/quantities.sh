#!/usr/bin/env bash
# Compares the program of crates/test_calls with Python's fractions and a dict of exponents on the same 100,000 calls
# of each kind: products and quotients of quantities of one, two and six names, sums, and powers. Both read a call and
# write an answer in each line. Prints the seconds of the processor, the lowest of three runs, in parentheses those to
# read and compare the same quantities, and whether the answers are equal.
set -u
root=$(cd "$(dirname "${BASH_SOURCE[0]}")/.." && pwd)
program=$("$root/tools/built.sh" test_calls) || exit
folder=$(mktemp -d)
trap 'rm -rf "$folder"' EXIT

cat > "$folder/quantities.py" <<'PYTHON'
import sys
from fractions import Fraction


def fraction(text):
    return Fraction(text.replace("|", "/"))


def quantity(text):
    number, *powers = text.split()
    parts = (power.partition("^") for power in powers)
    return fraction(number), {name: fraction(power or "1") for name, _, power in parts}


def joined(x, y, sign):
    powers = dict(x)
    for name, power in y.items():
        total = powers.get(name, 0) + sign * power
        if total:
            powers[name] = total
        else:
            del powers[name]
    return powers


def written(x):
    return str(x).replace("/", "|")


def listed(powers):
    return "".join(f" {n}" if p == 1 else f" {n}^{written(p)}" for n, p in powers)


def shown(number, powers):
    powers = sorted(powers.items())
    below = listed([(n, -p) for n, p in powers if p < 0])
    return written(number) + listed([(n, p) for n, p in powers if p > 0]) + (" /" + below if below else "")


for line in sys.stdin:
    word, _, rest = line.partition(" ")
    (x, p), (y, q) = map(quantity, rest.split(";"))
    if word == "conforms":
        print("yes" if p == q else "no")
    elif word == "add":
        print(shown(x + y, p))
    elif word in ("mul", "times"):
        print(shown(x * y, joined(p, q, 1)))
    elif word == "div":
        print(shown(x / y, joined(p, q, -1)))
    elif word == "pow":
        print(shown(x**y.numerator, {name: power * y for name, power in p.items()}))
PYTHON

python3 - "$program" "$folder" <<'PYTHON'
import random
import resource
import subprocess
import sys

program, folder = sys.argv[1:]
CALLS = 100_000
NAMES = ["A", "K", "kg", "m", "mol", "s"]


def powers(r, count):
    return "".join(f" {name}^{r.choice([-3, -2, -1, 1, 2, 3])}" for name in r.sample(NAMES, count))


def number(r):
    return f"{r.randrange(1, 1 << 20)}|{r.randrange(1, 1 << 12)}"


def unlike(count):
    """Two quantities of `count` names each."""
    return lambda r: (number(r) + powers(r, count), number(r) + powers(r, count))


def alike(r):
    """Two quantities of the same two names."""
    names = powers(r, 2)
    return number(r) + names, number(r) + names


def raised(r):
    """A quantity of two names, and a small exponent."""
    return number(r) + powers(r, 2), str(r.randrange(1, 4))


RUNS = [
    ("mul", "one name", unlike(1)),
    ("mul", "two names", unlike(2)),
    ("mul", "six names", unlike(6)),
    ("times", "two names", unlike(2)),
    ("div", "two names", unlike(2)),
    ("add", "two names", alike),
    ("pow", "two names", raised),
]


def seconds(command, path):
    best, answers = float("inf"), b""
    for _ in range(3):
        before = resource.getrusage(resource.RUSAGE_CHILDREN).ru_utime
        with open(path, "rb") as calls:
            answers = subprocess.run(command, stdin=calls, stdout=subprocess.PIPE, check=True).stdout
        best = min(best, resource.getrusage(resource.RUSAGE_CHILDREN).ru_utime - before)
    return best, answers


for word, kind, operands in RUNS:
    r = random.Random(kind)
    pairs = [operands(r) for _ in range(CALLS)]
    taken = []
    for step in "conforms", word:
        path = f"{folder}/calls"
        with open(path, "w", encoding="ascii") as calls:
            calls.writelines(f"{step} {x};{y}\n" for x, y in pairs)
        ours, answers = seconds([program, "amounts"], path)
        theirs, wanted = seconds([sys.executable, f"{folder}/quantities.py"], path)
        taken.append((ours, theirs, answers == wanted))
    (spare, their_spare, _), (ours, theirs, equal) = taken
    print(
        f"{word:5} {kind}  {ours:5.2f} s ({spare:.2f}), Python {theirs:5.2f} s ({their_spare:.2f}), "
        f"{'equal' if equal else 'NOT EQUAL'}"
    )
PYTHON
