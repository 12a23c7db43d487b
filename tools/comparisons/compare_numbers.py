#!/usr/bin/env python3
"""Compares the number libraries with Python's exact numbers, on many random calls.

    tools/comparisons/compare_numbers.py [CALLS] [SEED]

The program of crates/test_calls answers CALLS calls of each kind (100,000 by default) from SEED (1 by default), near
the limits of the libraries. Each answer is compared with the one that Python's int, Fraction and Decimal give. Prints
a line for each kind and the first differences. The status is 1 if there is a difference.
"""

import math
import random
import re
import subprocess
import sys
from collections import Counter
from decimal import ROUND_HALF_EVEN, Context, Decimal
from fractions import Fraction
from pathlib import Path

sys.path[:0] = [str(Path(__file__).resolve().parents[1] / name) for name in (".", "models")]
from built import program  # noqa: E402
from numbers_at_limits import (  # noqa: E402
    MOST,
    damaged,
    fits,
    numeral_text,
    pair,
    power,
    printed,
    root_below,
    rooted,
    single,
    sum_pair,
    whole,
)

PROGRAM, KIND = "test_calls", "numbers"
MOST_EXPONENT = 9_999  # the largest exponent of a numeral
SHOWN = 5  # how many differences of a kind are printed
NUMBER = re.compile(r"-?[0-9.]+(\|[0-9]+|e[+-][0-9]+)?")


# Answers


def exact(x):
    """A fraction that fits: `n`, or `n|d`."""
    return str(x.numerator) if x.denominator == 1 else f"{x.numerator}|{x.denominator}"


def answer(x):
    return exact(x) if fits(x) else "overflow"


def new_answer(n, d):
    return "division by zero" if d == 0 else answer(Fraction(n, d))


def sum_answer(x, y):
    """Adds over the least common multiple. It, both numerators and their sum have to be in range."""
    multiple = math.lcm(x.denominator, y.denominator)
    left = x.numerator * (multiple // x.denominator)
    right = y.numerator * (multiple // y.denominator)
    if max(multiple, abs(left), abs(right), abs(left + right)) > MOST:
        return "overflow"
    return exact(Fraction(left + right, multiple))


def quotient_answer(x, y):
    return "division by zero" if y == 0 else answer(x / y)


def power_answer(x, k):
    if x == 0 and k < 0:
        return "division by zero"
    # Beyond 127 only the parity matters: a part of 2 or more is out of range by then.
    return answer(x ** (k if abs(k) <= 127 else 128 + k % 2))


def whole_root(n, q):
    """The whole number whose q-th power is n, or None."""
    root = root_below(n, q) if n > 0 else 0
    return root if root**q == n else None


def root_answer(x, q):
    top, bottom = whole_root(abs(x.numerator), q), whole_root(x.denominator, q)
    if top is None or bottom is None or (x < 0 and q % 2 == 0):
        return "no exact root"
    return exact(Fraction(top if x >= 0 else -top, bottom))


def order_answer(x, y):
    return "less" if x < y else "greater" if x > y else "equal"


def digits_answer(x, count):
    """Decimal rounds a quotient once, ties to even; 9.5 to one digit becomes 10."""
    if x == 0:
        return "0"
    context = Context(prec=count, rounding=ROUND_HALF_EVEN, Emax=999, Emin=-999)
    decimal = context.divide(Decimal(abs(x.numerator)), Decimal(x.denominator))
    digits = "".join(map(str, decimal.as_tuple().digits)).rstrip("0")
    power = decimal.adjusted()
    if power < -4 or power >= count:
        mark = f"e{'-' if power < 0 else '+'}{abs(power):02}"
        text = digits[0] + ("." + digits[1:] if digits[1:] else "") + mark
    elif power < 0:
        text = "0." + "0" * (-power - 1) + digits
    else:
        whole, rest = digits[: power + 1].ljust(power + 1, "0"), digits[power + 1 :]
        text = whole + ("." + rest if rest else "")
    return ("-" if x < 0 else "") + text


NUMERAL = re.compile(rb"([0-9]+(?:\.[0-9]*)?|\.[0-9]+)(?:[eE]([+-]?[0-9]+))?")


def length_answer(text):
    match = NUMERAL.match(text)
    return str(match.end() if match else 0)


def numeral_answer(text):
    match = NUMERAL.fullmatch(text)
    if not match:
        return "not a numeral"
    whole, _, places = match[1].partition(b".")
    digits, exponent = whole + places, int(match[2] or b"0")
    coefficient = int(digits.strip(b"0") or b"0")
    if coefficient > MOST or abs(exponent) > MOST_EXPONENT:
        return "too long"
    if coefficient == 0:
        return "0"
    # The coefficient has no trailing zero, so beyond these powers of ten it is out of range.
    power = exponent - len(places) + len(digits) - len(digits.rstrip(b"0"))
    return answer(coefficient * Fraction(10) ** power) if -80 <= power <= 39 else "overflow"


# Calls


def as_argument(r, x):
    """A fraction as an argument; its parts may have a common factor."""
    n, d = x.numerator, x.denominator
    if r.randrange(3) == 0:
        factor = r.randrange(1, 1 + min(MOST // max(abs(n), d), 2 ** r.randrange(1, 128)))
        n, d = n * factor, d * factor
    return str(n) if d == 1 and r.randrange(4) else f"{n}|{d}"


def one(answer):
    def make(r, word):
        x = single(r)
        return f"{word} {as_argument(r, x)}".encode(), answer(x)

    return make


def two(operands, other, answer):
    def make(r, word):
        x, y = operands(r, other)
        return f"{word} {as_argument(r, x)} {as_argument(r, y)}".encode(), answer(x, y)

    return make


def with_number(operands, answer):
    def make(r, word):
        x, number = operands(r)
        return f"{word} {as_argument(r, x)} {number}".encode(), answer(x, number)

    return make


def new_call(r, word):
    n, d = whole(r), whole(r)
    return f"{word} {n} {d}".encode(), new_answer(n, d)


def digits_call(r, word):
    x, count = printed(r)
    return f"{word} {count} {as_argument(r, x)}".encode(), digits_answer(x, count)


def text_call(answer):
    def make(r, word):
        text = damaged(r, numeral_text(r))
        return word.encode() + b" " + text, answer(text)

    return make


NO_CALLS = [
    *["", "add", "add 1", "add 1  2", "add 1 2 3", " add 1 2", "sum 1 2", "cmp x y", "cmp 1|2|3 1"],
    *["root 4 0", "digits 0 1", "digits 37 1", "pow 2 2147483648", "new 1", "negate 1|0"],
    *["negate 1.5", f"negate {MOST + 1}", f"negate -{MOST + 1}", f"floor 1|-{MOST + 1}"],
]


def no_call(r, _):
    text = r.choice(NO_CALLS)
    return text.encode(), "bad call"


KINDS = {
    "new": new_call,
    "negate": one(lambda x: exact(-x)),
    "floor": one(lambda x: str(math.floor(x))),
    "add": two(sum_pair, lambda x, edge: edge - x, sum_answer),
    "sub": two(sum_pair, lambda x, edge: x - edge, lambda x, y: sum_answer(x, -y)),
    "mul": two(pair, lambda x, edge: edge / x if x else x, lambda x, y: answer(x * y)),
    "div": two(pair, lambda x, edge: x / edge, quotient_answer),
    "pow": with_number(power, power_answer),
    "root": with_number(rooted, root_answer),
    "zero": one(lambda x: "true" if x == 0 else "false"),
    "cmp": two(pair, lambda x, _: x, order_answer),
    "exact": one(exact),
    "digits": digits_call,
    "length": text_call(length_answer),
    "numeral": text_call(numeral_answer),
    "no call": no_call,
}


def compare(kind, make, count, seed):
    """Compares calls of a kind and returns how many answers differ."""
    r = random.Random(f"{seed} {kind}")
    calls = [make(r, kind) for _ in range(count)]
    lines = b"".join(line + b"\n" for line, _ in calls)
    run = subprocess.run([program(PROGRAM), KIND], input=lines, stdout=subprocess.PIPE, check=False)
    answers = run.stdout.decode().split("\n")[:-1]
    different = [(call, want, got) for (call, want), got in zip(calls, answers) if want != got]
    words = Counter(want for _, want in calls if not NUMBER.fullmatch(want))
    tally = "".join(f", {words[word]} {word}" for word in sorted(words))
    print(f"{kind}: {len(answers)} calls, {len(different)} differences{tally}", flush=True)
    for call, want, got in different[:SHOWN]:
        print(f"    {call!r}: {got!r}, not {want!r}")
    if run.returncode != 0 or len(answers) != count:
        print(f"    the program ended with status {run.returncode} after {len(answers)} answers")
        return len(different) + count - len(answers)
    return len(different)


def main():
    sys.set_int_max_str_digits(0)
    count = int(sys.argv[1]) if len(sys.argv) > 1 else 100_000
    seed = sys.argv[2] if len(sys.argv) > 2 else "1"
    differences = sum(compare(kind, make, count, seed) for kind, make in KINDS.items())
    print(f"{count * len(KINDS)} calls, {differences} differences")
    sys.exit(1 if differences else 0)


if __name__ == "__main__":
    main()
