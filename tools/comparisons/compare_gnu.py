#!/usr/bin/env python3
"""Asks the program and GNU units for the value of each unit of GNU's own definitions, and shows the differences.

    tools/comparisons/compare_gnu.py GNU DEFINITIONS [PROGRAM]

GNU is the command of GNU units, DEFINITIONS its definition file, in the folder of its includes, and PROGRAM the
program, bin/units by default. If GNU units answers with a number with dimensions, the program has to give the same one,
to 12 digits, or to refuse it; refusals are counted by fault. Run it by hand; it proves nothing.
"""

import re
import subprocess
import sys
from collections import Counter
from concurrent.futures import ThreadPoolExecutor
from decimal import Decimal, InvalidOperation
from pathlib import Path

ROOT = Path(__file__).resolve().parents[2]
DIGITS = "12"
TOLERANCE = Decimal("1e-11")  # GNU units computes in doubles
MARK = "8675309 kg"  # a query between two names, which separates their answers


def names_in(file):
    """The names of units that a definition file and its includes define, in order, each with the first word of its
    definition."""
    names = {}
    text = file.read_text(encoding="utf-8", errors="surrogateescape").replace("\\\n", " ")
    for line in text.split("\n"):
        words = line.partition("#")[0].split()
        if words[:1] == ["!include"]:
            names.update(names_in(file.parent / words[1]))
        elif words and not words[0].startswith(("!", "+")) and not re.search(r"[(\[]|-$", words[0]):
            names[words[0]] = words[1:2]
    return names


def parse(text, without=()):
    """A number and its dimensions without some names, or None."""
    numerator, _, denominator = text.strip().partition("/")
    number, *numerator = numerator.split() or [""]
    try:
        number = Decimal(number)
    except InvalidOperation:
        return None
    dimensions = Counter()
    for sign, words in ((1, numerator), (-1, denominator.split())):
        for word in words:
            name, _, power = word.partition("^")
            if not re.fullmatch(r"[0-9]*", power):
                return None
            dimensions[name] += sign * int(power or 1)
    return number, {name: power for name, power in dimensions.items() if power and name not in without}


def answers_of_gnu(gnu, file, names):
    """The answer of GNU units for each name, if it is a number with dimensions.

    A dimensionless primitive, such as the radian, is not a dimension here.
    """
    dimensionless = {name for name, words in names.items() if words == ["!dimensionless"]}
    lines = "".join(f"{MARK}\n\n{name}\n\n" for name in names) + f"{MARK}\n\n"
    process = subprocess.run(
        [gnu, "-q", "-d", DIGITS, "-f", file],
        input=lines.encode(errors="surrogateescape"),
        stdout=subprocess.PIPE,
        stderr=subprocess.STDOUT,
        check=True,
    )
    text = process.stdout.decode(errors="surrogateescape")
    parts = text.split(f"\tDefinition: {MARK}\n")[1:-1]
    if len(parts) != len(names):
        parts = re.split(rf"\s*Definition: {MARK}\n", text)[1:-1]
    assert len(parts) == len(names), (len(parts), len(names))
    for name, part in zip(names, parts):
        line = part.strip()
        if line.startswith("Definition: ") and "\n" not in line:
            value = parse(line.removeprefix("Definition: ").split(" = ")[-1], dimensionless)
            if value and value[1]:
                yield name, value


def answer_of(program, file, name):
    """The answer of the program, and its status."""
    words = [program, "-d", DIGITS, "--compact", "-f", file, "--", name]
    process = subprocess.run(
        [word.encode(errors="surrogateescape") if isinstance(word, str) else word for word in words],
        stdout=subprocess.PIPE,
        stderr=subprocess.DEVNULL,
        check=False,
    )
    return process.stdout.decode(errors="surrogateescape").rstrip("\n"), process.returncode


def agree(ours, theirs):
    """Whether two numbers with dimensions are equal, to the digits that are compared."""
    if ours is None or ours[1] != theirs[1]:
        return False
    return abs(ours[0] - theirs[0]) <= TOLERANCE * abs(theirs[0])


def main():
    if len(sys.argv) not in (3, 4):
        sys.exit(__doc__)
    gnu, file = sys.argv[1], Path(sys.argv[2]).resolve()
    program = sys.argv[3] if len(sys.argv) == 4 else str(ROOT / "bin/units")
    expected = list(answers_of_gnu(gnu, file, names_in(file)))
    with ThreadPoolExecutor(4) as pool:
        answers = list(pool.map(lambda pair: answer_of(program, file, pair[0]), expected))
    agreements, refusals, differences = 0, Counter(), []
    for (name, value), (text, status) in zip(expected, answers):
        if status == 1:
            refusals[re.split(r"[:]", text)[0]] += 1
        elif status == 0 and agree(parse(text), value):
            agreements += 1
        else:
            differences.append(f"{name}: {text!r} with status {status}, and GNU units says {value}")
    for line in differences:
        print(line)
    for fault, count in refusals.most_common():
        print(f"refused, {fault}: {count}")
    print(f"{len(expected)} names, {agreements} agree, {sum(refusals.values())} refused, {len(differences)} differ")
    sys.exit(1 if differences else 0)


if __name__ == "__main__":
    main()
