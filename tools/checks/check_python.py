#!/usr/bin/env python3
"""Runs the tests of the Python package, and asks it at random over odd definition files, beside the program itself.

    tools/checks/check_python.py [--steps N] [--seed S]

N is the number of questions and edits, 2,000 by default. Both back ends and the program have to give the same numbers,
texts of faults and searches. The seed is printed; without one it is random. The library is $EXACT_UNITS_LIBRARY; without
it that back end is skipped by name. The last line is `N passed, M failed, K skipped`.
"""

from __future__ import annotations

import argparse
import os
import random
import subprocess
import sys
import tempfile
import unittest
import warnings
from collections import Counter
from pathlib import Path
from typing import Dict, List, NamedTuple, Optional

ROOT = Path(__file__).resolve().parents[2]
sys.path.insert(0, str(ROOT / "lib" / "python"))

from exact_units import DefinitionFault, DefinitionWarning, NotAnExpression, Units, UnitsError  # noqa: E402
from exact_units.faults import fault_of_text  # noqa: E402

STEPS_PER_FOLDER = 20
NAMES = ["m", "s", "ft", "aa", "bb", "cc", "aab", "k", "da", "fn", "gauge", "You", "have:", "a\u2028b", "a\u0085c",
         "\u2029", "µ", "a\u00a0", "bad\udcff", "\u0435", "search", "x_1", "per"]
FILES = ["main.units", "own.units", "sub/own.units", "sub/deep/c.units", "bad\udcff.units", "µ.units"]
INCLUDED = [*FILES, "sub/../own.units", "./own.units", "deep/c.units", "../own.units", "gone.units",
            "//tmp/gone.units", "sub//own.units"]
NUMBERS = ["2", "0.5", "-3", "7|3", "1e3", "12 ", "0", "1e40", "3048|10000"]

ENDS = ["\n", "\n", "\n", " # note\n", "\r\n", " \n", "#\n", " \\\n"]


class Step(NamedTuple):
    """A call of the package, and its words."""

    call: str
    words: List[str]


def expression(rng: random.Random, depth: int = 2) -> str:
    """Return a random expression, sometimes with a fault."""
    if depth == 0 or rng.random() < 0.5:
        return rng.choice(NAMES) if rng.random() < 0.7 else rng.choice(NUMBERS) + rng.choice(["", " m", " \t s", " ft"])
    one, other = expression(rng, depth - 1), expression(rng, depth - 1)
    return rng.choice([f"{one} {other}", f"{one}/{other}", f"({one}) ({other})", f"{one} + {other}", f"({one})^2",
                       f"fn({one})", f"~fn({one})", f"gauge({one})", f"sqrt({one})", f"{one})", f"kilo{other}", "2 +"])


def definition(rng: random.Random) -> str:
    """Return a random definition line, sometimes with a fault."""
    name, body = rng.choice(NAMES), expression(rng)
    return rng.choice([f"{name} {body}", f"{name} {body}", f"{name} {rng.choice(NUMBERS)} m", f"{name} !", f"{name}- {body}",
                       f"+{name} {body}", "fn(x) units=[1;1] 2 x ; fn/2", "fn(x) x m ; fn/m", "gauge[m] 1 2 3 6",
                       f"!unitlist {name} ft;aa", f"{name}", f"{name}() fn", f"_{name} 2 m", f"{name} !dimensionless"])


def include(rng: random.Random) -> str:
    """Return a random include line."""
    name, blank = rng.choice(INCLUDED), rng.choice([" ", "\t", "  "])
    return rng.choice([
        f"!include{blank}{name}", f"!{blank}include{blank}{name}", f"!include\\\n{name}", f"!\\\ninclude {name}",
        f"!include \\ # to be continued\r\n\t{name}", f"x 2 \\\n!include {name}", f"# !include {name}",
        f"!include {name} {name}", "!include",
    ])


def line(rng: random.Random) -> str:
    """Return a random line of a definition file."""
    text = rng.choice([
        *[definition(rng) for _ in range(10)], include(rng), "!locale en_GB", "!endlocale",
        "!locale en_US", "!var V w", "!varnot V w", "!endvar", "!set V w", "!utf8", "!endutf8", "!message You have: ",
        "!message \n", "!unknown", "", "\\", "  \t",
    ])
    return text + rng.choice(ENDS)


def write_files(rng: random.Random, folder: Path) -> Path:
    """Write odd definition files, and return the path of the main one."""
    for name in FILES:
        (folder / name).parent.mkdir(parents=True, exist_ok=True)
        lines = [f"{rng.choice(NAMES)} {rng.randrange(2, 1000)} m\n" for _ in range(4)]
        lines += [line(rng) for _ in range(rng.randrange(8))]
        lines += [include(rng) + rng.choice(ENDS) for _ in range(4 if name == FILES[0] else rng.randrange(2))]
        rng.shuffle(lines)
        text = "".join(["m !\ns !\nkilo- 1000\n" if name == FILES[0] else "", *lines])
        (folder / name).write_bytes(text.encode("utf-8", "surrogateescape")[: -1 if rng.random() < 0.2 else None])
    return folder / FILES[0]


def step(rng: random.Random) -> Step:
    """Return a random question or edit."""
    key = rng.choice(NAMES) + rng.choice(["", "", "-", "()", " "])
    return rng.choice([
        Step("convert", [expression(rng), expression(rng)]), Step("convert", [expression(rng), "m"]),
        *[Step("convert", [rng.choice(NAMES), "m"]) for _ in range(4)],
        Step("value", [expression(rng)]), Step("define", [definition(rng) + rng.choice(["", " # note", " \\"])]),
        Step("drop", [rng.choice([key, f"!unitlist {key}", "-", "2 m", f"{key} # x"])]), Step("undo", []),
        Step("redo", []), Step("search", [rng.choice([key, "a", "a#b", "\u2028", "f x", "\udcff"])]),
    ])


class Program:
    """A session of the program, each of whose replies is read up to that to a random word."""

    def __init__(self, program: str, path: Path, variables: Dict[str, str]) -> None:
        words = [program, "--compact", "--exact", "--one-line", "--strict", "--file", str(path)]
        self._process = subprocess.Popen(words, stdin=subprocess.PIPE, stdout=subprocess.PIPE, env=variables,
                                         stderr=subprocess.DEVNULL, bufsize=0)
        self.ask()

    def ask(self, *lines: bytes) -> str:
        """Return the replies to some lines, without the prompts."""
        word = b":" + os.urandom(8).hex().encode()
        self._process.stdin.write(b"".join(one + b"\n" for one in (*lines, word)))  # type: ignore[union-attr]
        output, end = b"", b"unknown command: " + word + b"\n"
        while end not in output:
            piece = os.read(self._process.stdout.fileno(), 65536)  # type: ignore[union-attr]
            if not piece:
                raise EOFError
            output += piece
        text = output.partition(end)[0].decode("utf-8", "surrogateescape")
        for _ in range(len(lines) + 1):
            for prompt in ("You have: ", "You want: "):
                text = text.removeprefix(prompt)
        while text.endswith("You have: "):
            text = text.removesuffix("You have: ")
        return text.removesuffix("\n")

    def result(self, one: Step) -> str:
        """Return the result of a step as `result_of` does."""
        words = [text.partition("#")[0].strip(" \t").encode("utf-8", "surrogateescape") for text in one.words]
        if one.call in ("convert", "value"):
            reply = self.ask(words[0], b"").rpartition("\n")[2]
            if one.call == "convert" and reply[:1] in "-0123456789":
                reply = self.ask(*words)
            return reply if reply[:1] in "-0123456789" else fault_result(reply)
        if one.call == "search":
            return self.ask(b"search " + words[0])
        reply = self.ask(b" ".join([f":{one.call}".encode(), *words]))
        if reply == "bad command: :drop":
            return f"BadKey: bad key: {words[0].decode('utf-8', 'surrogateescape')}"
        return fault_result(reply) if reply else "None"

    def close(self) -> None:
        """End the session."""
        self._process.communicate()


def fault_result(text: str) -> str:
    fault = fault_of_text(text)
    return f"{type(fault).__name__}: {fault}"


def result_of(units: Units, one: Step) -> str:
    """Return the result of a step as the program writes it, or its fault."""
    try:
        result = getattr(units, one.call)(*one.words)
    except UnitsError as fault:
        return f"{type(fault).__name__}: {fault}"
    if one.call == "search":
        return "\n".join(f"\t{name}\t{text}" for name, text in result) or "no matching names"
    return str(result).replace("/", "|") if one.call == "convert" else str(result)


def is_refused(result: str) -> bool:
    """Return whether the package alone refuses a step: for its text, or because the answer is a list."""
    return result.startswith((NotAnExpression.__name__, "ConformabilityError: not a plain number"))


def is_opened(path: Path, back_end: str, program: str, library: Optional[str], variables: Dict[str, str]) -> bool:
    """Return whether the package opens definitions that the program refuses."""
    try:
        Units(path, backend=back_end, program=program, library=library, variables=variables).close()
    except DefinitionFault:
        return False
    print(f"Python over the {back_end} opens files that the program refuses")
    return True


def run(rng: random.Random, folder: Path, program: str, library: Optional[str], count: int) -> int:
    """Make odd files, run steps over them, and return how many of them differ."""
    path = write_files(rng, folder)
    variables = {"V": "w"} if rng.random() < 0.5 else {}
    back_ends = ["session"] if library is None else ["session", "library"]
    opened: List[Units] = []
    try:
        plain = Program(program, path, variables)
        for back_end in back_ends:
            opened.append(Units(path, backend=back_end, program=program, library=library, variables=variables))
    except EOFError:
        return count * any(is_opened(path, back_end, program, library, variables) for back_end in back_ends)
    wrong = 0
    for _ in range(count):
        one = step(rng)
        results = {f"Python over the {units.backend}": result_of(units, one) for units in opened}
        if not any(is_refused(result) for result in results.values()):
            results["the program"] = plain.result(one)
        if len(set(results.values())) > 1:
            wrong += 1
            print(f"{one.call} {one.words}: {results}")
    for units in opened:
        units.close()
    plain.close()
    return wrong


def run_tests() -> unittest.TestResult:
    """Run the tests of the package, print what failed and what was skipped, and return the result."""
    tests = unittest.TestLoader().discover(str(ROOT / "lib" / "python" / "tests"))
    result = unittest.TestResult()
    tests.run(result)
    for test, text in [*result.failures, *result.errors]:
        print(f"== {test}: failed\n{text}")
    for reason, count in Counter(reason for _, reason in result.skipped).items():
        print(f"== {count} tests: skipped: {reason}")
    return result


def main() -> int:
    parser = argparse.ArgumentParser(description=__doc__, formatter_class=argparse.RawDescriptionHelpFormatter)
    parser.add_argument("--steps", type=int, default=2000)
    parser.add_argument("--seed", type=int, default=random.SystemRandom().randrange(1_000_000))
    arguments = parser.parse_args()
    built = subprocess.run([ROOT / "tools" / "built.sh", "units"], stdout=subprocess.PIPE, text=True, check=True)
    program, library = built.stdout.strip(), os.environ.get("EXACT_UNITS_LIBRARY")
    os.environ["EXACT_UNITS_PROGRAM"] = program
    warnings.simplefilter("ignore", DefinitionWarning)
    tests = run_tests()
    print(f"seed {arguments.seed}")
    rng, failed = random.Random(arguments.seed), 0
    for start in range(0, arguments.steps, STEPS_PER_FOLDER):
        with tempfile.TemporaryDirectory() as name:
            count = min(STEPS_PER_FOLDER, arguments.steps - start)
            failed += run(rng, Path(name), program, library, count)
    passed = arguments.steps - failed
    skipped = len(tests.skipped)
    if library is None:
        print(f"== {arguments.steps} steps over the library: skipped: EXACT_UNITS_LIBRARY is not set")
        skipped += arguments.steps
    failed += len(tests.failures) + len(tests.errors)
    passed += tests.testsRun - len(tests.failures) - len(tests.errors) - len(tests.skipped)
    print(f"{passed} passed, {failed} failed, {skipped} skipped")
    return int(failed > 0)


if __name__ == "__main__":
    sys.exit(main())
