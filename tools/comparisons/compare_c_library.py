#!/usr/bin/env python3
"""Asks the library from C, the Python package with both back ends, and the program random questions. All have to give
the same answer, byte for byte.

    tools/comparisons/compare_c_library.py [--questions N] [--seed S] [--definitions FILE] [--units FOLDER]

N is the number of questions, 20,000 by default. FILE is Debian's definition file of GNU units by default, or
examples/first.units if that is not installed. FOLDER is the output of tools/c_library.sh, which runs if there is none.
The last line is `N passed, M failed`, which counts questions.
"""

from __future__ import annotations

import argparse
import os
import random
import subprocess
import sys
import tempfile
from pathlib import Path
from typing import Callable, List, NamedTuple, Tuple

ROOT = Path(__file__).resolve().parents[2]
GNU = Path("/usr/share/units/definitions.units")
sys.path.insert(0, str(ROOT / "lib" / "python"))

from exact_units import Units, UnitsError  # noqa: E402
from exact_units.definition_files import files_of_path  # noqa: E402


Answers = Tuple[bytes, bytes]
"""The reply to a question, and the value of FROM."""


class Question(NamedTuple):
    """FROM and TO."""

    source: str
    target: str


def names_in(files: dict[bytes, bytes]) -> List[str]:
    """Return the names of units, prefixes and functions that some files define."""
    names = set()
    for text in files.values():
        for line in text.decode("utf-8", "replace").splitlines():
            words = line.partition("#")[0].split()
            if len(words) > 1 and not words[0].startswith(("!", "+")):
                names.add(words[0].partition("(")[0].partition("[")[0].rstrip("-"))
    return sorted(name for name in names if name and "�" not in name)


def expression(rng: random.Random, names: List[str], depth: int = 3) -> str:
    """Return a random expression, sometimes with a fault."""
    kind = rng.random()
    if depth == 0 or kind < 0.35:
        return rng.choice(names)
    if kind < 0.5:
        return rng.choice(["2", "0.5", "1e-3", "7|3", "-4", "1e30", "12.75"])
    if kind < 0.52:
        return rng.choice(["(", "2 +", "nosuchunit", "1|", "m m m )", "sin(1)", "1 + m", "2^m", "m^1e9"])
    left, right = expression(rng, names, depth - 1), expression(rng, names, depth - 1)
    if kind < 0.6:
        return f"{rng.choice(names)}({left})"
    if kind < 0.7:
        return f"({left})^{rng.choice(['2', '3', '-1', '1|2', '0'])}"
    return f"({left}) {rng.choice(['*', '/', '+', '-', ' '])} ({right})"


def questions(count: int, seed: int, names: List[str]) -> List[Question]:
    """Return random questions; in half of them, TO is a multiple of FROM."""
    rng = random.Random(seed)
    result = []
    for _ in range(count):
        source = expression(rng, names)
        target = expression(rng, names) if rng.random() < 0.5 else f"3 ({source})"
        result.append(Question(source, target))
    return result


def answers_of_c(program: Path, files: List[bytes], pairs: List[Question]) -> List[Answers]:
    """Return the reply and the value of each question that a C program gets."""
    lines = "".join(f"{source}\n{target}\n" for source, target in pairs).encode()
    output = subprocess.run([program, *files], input=lines, stdout=subprocess.PIPE, check=True).stdout
    texts, place = [], 0
    while place < len(output):
        end = output.index(b"\n", place)
        length = int(output[place:end].split()[1])
        texts.append(output[end + 1 : end + 1 + length])
        place = end + 1 + length
    return list(zip(texts[::2], texts[1::2]))


def answers_of_program(program: str, definitions: str, pairs: List[Question]) -> List[Answers]:
    """Return the reply and the value of each question in a session of the program."""
    session = Session([program, "--compact", "--exact", "--one-line", "--strict", "--file", definitions])
    answers = []
    for source, target in pairs:
        reply = session.ask(source)
        wants = session.wants_target
        value = session.ask("").removesuffix(b"\n").rpartition(b"\n")[2] if wants else reply.removesuffix(b"\n")
        if wants:
            session.ask(source)
            reply = session.ask(target)
        answers.append((reply, value))
    session.close()
    return answers


class Session:
    """A session, whose output is read up to each prompt."""

    def __init__(self, command: List[str]) -> None:
        streams = {"stdin": subprocess.PIPE, "stdout": subprocess.PIPE, "stderr": subprocess.DEVNULL}
        self._process = subprocess.Popen(command, bufsize=0, **streams)  # type: ignore[call-overload]
        self.wants_target = False
        self._read()

    def _read(self) -> bytes:
        output = b""
        while not output.endswith((b"You have: ", b"You want: ")):
            piece = os.read(self._process.stdout.fileno(), 1 << 16)
            if not piece:
                raise SystemExit("compare_c_library: the session ended")
            output += piece
        self.wants_target = output.endswith(b"You want: ")
        return output[:-10]

    def ask(self, line: str) -> bytes:
        """Write a line, and return the output up to the next prompt."""
        self._process.stdin.write(line.encode() + b"\n")
        return self._read()

    def close(self) -> None:
        """End the session."""
        self._process.stdin.close()
        self._process.wait()


def result_of(act: Callable[[], object]) -> str:
    """Return an answer of the package, or the name and the text of its exception."""
    try:
        return repr(act())
    except UnitsError as fault:
        return f"{type(fault).__name__}: {fault}"


def differences(units: Tuple[Units, Units], question: Question, c: Answers, program: Answers) -> str:
    """Return how the answers to a question differ, or an empty text."""
    if c != program:
        return f"C {c}, the program {program}"
    for call in (lambda u: u.convert(*question), lambda u: u.value(question.source)):
        one, other = (result_of(lambda u=u: call(u)) for u in units)
        if one != other:
            return f"Python over the library {one}, over a session {other}"
    number = result_of(lambda: str(units[0].convert(*question)).replace("/", "|"))
    if not number.startswith(("NotAnExpression", "ConformabilityError")):
        reply = c[0].decode("utf-8", "surrogateescape").removesuffix("\n")
        if number.strip("'") != reply and number.partition(": ")[2] != reply:
            return f"Python {number}, C {reply}"
    return ""


def build(units: Path, folder: Path) -> Tuple[Path, Path]:
    """Build the C program and return its path and that of the shared library."""
    if not units.exists():
        subprocess.run([ROOT / "tools" / "c_library.sh", units], check=True)
    source, answers = ROOT / "tests" / "c" / "answers.c", folder / "answers"
    flags = ["-O1", f"-I{units / 'include'}", "-o", answers, source, units / "lib" / "libunits.a"]
    subprocess.run(["gcc", *flags], check=True)
    return answers, units / "lib" / "libunits.so.1"


def main() -> int:
    parser = argparse.ArgumentParser(description=__doc__, formatter_class=argparse.RawDescriptionHelpFormatter)
    parser.add_argument("--questions", type=int, default=20_000)
    parser.add_argument("--seed", type=int, default=1)
    parser.add_argument("--definitions", type=Path, default=GNU if GNU.exists() else ROOT / "examples" / "first.units")
    parser.add_argument("--units", type=Path)
    arguments = parser.parse_args()
    definitions = str(arguments.definitions)
    program = subprocess.run([ROOT / "tools" / "built.sh", "units"], stdout=subprocess.PIPE, text=True, check=True)
    files = files_of_path(definitions).texts
    pairs = questions(arguments.questions, arguments.seed, names_in(files))
    wrong = 0
    with tempfile.TemporaryDirectory() as name:
        folder = Path(name)
        answers, library = build(arguments.units or folder / "units", folder)
        by_c = answers_of_c(answers, list(files), pairs)
        by_program = answers_of_program(program.stdout.strip(), definitions, pairs)
        over_library = Units(definitions, backend="library", library=str(library), variables={})
        over_session = Units(definitions, backend="session", program=program.stdout.strip(), variables={})
        with over_library, over_session:
            for question, c, expected in zip(pairs, by_c, by_program):
                difference = differences((over_library, over_session), question, c, expected)
                if difference:
                    wrong += 1
                    print(f"{question.source!r} to {question.target!r}: {difference}")
        refused = sum(not text[:1].isdigit() and not text.startswith(b"-") for text, _ in by_c)
    print(f"{len(pairs)} questions over {definitions}, {refused} of them refused")
    print(f"{len(pairs) - wrong} passed, {wrong} failed")
    return int(wrong > 0 or len(by_c) != len(pairs))


if __name__ == "__main__":
    sys.exit(main())
