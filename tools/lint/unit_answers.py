# SPDX-License-Identifier: MIT OR Apache-2.0
"""Asks the program for exact values, in one session with a definition file."""

from __future__ import annotations

import os
import shutil
import subprocess
from dataclasses import dataclass
from fractions import Fraction
from pathlib import Path

ROOT = Path(__file__).resolve().parents[2]


class NoAnswers(Exception):
    """The program cannot be run, or is not this program."""


@dataclass(frozen=True)
class Value:
    """A number and the printed power of each primitive unit."""

    number: Fraction
    powers: tuple[tuple[str, str], ...] = ()

    def conforms(self, other):
        return self.powers == other.powers

    def __str__(self):
        number = str(self.number).replace("/", "|")
        return f"{number} {self.dimensions}" if self.powers else number

    @property
    def dimensions(self):
        parts = [name if power == "1" else f"{name}^{power}" for name, power in self.powers]
        return " ".join(parts) or "a number"


@dataclass(frozen=True)
class Fault:
    """Why an expression has no value, in the words of the program."""

    text: str

    def __str__(self):
        return self.text


def value_of(line):
    """The value in a line of a compact, exact session, or the fault if the line is one."""
    numerator, _, denominator = line.partition(" / ")
    number, *names = numerator.split(" ")
    try:
        number = Fraction(number.replace("|", "/"))
    except (ValueError, ZeroDivisionError):
        return Fault(line)
    powers = []
    for sign, words in (("", names), ("-", denominator.split(" ") if denominator else [])):
        for word in words:
            name, _, power = word.partition("^")
            powers.append((name, sign + (power or "1")))
    return Value(number, tuple(sorted(powers)))


def lines_of(output):
    """The lines of an output. A name may have a line separator of Unicode, which ends no line."""
    return output.decode(errors="surrogateescape").split("\n")[:-1]


def default_program():
    """The program of the repository, or the one on the path."""
    own = ROOT / "bin/units"
    return str(own) if own.exists() else shutil.which("units") or "units"


@dataclass(frozen=True)
class Session:
    """A program, its definition file, its locale, and variables to add to its environment."""

    program: str
    file: str
    locale: str = "en_US"
    variables: tuple[tuple[str, str], ...] = ()

    def values(self, expressions, definitions=()):
        """The value or the fault of each expression, without a conversion.

        The definitions are added to those of the file first. Raises NoAnswers if the program cannot be run or does
        not reply with one line to each expression.
        """
        expressions = list(expressions)
        lines = [f":define {line}\n" for line in definitions]
        # After a fault the session ignores the blank line, since it expects an operand to convert.
        lines += [f"({expression})\n\n" for expression in expressions]
        command = [self.program, "-q", "--exact", "--compact", "-l", self.locale, "-f", self.file]
        run = self.run(command, "".join(lines))
        replies = lines_of(run.stdout)
        if len(replies) != len(expressions):
            counts = f"{len(replies)} replies to {len(expressions)} expressions"
            raise NoAnswers(f"{self.program} is not the program, which answers each line: {counts}")
        return [value_of(reply) for reply in replies]

    def search(self, texts):
        """The definitions whose names contain one of these texts, as the program shows them, by key."""
        command = [self.program, "-q", "-l", self.locale, "-f", self.file]
        run = self.run(command, "".join(f"search {text}\n" for text in texts))
        lines = run.stdout.decode(errors="surrogateescape").split("\n")
        return dict(line[1:].split("\t", 1) for line in lines if line.startswith("\t"))

    def check(self):
        """The lines of the program's own check of the file, on both streams."""
        run = self.run([self.program, "--check", "-l", self.locale, "-f", self.file], "")
        return lines_of(run.stdout + run.stderr)

    def run(self, command, text):
        environment = {**os.environ, **dict(self.variables)}
        try:
            return subprocess.run(
                command, input=text.encode(errors="surrogateescape"), capture_output=True, env=environment, check=False
            )
        except OSError as fault:
            raise NoAnswers(f"{self.program}: {fault.strerror}") from fault
