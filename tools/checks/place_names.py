#!/usr/bin/env python3
"""Draws names of the crates by lot, and counts the guesses of a reader who places each in its crate.

    tools/checks/place_names.py SEED [COUNT]     prints COUNT names (25 by default), with their kinds
    tools/checks/place_names.py --score FILE..   prints the wrong guesses of a recorded reader, and the number of right ones

A kind (function, definition, lemma) is drawn first, then a name of that kind; a method is drawn with its type. The reader
knows docs/ARCHITECTURE.md and these names alone. The first line of a recorded file has the seed; the other lines have
kind, name, guess and reason, separated by tabs, in the order of the draw. A name that several crates have may be placed
in any of them. Test programs are left out.
"""

from __future__ import annotations

import random
import re
import sys
from collections.abc import Iterator
from pathlib import Path

from count_house import product_files
from spec_index import HEAD

KINDS = ("function", "definition", "lemma")
COUNT = 25
OWNER = re.compile(r"(?:unsafe )?impl(?:<[^{]*?>)? (?:.*? for )?&?(?:'\w+ )?(\w+)|(?:pub(?:\([a-z]+\))? )?trait (\w+)")
FUNCTION = re.compile(r"( *)(?:pub(?:\([a-z]+\))? )?(?:const )?(?:unsafe )?(?:extern \"C\" )?fn (\w+)")
LEMMA = re.compile(r"^(?:pub )?([a-z][^\s(:]*) :", re.MULTILINE)
LEFT_OUT = {"mod", "use"}
ANSWERS = {"Answers", "Invariants", "Proof"}

Name = tuple[str, str]  # a name and its crate


def functions() -> Iterator[Name]:
    for crate, _, text in product_files("src", ".rt"):
        owner = None
        for line in text.splitlines():
            if match := OWNER.match(line):
                owner = match[1] or match[2]
            elif line.startswith("}"):
                owner = None
            if match := FUNCTION.match(line):
                yield (f"{owner}::{match[2]}" if owner and match[1] else match[2], crate)


def definitions() -> Iterator[Name]:
    for crate, _, text in product_files("specs", ".antt"):
        for line in text.splitlines():
            if (match := HEAD.match(line)) and match[2] not in LEFT_OUT:
                yield (match[2], crate)


def lemmas() -> Iterator[Name]:
    for crate, path, text in product_files("proofs", ".antt"):
        if path.stem not in ANSWERS:
            yield from ((match[1], crate) for match in LEMMA.finditer(text))


def names_by_kind() -> dict[str, list[Name]]:
    return dict(zip(KINDS, (list(functions()), list(definitions()), list(lemmas()))))


def draw(seed: int, count: int) -> list[tuple[str, str]]:
    names = names_by_kind()
    choices = random.Random(seed)
    kinds = [choices.choice(KINDS) for _ in range(count)]
    return [(kind, choices.choice(names[kind])[0]) for kind in kinds]


def score(path: str) -> None:
    lines = Path(path).read_text().splitlines()
    names = names_by_kind()
    guesses = [line.split("\t")[:3] for line in lines[1:]]
    right = 0
    for kind, name, guess in guesses:
        crates = sorted({crate for other, crate in names[kind] if other == name})
        right += guess in crates
        if guess not in crates:
            print(f"  {kind} {name} is of {', '.join(crates) or 'no crate now'}, not of {guess}")
    print(f"{path}: {lines[0]}: {right} of {len(guesses)}")


def main(words: list[str]) -> int:
    if not words:
        print(__doc__)
        return 2
    if words[0] == "--score":
        for path in words[1:]:
            score(path)
        return 0
    for kind, name in draw(int(words[0]), int(words[1]) if len(words) > 1 else COUNT):
        print(f"{kind}\t{name}")
    return 0


if __name__ == "__main__":
    sys.exit(main(sys.argv[1:]))
