#!/usr/bin/env python3
"""Counts patterns that make the crates harder to maintain, and lists their places.

    tools/checks/count_house.py             prints one line for each count
    tools/checks/count_house.py COUNT..     prints the places of these counts

The counts: lines (by kind), arguments (functions with more than five besides self), clauses (those that ten functions
or more have), names (definitions of two crates with one name, operators aside), participles (functions and definitions
named by a single participle), citations (imports of another crate's proofs that cite more than its laws), unused
(lemmas that no file names). Test programs (`test_*`) count only in `lines`. `general_lemmas` is there to
be cited.

Why some counts are not 0: five functions with more than five arguments are specified, the others take the allocator and
each part of a state, so that their contracts say which parts stay. A contract is read alone, so some clauses are
repeated. Names such as `put` only look like participles. Some citations are facts about definitions, not laws.
"""

from __future__ import annotations

import re
import sys
from collections import Counter, defaultdict
from collections.abc import Iterator
from functools import lru_cache
from pathlib import Path

from spec_index import HEAD

ROOT = Path(__file__).resolve().parents[2]
CRATES = ROOT / "crates"
MOST_ARGUMENTS = 5
REPEATED = 10
FUNCTION = re.compile(r"^ *(?:pub(?:\(crate\))? )?(?:const )?fn (\w+)(?:<[^>]*>)?\(", re.MULTILINE)
CLAUSE = re.compile(r"^ *((?:ensures|requires) [^{]*\{ .*? \})[;,]?$", re.MULTILINE | re.DOTALL)
LEMMA = re.compile(r"^(?:pub )?([a-z][^\s:({.]*) :", re.MULTILINE)
CITATION = re.compile(r"^(?:ghost )?(?:pub )?use Rattle\.(\w+)\.proofs\.([\w.]+?)(?:\.\{([^}]*)\}|[ ;]|$)", re.MULTILINE)
LAW = re.compile(r"^pub ([^\s:({.]*) : \w*Law$", re.MULTILINE)
IRREGULAR = {
    "told", "kept", "held", "given", "taken", "said", "made", "found", "left", "known", "written", "read", "put", "met",
    "begun", "gone", "shown", "seen", "done", "worth", "lent", "sought", "cut", "lead", "fed", "risen", "grown", "split",
}


def is_product(crate: str) -> bool:
    return not crate.startswith("test_")


@lru_cache
def files(part: str, suffix: str) -> dict[Path, str]:
    """The text of each file of one part of the crates."""
    return {path: path.read_text() for path in sorted(CRATES.glob(f"*/{part}/**/*{suffix}"))}


def product_files(part: str, suffix: str) -> Iterator[tuple[str, Path, str]]:
    for path, text in files(part, suffix).items():
        crate = path.relative_to(CRATES).parts[0]
        if is_product(crate):
            yield crate, path, text


def place(path: Path, text: str, at: int) -> str:
    return f"{path.relative_to(CRATES)}:{text.count(chr(10), 0, at) + 1}"


def arguments_at(text: str, start: int) -> int:
    """The number of arguments in the list that begins at `start`, without self."""
    depth, count, word = 0, 0, ""
    for letter in text[start:]:
        if letter in "([{<":
            depth += 1
        elif letter in ")]}>" and depth:
            depth -= 1
        elif letter == ")" or letter == "," and not depth:
            count += bool(word.strip()) and not re.fullmatch(r"\s*(&\s*)?(mut\s+)?self", word)
            word = ""
            if letter == ")":
                break
            continue
        word += letter
    return count


def arguments() -> Iterator[str]:
    for _, path, text in product_files("src", ".rt"):
        for match in FUNCTION.finditer(text):
            count = arguments_at(text, match.end())
            if count > MOST_ARGUMENTS:
                yield f"{place(path, text, match.start())}: {match[1]} takes {count}"


def clauses() -> Iterator[str]:
    counts = Counter(" ".join(clause.split()) for _, _, text in product_files("src", ".rt") for clause in CLAUSE.findall(text))
    for clause, count in counts.most_common():
        if count >= REPEATED:
            yield f"{count} times: {clause}"


def names() -> Iterator[str]:
    crates = defaultdict(set)
    for crate, _, text in product_files("specs", ".antt"):
        for line in text.splitlines():
            if (match := HEAD.match(line)) and match[2] not in ("mod", "use"):
                crates[match[2]].add(crate)
    for word, at in sorted(crates.items()):
        if len(at) > 1 and "◌" not in word:
            yield f"{word}: {', '.join(sorted(at))}"


def is_participle(name: str) -> bool:
    return name in IRREGULAR or bool(re.fullmatch(r"[a-z]{2,}ed", name)) or bool(re.fullmatch(r"[a-z]{3,}ing", name))


def participles() -> Iterator[str]:
    for _, path, text in product_files("src", ".rt"):
        for match in FUNCTION.finditer(text):
            if is_participle(match[1]):
                yield f"{place(path, text, match.start())}: fn {match[1]}"
    for _, path, text in product_files("specs", ".antt"):
        for match in re.finditer(HEAD.pattern, text, re.MULTILINE):
            if is_participle(match[2]):
                yield f"{place(path, text, match.start())}: {match[2]}"


def citations() -> Iterator[str]:
    proofs = files("proofs", ".antt")
    for part, suffix in (("src", ".rt"), ("specs", ".antt"), ("proofs", ".antt")):
        for crate, path, text in product_files(part, suffix):
            for match in CITATION.finditer(text):
                cited = CRATES / match[1] / "proofs" / (match[2].replace(".", "/") + ".antt")
                if match[1] in (crate, "general_lemmas") or cited not in proofs:
                    continue
                laws = LAW.findall(proofs[cited])
                names = [item.split(" as ")[0].strip() for item in (match[3] or "").split(",")]
                if not all(name in laws for name in names):
                    yield f"{place(path, text, match.start())}: {match[1]}"


def unused() -> Iterator[str]:
    texts = [*files("src", ".rt").values(), *files("specs", ".antt").values(), *files("proofs", ".antt").values()]
    counts = Counter(word for text in texts for word in re.findall(r"[^\s(){}\[\],;.`]+", text.replace("::", " ")))
    for _, path, text in product_files("proofs", ".antt"):
        if path.stem in ("Answers", "Invariants", "Proof"):
            continue
        for match in LEMMA.finditer(text):
            own = len(re.findall(rf"^(?:pub )?{re.escape(match[1])}(?=[\s:])", text, re.MULTILINE))
            if counts[match[1]] <= own:
                yield f"{place(path, text, match.start())}: {match[1]}"


def lines() -> Iterator[str]:
    for part, suffix in (("src", ".rt"), ("specs", ".antt"), ("proofs", ".antt")):
        product = sum(text.count("\n") for _, _, text in product_files(part, suffix))
        total = sum(text.count("\n") for text in files(part, suffix).values())
        yield f"{part}: {total} lines, {total - product} of them in test programs"


COUNTS = {
    "lines": lines, "arguments": arguments, "clauses": clauses, "names": names,
    "participles": participles, "citations": citations, "unused": unused,
}


def main(words: list[str]) -> int:
    unknown = [word for word in words if word not in COUNTS]
    if unknown:
        print(f"count_house.py: no count {unknown[0]}; there are {', '.join(COUNTS)}", file=sys.stderr)
        return 2
    for word in words:
        print(*COUNTS[word](), sep="\n")
    if not words:
        print(*lines(), sep="\n")
        for name, count in COUNTS.items():
            if name != "lines":
                print(f"{name}: {sum(1 for _ in count())}")
    return 0


if __name__ == "__main__":
    sys.exit(main(sys.argv[1:]))
