#!/usr/bin/env python3
"""Compares what the crates state with the commit that tests/clauses.tsv names, up to names.

    tools/checks/check_clauses.py [--show]

A statement is the contract of a public call, a ghost item of a trait or of an `impl` block, or a definition in specs/.
Two statements are equal if their words are, up to the names of variables and to a renaming that is one-to-one in all
statements. Each statement of that commit that is changed or gone has a row in the table, with the reason, and each row
such a statement. `--show` prints the words before and after. The last line is `N passed, M failed, K skipped`.
"""

from __future__ import annotations

import csv
import difflib
import json
import re
import subprocess
import sys
import tempfile
from collections.abc import Iterator
from fnmatch import filter as filter_names
from fnmatch import fnmatchcase
from pathlib import Path

sys.path.insert(0, str(Path(__file__).resolve().parent))
import public_items  # noqa: E402
import spec_index  # noqa: E402

ROOT = Path(__file__).resolve().parents[2]
TABLE = ROOT / "tests/clauses.tsv"
WORD = re.compile(r"[(){}\[\],;:\"`|&<>]|\.(?=\s)|[^\s(){}\[\],;:\"`|&<>]+?(?=\.?[\s(){}\[\],;:\"`|&<>]|\.?$)|\S")
GHOST_USE = re.compile(r"ghost use Rattle\.(\w+(?:\.\w+)*)(?:\.\{([^}]*)\}| as ([\w-]+))?;")
BINDER = re.compile(r"λ\s*([^.]*?)\s*\.|[(\[{]\s*([^\s(){}\[\]:.]+(?:\s+[^\s(){}\[\]:.]+)*)\s+:\s")
KEPT = {"self", "result", "old", "new", "now"}

Words = list[list[str]]  # each word with its sort: text, bound, or the definition that it names


def without_comments(text: str) -> str:
    return re.sub(r"^\s*(?://|--).*$", "", text, flags=re.MULTILINE)


def bound_in(text: str) -> set[str]:
    """The variables that λ, a typed binder, or the left side of an equation binds."""
    names = {name for match in BINDER.finditer(text) for name in (match[1] or match[2]).split()}
    for line in text.splitlines():
        left, equals, _ = line.partition(" = ")
        names |= {word for word in WORD.findall(left)[1:] if equals and ":" not in left}
    return {name for name in names if re.match(r"[a-z_]\w*'*$", name)} - KEPT


class Statements:
    """The statements of a tree, by name."""

    def __init__(self) -> None:
        self.found: dict[str, Words] = {}

    def add_definitions(self) -> None:
        for name in spec_index.all_definitions():
            text = without_comments(spec_index.read_file(name.crate, name.subject).definitions[name.word].text)
            text = re.sub(r"^(?:(?:abbrev|unfoldable|pattern) )+", "", text)

            def resolve(word: str, name: spec_index.Name = name) -> spec_index.Name | None:
                return spec_index.resolve(word, name.crate, name.subject)

            self.found[name_of(name)] = words_of(text, resolve, bound_in(text))

    def add_calls(self, crate: str, file: Path) -> None:
        text = without_comments(file.read_text())
        names, modules = {}, {}
        for path, group, alias in GHOST_USE.findall(text):
            parts = path.split(".")
            if len(parts) == 3 and parts[1] == "specs" and (spec_index.CRATES / parts[0]).is_dir():
                modules |= {alias: (parts[0], parts[2])} if alias else {}
                names |= {word.strip(): spec_index.Name(parts[0], parts[2], word.strip()) for word in group.split(",")}

        def resolve(word: str) -> spec_index.Name | None:
            head, _, rest = word.partition(".")
            if rest and head in modules:
                return spec_index.home_of(spec_index.Name(*modules[head], rest.split(".")[0]))
            return spec_index.home_of(names[word]) if word in names else None

        for owner, statement in statements_of(text):
            head = re.search(r"\bfn (\w+)|\bghost (?:impl )?([^\s:=]+)", statement)
            bound = bound_in(statement) | set(re.findall(r"[(,]\s*(?:mut )?(\w+):", statement.partition("{")[0])) - KEPT
            key = f"{crate} {owner}{'::' * bool(owner)}{head[1] or head[2]}"
            statement = re.sub(r"\bfn \w+", "fn", statement, count=1)
            self.found[key + "'" * (key in self.found)] = words_of(statement, resolve, bound)


def name_of(name: spec_index.Name) -> str:
    return f"{name.crate} {name.subject}.{name.word}"


def words_of(text: str, resolve, bound: set[str]) -> Words:
    """The words of a statement. A variable is written by the place where it first occurs."""
    words: Words = []
    places: dict[str, str] = {}
    for whole in WORD.findall(text):
        home = resolve(whole)
        for word in [whole] if home else re.findall(r"[^.]+|\.", whole):
            if home:
                words.append(["definition", name_of(home)])
            elif word in bound:
                words.append(["variable", places.setdefault(word, str(len(places)))])
            else:
                words.append(["text", word])
    return words


def statements_of(text: str) -> Iterator[tuple[str, str]]:
    """The public calls with their contracts, and the ghost items of traits and `impl` blocks, each with its type."""
    owner, lines = "", text.splitlines()
    for at, line in enumerate(lines):
        block = re.match(r"(?:pub )?(?:trait|impl)\b(?:<[^{]*?>(?= ))?\s*(.*?)\s*\{", line + " {")
        if block:
            owner = re.sub(r"\s+", " ", block[1])
        elif line.startswith("}"):
            owner = ""
        is_trait = owner and not re.match(r"\w+(?:<.*>)?(?: where.*)?$", owner)
        call = re.match(r"(\s*)(pub )?(?:ghost )?(?:unsafe )?fn \w+", line)
        if call and (call[2] or is_trait or in_trait(lines, at)):
            yield owner, up_to_body(lines, at, len(call[1]))
        elif owner and re.match(r"    ghost (?!use)", line):
            yield owner, up_to_body(lines, at, 4)


def in_trait(lines: list[str], at: int) -> bool:
    """Whether the block around a line is a trait."""
    opening = next((line for line in reversed(lines[:at]) if line and line[0] not in " }#"), "")
    return bool(re.match(r"(?:pub )?trait\b", opening))


def up_to_body(lines: list[str], at: int, indent: int) -> str:
    """The lines of an item up to its body, or up to the semicolon that ends it."""
    kept = []
    for line in lines[at:]:
        if kept and line[:indent].strip() == "" and line[indent : indent + 1] in ("{", "}"):
            break
        kept.append(line)
        if line.endswith((";", "{") if len(kept) == 1 else ";") and (line.endswith("{") or is_closed(kept)):
            break
    return "\n".join(kept)


def is_closed(lines: list[str]) -> bool:
    text = "\n".join(lines)
    return all(text.count(opening) == text.count(closing) for opening, closing in ("{}", "()"))


def read_tree() -> dict[str, Words]:
    statements = Statements()
    statements.add_definitions()
    for file in sorted(spec_index.CRATES.glob("*/src/**/*.rt")):
        statements.add_calls(file.relative_to(spec_index.CRATES).parts[0], file)
    return statements.found


def read_commit(commit: str) -> dict[str, Words]:
    """The statements of a commit, read by these scripts in a tree of its crates."""
    with tempfile.TemporaryDirectory() as folder:
        archive = subprocess.run(["git", "-C", ROOT, "archive", commit, "crates"], check=True, capture_output=True)
        subprocess.run(["tar", "x", "-C", folder], input=archive.stdout, check=True)
        scripts = Path(folder) / "tools/checks"
        scripts.mkdir(parents=True)
        for module in (__file__, spec_index.__file__, public_items.__file__):
            (scripts / Path(module).name).write_bytes(Path(module).read_bytes())
        script = scripts / Path(__file__).name
        output = subprocess.run([sys.executable, script, "--statements"], check=True, capture_output=True)
        return json.loads(output.stdout)


class Renaming:
    """A one-to-one renaming of the names that one tree alone has."""

    def __init__(self, before: dict[str, Words], after: dict[str, Words]) -> None:
        names = [{tuple(word) for words in tree.values() for word in words} for tree in (before, after)]
        self.both = names[0] & names[1]
        self.forward: dict[str, str] = {}
        self.backward: dict[str, str] = {}

    def takes(self, old: list[str], new: list[str]) -> bool:
        if old == new:
            return True
        if "variable" in (old[0], new[0]) or not old[1][0].isalpha() or self.both & {tuple(old), tuple(new)}:
            return False
        return self.forward.setdefault(old[1], new[1]) == new[1] and self.backward.setdefault(new[1], old[1]) == old[1]

    def equal(self, old: Words, new: Words) -> bool:
        return len(old) == len(new) and all(map(self.takes, old, new))


def changed_statements(before: dict[str, Words], after: dict[str, Words]) -> Iterator[str]:
    renaming = Renaming(before, after)
    gone = [name for name in before if name not in after]
    new = {name: words for name, words in after.items() if name not in before}
    yield from (name for name in before if name in after and not renaming.equal(before[name], after[name]))
    for name in gone:
        image = renaming.forward.get(name)
        same = [image] if image else [it for it in new if len(new[it]) == len(before[name])]
        match = next((it for it in same if it in new and renaming.equal(before[name], new[it])), None)
        if match is None:
            yield name
        else:
            del new[match]


def read_table() -> tuple[str, dict[str, str]]:
    """The commit, and the reason for each name or, with `*`, for each beginning of names."""
    with open(TABLE, newline="") as lines:
        (_, commit), *rows = csv.reader(lines, delimiter="\t", quoting=csv.QUOTE_NONE)
    return commit, dict(rows)


def main() -> int:
    if "--statements" in sys.argv:
        json.dump(read_tree(), sys.stdout)
        return 0
    commit, reasons = read_table()
    if subprocess.run(["git", "-C", ROOT, "cat-file", "-e", f"{commit}^{{commit}}"], capture_output=True).returncode:
        print(f"skipped: statements beside {commit}: this tree has no history with that commit")
        print("0 passed, 0 failed, 1 skipped")
        return 0
    before, after = read_commit(commit), read_tree()
    changed = list(changed_statements(before, after))
    unexplained = [name for name in changed if not any(fnmatchcase(name, row) for row in reasons)]
    idle = [row for row in reasons if not filter_names(changed, row)]
    for name in unexplained:
        print(f"{name} is changed or gone, and tests/clauses.tsv has no reason")
    for row in idle:
        print(f"{row} has a row in tests/clauses.tsv, and is as it was")
    if "--show" in sys.argv:
        for name in changed:
            texts = [[word for _, word in tree.get(name, [])] for tree in (before, after)]
            print(name, *difflib.unified_diff(*texts, "before", "after", lineterm="", n=3), sep="\n")
    failed = len(unexplained) + len(idle)
    print(f"{len(before) - len(unexplained)} passed, {failed} failed, 0 skipped")
    return 1 if failed else 0


if __name__ == "__main__":
    sys.exit(main())
