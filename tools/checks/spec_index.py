"""Reads the definitions in the specs/ folders of the crates, and finds the definitions that each of them uses."""

from __future__ import annotations

import re
from dataclasses import dataclass, field
from functools import lru_cache
from pathlib import Path

ROOT = Path(__file__).resolve().parents[2]
CRATES = ROOT / "crates"
HEAD = re.compile(r"(?:(?:abbrev|unfoldable|pattern|mutual) )*pub (?:(record|data) )?([^\s:({.]+)")
CONSTRUCTOR = re.compile(r"^ +([A-Z]\w*) :", re.MULTILINE)
USE = re.compile(r"^(?:pub )?use Rattle\.(\w+(?:\.\w+)*)(?:\.\{([^}]*)\}| as ([\w-]+))?", re.MULTILINE)
WORD = re.compile(r"[^\s(){}\[\],;:\"`]+")


@dataclass(frozen=True, order=True)
class Name:
    """A definition: its crate, its file in specs/ without the suffix, and its word."""

    crate: str
    subject: str
    word: str

    @property
    def file(self) -> str:
        return f"{self.crate}/{self.subject}"


@dataclass
class Definition:
    """The comment above a definition, its text, and the constructors that it declares."""

    comment: str
    text: str
    constructors: list[str] = field(default_factory=list)


@dataclass
class File:
    """A file of definitions: its heading, its definitions, and the names and modules that it imports."""

    heading: str
    definitions: dict[str, Definition]
    imported: dict[str, Name]
    modules: dict[str, tuple[str, str]]


def without_modules(text: str) -> str:
    """The text with the contents of each outermost `module _ .. where` and `mutual` block dedented by one level."""
    lines, inside, in_header = [], False, False
    for line in text.splitlines():
        if re.match(r"module _|(?:\w+ )?mutual\b", line):
            inside, in_header = True, line.startswith("module") and not line.rstrip().endswith("where")
            lines.append("")
        elif in_header:
            in_header = not line.rstrip().endswith("where")
        elif inside and line.startswith("  "):
            lines.append(line[2:])
        else:
            inside = inside and not line.strip()
            lines.append(line)
    return "\n".join(lines)


def split_blocks(text: str) -> list[tuple[str, str]]:
    """The comment and the text of each block, which begins at a line that is not indented."""
    blocks, comment, lines = [], [], []
    for line in [*text.splitlines(), ""]:
        starts = line and not line[0].isspace()
        if starts and line.startswith("--"):
            if lines:
                blocks.append((" ".join(comment), "\n".join(lines)))
                comment, lines = [], []
            comment.append(line[2:].strip())
        elif starts and lines and HEAD.match(line):
            blocks.append((" ".join(comment), "\n".join(lines)))
            comment, lines = [], [line]
        elif line.strip():
            lines.append(line)
        elif not lines:
            comment = []
    if lines:
        blocks.append((" ".join(comment), "\n".join(lines)))
    return blocks


def imports_of(text: str) -> tuple[dict[str, Name], dict[str, tuple[str, str]]]:
    """The names and the modules of this repository's specs/ that a file imports."""
    names, modules = {}, {}
    for path, group, alias in USE.findall(text):
        parts = path.split(".")
        if len(parts) != 3 or parts[1] != "specs" or not (CRATES / parts[0]).is_dir():
            continue
        if alias:
            modules[alias] = (parts[0], parts[2])
        for item in filter(None, (item.strip() for item in group.split(","))):
            word, _, local_name = item.partition(" as ")
            names[(local_name or word).strip()] = Name(parts[0], parts[2], word.strip())
    return names, modules


@lru_cache(maxsize=None)
def read_file(crate: str, subject: str) -> File:
    source = CRATES / crate / "specs" / f"{subject}.antt"
    if not source.exists():
        return File("", {}, {}, {})
    text = source.read_text()
    heading = re.match(r"(?:--.*\n)*", text).group(0)
    body = text[len(heading) :]
    definitions = {}
    body = re.sub(r"^(?:pub )?use [^\n]*(?:\n +[^\n]*)*\n", "", body, flags=re.MULTILINE)
    for comment, block in split_blocks(without_modules(without_modules(body))):
        head = HEAD.match(block)
        if head and head[2] != "mod":
            definitions[head[2]] = Definition(comment, block, CONSTRUCTOR.findall(block) if head[1] == "data" else [])
    names, modules = imports_of(text)
    return File(" ".join(line[2:].strip() for line in heading.splitlines()), definitions, names, modules)


def home_of(name: Name) -> Name | None:
    """The definition that a name refers to, through files that export it again; None if it is of no crate here."""
    file = read_file(name.crate, name.subject)
    if name.word in file.definitions:
        return name
    for word, definition in file.definitions.items():
        if name.word in definition.constructors:
            return Name(name.crate, name.subject, word)
    return home_of(file.imported[name.word]) if name.word in file.imported else None


def resolve(word: str, crate: str, subject: str) -> Name | None:
    """The definition that a word of a file refers to; None if it is not in this repository."""
    file = read_file(crate, subject)
    head, _, rest = word.partition(".")
    if rest and head in file.modules:
        return home_of(Name(*file.modules[head], rest.split(".")[0]))
    for candidate in (word, head):
        definition = home_of(Name(crate, subject, candidate))
        if definition:
            return definition
    return None


def used_by(name: Name) -> set[Name]:
    """The definitions of this repository that the text of a definition uses."""
    text = re.sub(r"^\s*--.*$", "", read_file(name.crate, name.subject).definitions[name.word].text, flags=re.MULTILINE)
    words = set(WORD.findall(text)) - {name.word}
    uses = {resolve(word, name.crate, name.subject) for word in words}
    operators = {word for word in read_file(name.crate, name.subject).imported if "◌" in word}
    uses |= {resolve(word, name.crate, name.subject) for word in operators if word.strip("◌") in words}
    return {use for use in uses if use and use != name}


def reached_from(starts: list[Name]) -> dict[Name, int]:
    """The definitions that these use, directly or indirectly, each with the least number of steps to it."""
    depths, level = {start: 0 for start in starts}, list(starts)
    while level:
        next_level = []
        for name in level:
            for use in sorted(used_by(name)):
                if use not in depths:
                    depths[use] = depths[name] + 1
                    next_level.append(use)
        level = next_level
    return depths


def all_definitions() -> list[Name]:
    """Every definition of every crate, in the order of the files and of their lines."""
    names = []
    for source in sorted(CRATES.glob("*/specs/**/*.antt")):
        parts = source.relative_to(CRATES).with_suffix("").parts
        if len(parts) == 3 and parts[2] != "Lib":
            names += [Name(parts[0], parts[2], word) for word in read_file(parts[0], parts[2]).definitions]
    return names
