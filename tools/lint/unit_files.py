# SPDX-License-Identifier: MIT OR Apache-2.0
"""Reads definition files of units: their lines, includes and blocks, and the comments on definitions.

Lines that have no effect are skipped: the program reports them.

The comment `#= STATUS: SOURCE` says how exact a definition is, and `#: UNIT` which unit it conforms to. A comment on
the line of a definition is for that definition. A comment on a line of its own is for the definitions after it, up to
the next blank line.
"""

from __future__ import annotations

import re
from dataclasses import dataclass, field, replace
from enum import Enum
from pathlib import Path

BLANKS = " \t"
DEEPEST_INCLUDE = 16
# The limits of the program for a file and for a deck: without them, includes of itself would multiply a file.
LONGEST_FILE = 1 << 24
MOST_LINES, MOST_BYTES = 100_000, 1 << 26
NOTE = re.compile(r"#([=:])[ \t]*([^#]*)")
ENDS = {"endlocale": {"locale"}, "endvar": {"var", "varnot"}, "endutf8": {"utf8"}}


class DeckFault(Exception):
    """The program refuses a file, for this reason."""


class Kind(Enum):
    UNIT = "unit"
    PREFIX = "prefix"
    FUNCTION = "function"
    LIST = "list"


@dataclass(frozen=True)
class Place:
    """A physical line of a file."""

    file: str
    number: int

    def __str__(self):
        return f"{self.file}:{self.number}"


@dataclass(frozen=True)
class Block:
    """A block for a locale or a variable, or for UTF-8, which is always in force."""

    directive: str
    variable: str = ""
    values: tuple[str, ...] = ()

    def holds(self, locale, variables):
        if self.directive == "locale":
            return locale in self.values
        if self.directive == "utf8":
            return True
        return (variables.get(self.variable) in self.values) == (self.directive == "var")

    def excludes(self, other):
        """Whether this block and the other one are never in force together."""
        if self.directive == other.directive == "locale":
            return self.values != other.values
        if self.variable != other.variable or "utf8" in (self.directive, other.directive):
            return False
        mine, others = set(self.values), set(other.values)
        if self.directive == other.directive:
            return self.directive == "var" and not mine & others
        return mine <= others if self.directive == "var" else others <= mine


@dataclass(frozen=True)
class Definition:
    """A definition. The text follows the name; the status and the unit are those of its comments, if any."""

    kind: Kind
    name: str
    text: str
    place: Place
    blocks: tuple[Block, ...] = ()
    status: str | None = None
    unit: str | None = None
    comment: str = ""

    @property
    def key(self):
        """The name in the form of the program's reports, with a mark of its kind."""
        marks = {Kind.UNIT: "{}", Kind.PREFIX: "{}-", Kind.FUNCTION: "{}()", Kind.LIST: "!unitlist {}"}
        return marks[self.kind].format(self.name)


@dataclass(frozen=True)
class Opening:
    """The line that opens a block, with the blocks around it."""

    block: Block
    blocks: tuple[Block, ...]


@dataclass(frozen=True)
class Setting:
    """A line that sets a variable unless it is already set."""

    variable: str
    value: str
    blocks: tuple[Block, ...]


@dataclass(frozen=True)
class LogicalLine:
    """A line with the lines that continue it, and the notes in its comment. A blank line has no comment either."""

    number: int
    text: str
    comment: str
    is_blank: bool
    notes: tuple[str | None, str | None] = (None, None)


@dataclass
class Deck:
    """The lines of a file and its includes, in order, and the files by their names."""

    lines: list[Definition | Opening | Setting] = field(default_factory=list)
    files: list[str] = field(default_factory=list)
    contents: dict[str, list[LogicalLine] | None] = field(default_factory=dict)
    line_count: int = 0
    byte_count: int = 0

    def content(self, file):
        """The lines of a file, or None if it is longer than the program reads. A file is read once."""
        if file not in self.contents:
            with open(file, "rb") as source:
                content = source.read(LONGEST_FILE + 1)
            is_short = len(content) <= LONGEST_FILE
            text = content.decode(errors="surrogateescape")
            self.contents[file] = condensed(logical_lines(text)) if is_short else None
        return self.contents[file]

    def count(self, text):
        """Counts a line that the program keeps, which is each but a blank one."""
        self.line_count += 1
        self.byte_count += len(text.encode(errors="surrogateescape"))
        if self.line_count > MOST_LINES or self.byte_count > MOST_BYTES:
            raise DeckFault("deck full")

    @property
    def definitions(self):
        return [line for line in self.lines if isinstance(line, Definition)]

    def active(self, locale, variables):
        """The definitions in force for a locale and variables, in order."""
        variables, in_force, definitions = dict(variables), {}, []
        for line in self.lines:
            if not all(in_force[id(block)] for block in line.blocks):
                if isinstance(line, Opening):
                    in_force[id(line.block)] = False
            elif isinstance(line, Opening):
                in_force[id(line.block)] = line.block.holds(locale, variables)
            elif isinstance(line, Setting):
                variables.setdefault(line.variable, line.value)
            else:
                definitions.append(line)
        return definitions


def logical_lines(text):
    """The logical lines of a text. A backslash in a comment does not continue the line."""
    parts, comments, start = [], [], 1
    for number, physical in enumerate(text.split("\n"), 1):
        if not parts:
            start = number
        code, mark, comment = physical.removesuffix("\r").partition("#")
        comments += [mark + comment] * bool(mark)
        code = code.rstrip(BLANKS)
        if code.endswith("\\"):
            parts.append(code[:-1] + " ")
            continue
        whole = ("".join(parts) + code).strip(BLANKS)
        yield LogicalLine(start, whole, " ".join(comments), not whole and not comments)
        parts, comments = [], []
    if parts:
        yield LogicalLine(start, "".join(parts).strip(BLANKS), " ".join(comments), False)


def condensed(lines):
    """The lines of a file with at most a blank line and a line of notes between two others, which do the same."""
    kept = []
    for line in lines:
        line = replace(line, notes=notes_of(line.comment))
        if line.is_blank:
            while kept and not kept[-1].text:
                kept.pop()
        elif not line.text and kept and not kept[-1].text and not kept[-1].is_blank:
            line = replace(line, notes=joined_notes(line.notes, kept.pop().notes))
        kept.append(line)
    return kept


def joined_notes(notes, earlier):
    """The notes, and those of an earlier line where they have none."""
    return tuple(new or old for new, old in zip(notes, earlier))


def notes_of(comment):
    """The status and the unit in a comment, each None if there is none."""
    notes = {mark: text.strip() for mark, text in NOTE.findall(comment)}
    return notes.get("="), notes.get(":")


def words_of(text):
    return [word for word in re.split("[ \t]+", text) if word]


def key_of(line):
    """The kind, the name and the text of a definition line. The name or the text is empty if the line has none."""
    if line.startswith("!"):
        words = re.split("[ \t]+", line[1:].strip(BLANKS), maxsplit=2)
        return Kind.LIST, "".join(words[1:2]), "".join(words[2:])
    line = line.removeprefix("+").lstrip(BLANKS)
    name = re.split(r"[ \t(\[]", line, maxsplit=1)[0]
    text = line[len(name) :]
    if text[:1] in ("(", "["):
        return Kind.FUNCTION, name, text
    if name.endswith("-"):
        return Kind.PREFIX, name[:-1], text.strip(BLANKS)
    return Kind.UNIT, name, text.strip(BLANKS)


class FileReader:
    """Reads one file into a deck."""

    def __init__(self, deck, file, blocks, depth):
        self.deck, self.file, self.outer, self.depth = deck, file, blocks, depth
        self.open_blocks = []  # those that this file opened
        self.group = (None, None)

    @property
    def blocks(self):
        return (*self.outer, *self.open_blocks)

    def read(self, lines):
        self.deck.files.append(self.file)
        for line in lines:
            if line.text:
                self.deck.count(line.text)
            if line.is_blank:
                self.group = (None, None)
            elif not line.text:
                self.group = joined_notes(line.notes, self.group)
            elif line.text.startswith("!"):
                self.direct(line)
            else:
                self.define(line)

    def define(self, line):
        kind, name, text = key_of(line.text)
        if name and text:
            notes = joined_notes(line.notes, self.group)
            place = Place(self.file, line.number)
            self.deck.lines.append(Definition(kind, name, text, place, self.blocks, *notes, line.comment))

    def direct(self, line):
        word, *rest = words_of(line.text[1:]) or [""]
        if word == "include" and len(rest) == 1:
            read_into(self.deck, self.file, rest[0], self.blocks, self.depth + 1)
        elif word == "unitlist":
            self.define(line)
        elif word == "set" and len(rest) > 1:
            value = re.split("[ \t]+", line.text[1:].strip(BLANKS), maxsplit=2)[2]
            self.deck.lines.append(Setting(rest[0], value, self.blocks))
        elif word == "locale" and len(rest) == 1:
            self.open(Block(word, "", tuple(rest)))
        elif word in ("var", "varnot") and len(rest) > 1:
            self.open(Block(word, rest[0], tuple(rest[1:])))
        elif word == "utf8" and not rest:
            self.open(Block(word))
        elif self.open_blocks and not rest and self.open_blocks[-1].directive in ENDS.get(word, ()):
            self.open_blocks.pop()

    def open(self, block):
        self.deck.lines.append(Opening(block, self.blocks))
        self.open_blocks.append(block)


def read_into(deck, includer, name, blocks, depth):
    """Reads an included file into a deck, if it exists and is not nested too deep."""
    file = name if name.startswith("/") else includer[: includer.rfind("/") + 1] + name
    if depth <= DEEPEST_INCLUDE and (file in deck.contents or Path(file).is_file()):
        if (lines := deck.content(file)) is not None:
            FileReader(deck, file, blocks, depth).read(lines)


def read_deck(file):
    """The deck of a file with its includes. Raises OSError if a file cannot be read, and DeckFault as the program."""
    deck, file = Deck(), str(file)
    lines = deck.content(file)
    if lines is None:
        raise DeckFault("file too long")
    FileReader(deck, file, (), 0).read(lines)
    return deck
