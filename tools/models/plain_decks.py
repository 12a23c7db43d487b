"""Decks as lists that are searched in full, and the answers of `test_calls decks` over them."""

import os
import re
from collections import Counter

from plain_lines import (
    BLANKS,
    ENDS,
    KINDS,
    Refusal,
    definition_of,
    entry_of,
    key_of,
    key_text,
    kind_of,
    logical_lines,
    need,
)

LONGEST_FILE, MOST_LINES, MOST_BYTES, MOST_DEPTH = 1 << 24, 100_000, 1 << 26, 16


# Decks. A line has a number, a text and a mark.


class Files:
    """The files of the current folder."""

    def fetch(self, name):
        """The fault, if any, and the text of a file."""
        try:
            size = os.stat(name).st_size
            with open(name, "rb") as file:
                return ("too long", "") if size > LONGEST_FILE else (None, file.read().decode("latin-1"))
        except FileNotFoundError:
            return "absent", ""
        except OSError:
            return "read failed", ""


class NoFiles:
    def fetch(self, name):
        return "absent", ""


class Reader:
    """Reads a file and its includes."""

    def __init__(self, files, lines):
        self.files = files
        self.lines = list(lines)
        self.size = sum(len(text) for _, text, _ in lines)
        self.notices = []

    def put(self, number, text, mark):
        self.size += len(text)
        if len(self.lines) >= MOST_LINES or self.size > MOST_BYTES:
            raise Refusal("deck full")
        self.lines.append((number, text, mark))

    def read(self, name, text, depth):
        blocks = []
        for number, line in logical_lines(text):
            if line:
                self.read_line(name, number, line, blocks, depth)
        for number, _ in blocks:
            self.notices.append(f"{name}:{number}: unclosed block")
        for number, end in reversed(blocks):
            self.put(number, f"!{end}", False)

    def read_line(self, name, number, line, blocks, depth):
        kind, *arguments = kind_of(line)
        if kind == "include":
            self.read_include(name, number, line, arguments[0], depth)
            return
        fault = self.fault_of(kind, line, number, blocks)
        self.put(number, line, fault is not None)
        if fault is not None:
            self.notices.append(f"{name}:{number}: {fault}")

    @staticmethod
    def fault_of(kind, line, number, blocks):
        """Opens or closes a block, and returns the fault of a line, or None."""
        if kind == "define":
            try:
                entry_of(line)
            except Refusal as refusal:
                return str(refusal)
        elif kind in ("unknown directive", "bad directive"):
            return kind
        elif kind in ENDS:
            blocks.append((number, ENDS[kind]))
        elif kind in ENDS.values():
            if not blocks or blocks[-1][1] != kind:
                return "stray end"
            blocks.pop()
        return None

    def read_include(self, includer, number, line, name, depth):
        if not name.startswith("/"):
            name = includer[: includer.rfind("/") + 1] + name
        if depth == MOST_DEPTH:
            self.put(number, line, True)
            self.notices.append(f"{includer}:{number}: include too deep: {name}")
            return
        if len(self.lines) >= MOST_LINES or self.size + len(line) > MOST_BYTES:
            raise Refusal("deck full")
        fault, text = self.files.fetch(name)
        if fault == "read failed":
            raise Refusal(fault)
        self.put(number, line, fault is not None)
        if fault:
            self.notices.append(f"{includer}:{number}: {'no file' if fault == 'absent' else 'file too long'}: {name}")
        else:
            self.read(name, text, depth + 1)


class Deck:
    """Lines with their marks, the locale and variables, and notices."""

    def __init__(self, lines, settings, notices):
        self.lines = lines
        self.locale, self.vars = settings
        self.notices = notices

    def active(self):
        """The places of the lines whose blocks are all in force."""
        variables, holds = dict(self.vars), []
        for place, (_, text, mark) in enumerate(self.lines):
            if mark:
                continue
            kind, *arguments = kind_of(text)
            if all(holds):
                yield place
            if kind == "set" and all(holds):
                variables.setdefault(*arguments)
            elif kind == "locale":
                holds.append(arguments[0] == self.locale)
            elif kind in ("var", "varnot"):
                is_listed = variables.get(arguments[0]) in re.split(r"[ \t]+", arguments[1])
                holds.append(is_listed == (kind == "var"))
            elif kind == "utf8":
                holds.append(True)
            elif kind in ENDS.values():
                holds.pop()

    def table(self):
        """The entry and the place of each key."""
        definitions = ((place, definition_of(self.lines[place][1])) for place in self.active())
        return {definition[0]: (definition[1], place) for place, definition in definitions if definition}

    def is_closed(self):
        blocks = []
        for _, text, mark in self.lines:
            kind = None if mark else kind_of(text)[0]
            if kind in ENDS:
                blocks.append(ENDS[kind])
            elif kind in ENDS.values() and (not blocks or blocks.pop() != kind):
                return False
        return not blocks

    def is_full(self):
        return len(self.lines) > MOST_LINES or sum(len(text) for _, text, _ in self.lines) > MOST_BYTES

    def copy(self):
        return Deck(list(self.lines), (self.locale, dict(self.vars)), list(self.notices))

    def state(self):
        return self.lines, self.locale, list(self.vars.items()), self.notices


def keys_in_order(keys):
    return sorted(keys, key=lambda key: (key[1], KINDS.index(key[0])))


def joined(items):
    items = list(items)
    return " | ".join(items) if items else "none"


class Board:
    """Answers calls as `test_calls decks` does. Changed keys are sorted like all keys."""

    def __init__(self):
        self.locale, self.vars = "en_US", {}
        self.deck = self.snapshot = self.inverse = None

    def settings(self):
        return self.locale, dict(self.vars)

    def load(self, files, name):
        fault, text = Files().fetch(name)
        need(fault is None, fault)
        reader = Reader(files, [])
        reader.read(name, text, 0)
        self.deck = Deck(reader.lines, self.settings(), reader.notices)
        return "ok"

    def changes(self, edit, *arguments):
        """Makes an edit and returns the answer, which lists the changed keys."""
        old = self.deck
        self.deck = old.copy()
        try:
            edit(*arguments)
        except Refusal:
            self.deck = old
            raise
        before, after = old.table(), self.deck.table()
        keys = {k for k in before.keys() | after.keys() if before.get(k, [None])[0] != after.get(k, [None])[0]}
        return f"changed: {joined(map(key_text, keys_in_order(keys)))}"

    def define(self, line):
        line = line.strip(BLANKS)
        need(line and kind_of(line)[0] == "define")
        entry_of(line)
        self.deck.lines.append((0, line, False))
        need(not self.deck.is_full(), "deck full")

    def drop(self, key):
        table = self.deck.table()
        need(key in table, "no such key")
        del self.deck.lines[table[key][1]]

    def append(self, name):
        fault, text = Files().fetch(name)
        need(fault is None, fault)
        reader = Reader(Files(), self.deck.lines)
        reader.read(name, text, 0)
        self.deck.lines, self.deck.notices = reader.lines, reader.notices

    def switch(self):
        self.deck.locale, self.deck.vars = self.settings()

    def splice(self, at, cut, put, settings):
        lines, old = self.deck.lines, (self.deck.locale, self.deck.vars)
        need(at + cut <= len(lines), "no such splice")
        inverse = at, len(put), lines[at : at + cut], old
        lines[at : at + cut] = put
        self.deck.locale, self.deck.vars = settings
        need(self.deck.is_closed() and not self.deck.is_full(), "no such splice")
        self.inverse = inverse

    def ask(self, word, rest):
        deck = self.deck
        table = deck.table()
        if word in ("entry", "place"):
            key = key_of(rest)
            need(key, "not a key")
            return str(table.get(key, ("none", "none"))[word == "place"])
        if word == "count":
            counts = Counter(kind for kind, _ in table)
            return (
                f"{counts['unit']} units, {counts['prefix']} prefixes, {counts['function']} functions, "
                f"{counts['list']} lists, {len(deck.lines)} lines, {len(deck.notices)} notices"
            )
        if word == "keys":
            return joined(map(key_text, keys_in_order(table)))
        if word == "lines":
            return joined(f"{number} {'~' * mark}{text}" for number, text, mark in deck.lines)
        if word == "notices":
            return joined(deck.notices)
        if word == "settings":
            return joined([deck.locale, *(f"{name} {value}" for name, value in deck.vars.items())])
        active = [deck.lines[place][1] for place in deck.active()]
        if word == "messages":
            return joined(kind_of(text)[1] for text in active if kind_of(text)[0] == "message")
        if word == "defining":
            return joined(text for text in active if definition_of(text))
        need(word == "compare", "bad call")
        need(self.snapshot, "no snapshot")
        return "equal" if self.snapshot.state() == deck.state() else "different"

    def answer(self, line):
        word, _, rest = line.partition(" ")
        try:
            if word == "locale":
                self.locale = rest
            elif word == "set":
                name, _, value = rest.partition(" ")
                self.vars[name] = value
            elif word in ("load", "text"):
                return self.load(Files() if word == "load" else NoFiles(), rest)
            else:
                need(self.deck, "no deck")
                return self.deck_answer(word, rest)
        except Refusal as refusal:
            return str(refusal)
        return "ok"

    def deck_answer(self, word, rest):
        if word == "snapshot":
            self.snapshot = self.deck.copy()
            return "ok"
        if word == "define":
            return self.changes(self.define, rest)
        if word == "drop":
            key = key_of(rest)
            need(key, "not a key")
            return self.changes(self.drop, key)
        if word == "append":
            return self.changes(self.append, rest)
        if word == "switch":
            return self.changes(self.switch)
        if word == "splice":
            self.inverse = None
            at, cut, put = rest.split(" ", 2)
            put = [(0, text.removeprefix("~"), text.startswith("~")) for text in put.split(";") if text]
            return self.changes(self.splice, int(at), int(cut), put, self.settings())
        if word == "back":
            inverse, self.inverse = self.inverse, None
            need(inverse, "no splice")
            return self.changes(self.splice, *inverse)
        return self.ask(word, rest)
