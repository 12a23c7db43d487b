# SPDX-License-Identifier: MIT OR Apache-2.0
"""Looks up words of a query among the names of definitions, in the same order as the program."""

from __future__ import annotations

from dataclasses import dataclass

from unit_files import Kind


def size_of(text):
    return len(text.encode(errors="surrogateescape"))


def stems(word):
    """The words whose plural a word may be, in the order in which the program tries them."""
    if word.endswith("s") and size_of(word) > 2:
        yield word[:-1]
    if word.endswith("es") and size_of(word) > 3:
        yield word[:-2]
    if word.endswith("ies") and size_of(word) > 4:
        yield word[:-3] + "y"


@dataclass(frozen=True)
class Reading:
    """A unit, a prefix or a prefix with a unit, in the singular or the plural."""

    prefix: str | None
    unit: str | None
    is_plural: bool = False

    def __str__(self):
        words = " ".join(word for word in (self.prefix, self.unit) if word)
        return f"the plural of {words}" if self.is_plural else words


class Names:
    """The definitions in force by kind and name."""

    def __init__(self, definitions):
        self.by_kind = {kind: {} for kind in Kind}
        for definition in definitions:
            self.by_kind[definition.kind][definition.name] = definition
        self.units, self.prefixes = self.by_kind[Kind.UNIT], self.by_kind[Kind.PREFIX]
        self.functions, self.lists = self.by_kind[Kind.FUNCTION], self.by_kind[Kind.LIST]

    def with_prefix(self, word, is_plural=False):
        """The longest prefix of a word that leaves nothing or a unit, or None."""
        for end in range(len(word), 0, -1):
            prefix, rest = word[:end], word[end:]
            if prefix in self.prefixes and (not rest or rest in self.units):
                return Reading(prefix, rest or None, is_plural)
        return None

    def derived_reading(self, word):
        """The reading of a word that is not a name itself: a plural, or a prefix with a unit; or None."""
        for stem in stems(word):
            if stem in self.units:
                return Reading(None, stem, True)
            if reading := self.with_prefix(stem, True):
                return reading
        return self.with_prefix(word)
