# SPDX-License-Identifier: MIT OR Apache-2.0
"""The texts that both back ends take, and the numbers that they reply."""

from __future__ import annotations

import re

from .faults import ConformabilityError, NotAnExpression

# Bytes and first words that no expression in a session has.
_has_special = re.compile(rb"[\n\r\0;#]").search
_is_command = re.compile(rb"[:?]|(?:search|quit|exit|help|conformable)(?:\s|\Z)").match
_LONGEST = 60_000


def _bytes(text: str) -> bytes:
    """Return the bytes of a text. Bytes that are not UTF-8, as in a name that `search` has found, are kept."""
    try:
        return text.encode("utf-8", "surrogateescape").strip(b" \t")
    except UnicodeEncodeError:
        raise NotAnExpression(f"not a text: {text[:40]!r}") from None


def edit_line(text: str) -> bytes:
    """Return a text without a comment and the blanks around it, if it is a single line that a session reads whole."""
    line = _bytes(text).partition(b"#")[0].rstrip(b" \t")
    if not line or len(line) > _LONGEST or any(c in line for c in b"\n\r\0"):
        raise NotAnExpression(f"not one line: {text[:40]!r}")
    return line


def expression_line(text: str) -> bytes:
    """Return a text without the blanks around it, if both back ends read it as an expression."""
    line = _bytes(text)
    if not line or len(line) > _LONGEST or _has_special(line) or _is_command(line):
        raise NotAnExpression(f"not an expression: {text[:40]!r}")
    return line


def plain_number(reply: str) -> str:
    """Return a reply if it is only a number, or raise `ConformabilityError`."""
    if " " in reply:
        raise ConformabilityError(f"not a plain number: {reply}")
    return reply
