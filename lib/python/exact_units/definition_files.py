# SPDX-License-Identifier: MIT OR Apache-2.0
"""The definition files of a table: a file and the files that it includes, read by the rules of the program.

Both back ends read through this module. So they refuse the same files with the same words, and no FIFO, device or
endless file gets to either of them.
"""

from __future__ import annotations

import hashlib
import os
import stat
import warnings
from typing import Dict, Iterator, List, NamedTuple, Tuple

from .faults import DeckFull, DefinitionFault, DefinitionWarning, FileTooLong, NoSuchFile, UnitsError

_LONGEST_FILE = 16_777_216
_LARGEST_IN_ALL = 67_108_864
_MOST_INCLUDES = 100_000
_DEEPEST_INCLUDE = 16
_BLOCK = 65_536
_INCLUDE = b"include"
_BLANKS = b" \t"


class DefinitionFiles(NamedTuple):
    """The name of the main file, and the bytes of each file by the name that the program looks up."""

    main: bytes
    texts: Dict[bytes, bytes]

    def checksum(self) -> bytes:
        """Return a checksum of the names and the bytes of all files."""
        digest = hashlib.sha256()
        for name, text in self.texts.items():
            digest.update(b"%d %d\n" % (len(name), len(text)) + name)
            digest.update(text)
        return digest.digest()


class Include(NamedTuple):
    """An include line: the number of the line, from 1, and the name in it."""

    number: int
    name: bytes


def files_of_path(path: str) -> DefinitionFiles:
    """Return a definition file and the files that it includes.

    An include that is absent or too long is skipped, with a `DefinitionWarning`. Raises `NoSuchFile`, `FileTooLong`,
    `DeckFull` if there are more includes or bytes than a table takes, and `DefinitionFault` for a file that cannot be
    read or is not a regular file.
    """
    try:
        name = os.fsencode(path)
    except UnicodeEncodeError:
        raise NoSuchFile(f"no file: {path!r}") from None
    text = _read(name)
    main = _absolute(name)
    return DefinitionFiles(main, _with_includes(main, text))


def files_of_text(text: bytes) -> DefinitionFiles:
    """Return definitions and the files that they include by absolute names: a text is in no folder.

    Raises `DefinitionFault` for a relative name, and the faults of `files_of_path`.
    """
    main = b"definitions"
    if len(text) > _LONGEST_FILE:
        raise FileTooLong("file too long: definitions")
    for include in _includes(text):
        if not include.name.startswith(b"/"):
            raise DefinitionFault(f"an include in a text needs an absolute name: {os.fsdecode(include.name)}")
    return DefinitionFiles(main, _with_includes(main, text))


def _with_includes(main: bytes, text: bytes) -> Dict[bytes, bytes]:
    """Return a file and the files that it includes, by name; those of a lower depth come first."""
    texts = {main: text}
    skipped: Dict[bytes, UnitsError] = {}
    size, count = len(text), 0
    includers = [main]
    for _ in range(_DEEPEST_INCLUDE):
        found = []
        for includer in includers:
            for include in _includes(texts[includer]):
                name = _name_beside(includer, include.name)
                if name not in texts and name not in skipped:
                    try:
                        texts[name] = _read(name)
                    except (NoSuchFile, FileTooLong) as fault:
                        skipped[name] = fault
                    else:
                        found.append(name)
                        size += len(texts[name])
                if name in skipped:
                    place = f"{os.fsdecode(includer)}:{include.number}"
                    warnings.warn(f"{place}: {skipped[name]}", DefinitionWarning)
                count += 1
                if count > _MOST_INCLUDES or size > _LARGEST_IN_ALL:
                    raise DeckFull("deck full")
        includers = found
    return texts


def _absolute(name: bytes) -> bytes:
    """Return a name that means the same file in any folder, unless the present folder has no name in UTF-8."""
    try:
        folder = os.getcwdb()
        folder.decode()
    except (OSError, UnicodeDecodeError):
        return name
    return os.path.join(folder, name)


def _name_beside(includer: bytes, name: bytes) -> bytes:
    """Return the name that the program looks up for an included file."""
    return name if name.startswith(b"/") else includer[: includer.rfind(b"/") + 1] + name


def _read(name: bytes) -> bytes:
    """Return the bytes of a regular file. Raises `NoSuchFile`, `FileTooLong`, or `DefinitionFault`."""
    readable = os.fsdecode(name)
    try:
        name.decode()
        # Without O_NONBLOCK, opening a FIFO waits for a writer.
        file = os.open(name, os.O_RDONLY | os.O_CLOEXEC | os.O_NONBLOCK)
    except (UnicodeDecodeError, FileNotFoundError):
        # For the program, a name that is not UTF-8 is the name of no file.
        raise NoSuchFile(f"no file: {readable}") from None
    except (OSError, ValueError) as error:
        raise DefinitionFault(f"cannot read {readable}: {_reason(error)}") from error
    try:
        return _read_open(file, readable)
    except OSError as error:
        raise DefinitionFault(f"cannot read {readable}: {_reason(error)}") from error
    finally:
        os.close(file)


def _read_open(file: int, readable: str) -> bytes:
    """Return the bytes of an open file if it is a regular one."""
    status = os.fstat(file)
    if not stat.S_ISREG(status.st_mode):
        raise DefinitionFault(f"not a regular file: {readable}")
    pieces: List[bytes] = []
    length = 0
    # Below /proc, the system reports the size 0 of files that have bytes.
    while max(status.st_size, length) <= _LONGEST_FILE:
        pieces.append(os.read(file, max(status.st_size - length, _BLOCK)))
        if not pieces[-1]:
            return b"".join(pieces)
        length += len(pieces[-1])
    raise FileTooLong(f"file too long: {readable}")


def _reason(error: Exception) -> str:
    return getattr(error, "strerror", None) or str(error)


def _includes(text: bytes) -> Iterator[Include]:
    """Yield each include line. Only the lines that contain the word are looked at."""
    place = text.find(_INCLUDE)
    number, counted = 1, 0
    while place >= 0:
        start = _start_of_line(text, place)
        number, counted = number + text.count(b"\n", counted, start), start
        line, end = _logical_line(text, start)
        word, _, rest = line[1:].lstrip(_BLANKS).replace(b"\t", b" ").partition(b" ")
        name = rest.strip(_BLANKS)
        if line.startswith(b"!") and word == _INCLUDE and name and b" " not in name:
            yield Include(number, name)
        place = text.find(_INCLUDE, end)


def _start_of_line(text: bytes, place: int) -> int:
    """Return where the logical line of a place begins: before it is no line that ends in a backslash."""
    start = text.rfind(b"\n", 0, place) + 1
    while start > 0:
        before = text.rfind(b"\n", 0, start - 1) + 1
        if not _content(text[before : start - 1]).endswith(b"\\"):
            break
        start = before
    return start


def _logical_line(text: bytes, start: int) -> Tuple[bytes, int]:
    """Return the logical line that begins at a place, without outer blanks, and where the next one begins."""
    pieces: List[bytes] = []
    while True:
        end = text.find(b"\n", start)
        piece = _content(text[start:end] if end >= 0 else text[start:])
        start = end + 1 if end >= 0 else len(text)
        if not piece.endswith(b"\\"):
            pieces.append(piece)
        else:
            pieces.append(piece[:-1] + b" ")
            if start < len(text):
                continue
        return b"".join(pieces).strip(_BLANKS), start


def _content(line: bytes) -> bytes:
    """Return a physical line without its carriage return, then without a comment, then without blanks at its end."""
    if line.endswith(b"\r"):
        line = line[:-1]
    return line.partition(b"#")[0].rstrip(_BLANKS)
