# SPDX-License-Identifier: MIT OR Apache-2.0
"""The back end that calls the shared library, by ctypes."""

from __future__ import annotations

import ctypes
import os
from ctypes import POINTER, Structure, byref, c_char_p, c_size_t, c_uint8, c_uint32, c_uint64, c_void_p
from fractions import Fraction
from typing import Any, Callable, Dict, List, Optional

from .backend import Definitions, LockedBackEnd
from .definition_files import DefinitionFiles
from .faults import BackEndError, OutOfMemory, UnitsError, fault_of_status
from .quantity import Quantity
from .unit import read_dimension

_DONE, _NO_MEMORY, _NO_ROOM, _CLOSED, _DECK_FULL = 0, 1, 2, 3, 19
_USUAL_ROOM = 4096


class _Table(Structure):
    _fields_ = [("state", c_uint64), ("content", c_void_p)]


class _Entry(Structure):
    _fields_ = [
        ("name", c_char_p),
        ("name_length", c_size_t),
        ("content", c_char_p),
        ("content_length", c_size_t),
    ]


class _Definitions(Structure):
    _fields_ = [
        ("main", c_char_p),
        ("main_length", c_size_t),
        ("files", POINTER(_Entry)),
        ("files_count", c_size_t),
        ("variables", POINTER(_Entry)),
        ("variables_count", c_size_t),
        ("locale", c_char_p),
        ("locale_length", c_size_t),
        ("seed", c_char_p),
        ("seed_length", c_size_t),
    ]


class _Options(Structure):
    _fields_ = [
        (name, c_uint8) for name in ("digits", "exact", "strict", "one_line", "compact", "round", "verbose")
    ]


class _Number(Structure):
    _fields_ = [
        (name, c_uint64)
        for name in ("negative", "numerator_high", "numerator_low", "denominator_high", "denominator_low")
    ]


_TEXT: List[Any] = [c_char_p, c_size_t]
_BUFFER: List[Any] = [c_void_p, c_size_t, POINTER(c_size_t)]
_SIGNATURES: Dict[str, List[Any]] = {
    "units_open": [POINTER(_Table), POINTER(_Definitions)],
    "units_close": [POINTER(_Table)],
    "units_convert": [POINTER(_Table), *_TEXT, *_TEXT, POINTER(_Options), *_BUFFER],
    "units_value": [POINTER(_Table), *_TEXT, POINTER(_Number), *_BUFFER],
    "units_search": [POINTER(_Table), *_TEXT, *_BUFFER],
    "units_define": [POINTER(_Table), *_TEXT, *_BUFFER],
    "units_drop": [POINTER(_Table), *_TEXT, *_BUFFER],
    "units_undo": [POINTER(_Table), *_BUFFER],
    "units_redo": [POINTER(_Table), *_BUFFER],
}


def load_library(path: str) -> ctypes.CDLL:
    """Return the shared library at a path, or the one that the system finds by this name.

    Raises `BackEndError` if there is none, or if it lacks a call.
    """
    try:
        calls = ctypes.CDLL(path)
        for name, signature in _SIGNATURES.items():
            call = getattr(calls, name)
            call.argtypes, call.restype = signature, c_uint32
    except (OSError, AttributeError) as error:
        raise BackEndError(f"no library of units: {error}") from error
    return calls


class _Room:
    """A buffer for a text, and the length that a call stores."""

    def __init__(self, size: int) -> None:
        self.size = size
        self.buffer = ctypes.create_string_buffer(size)
        self._view = memoryview(self.buffer)
        self._length = c_size_t()
        self.length_at = byref(self._length)

    def length(self) -> int:
        """Return the length that the last call has stored."""
        return self._length.value

    def text(self) -> str:
        """Return the text of the last call."""
        return str(self._view[: self._length.value], "utf-8", "surrogateescape")


class LibraryBackEnd(LockedBackEnd):
    """A table of the library. The lock lets one thread use it at a time, because ctypes lets other threads run."""

    def __init__(self, calls: ctypes.CDLL, definitions: Definitions, built_in: Callable[[], bytes]) -> None:
        super().__init__()
        self._calls = calls
        self._convert = calls.units_convert
        self._table = _Table()
        self._table_at = byref(self._table)
        self._options_at = byref(_Options(exact=1, strict=1, one_line=1, compact=1))
        self._room: Optional[_Room] = None
        self._open(definitions, built_in)

    def _open(self, definitions: Definitions, built_in: Callable[[], bytes]) -> None:
        files = definitions.read()
        if files is None:
            files = DefinitionFiles(b"definitions", {b"definitions": built_in()})
        main, texts = files
        variables = _encodable(definitions.variables)
        locale, seed = os.fsencode(definitions.locale), os.urandom(16)
        arguments = _Definitions(
            main, len(main), _entries(texts), len(texts), _entries(variables), len(variables), locale, len(locale),
            seed, len(seed),
        )
        status = self._calls.units_open(self._table_at, byref(arguments))
        if status == _NO_MEMORY:
            raise OutOfMemory("out of memory")
        if status != _DONE:
            raise fault_of_status(status, "deck full" if status == _DECK_FULL else f"units_open returned {status}")

    def _text(self, call: Callable[..., int], *arguments: Any) -> str:
        """Return the text of a call, or raise its fault. If the buffer is too short, call again with a longer one."""
        with self._lock:
            if self._was_called_at_fork:
                raise BackEndError("another thread used the table when this process was forked")
            room, self._room = self._room or _Room(_USUAL_ROOM), None
            status = call(self._table_at, *arguments, room.buffer, room.size, room.length_at)
            while status == _NO_ROOM:
                room = _Room(2 * room.length())
                status = call(self._table_at, *arguments, room.buffer, room.size, room.length_at)
            text = room.text()
            self._room = room
        if status != _DONE:
            raise _fault(status, text)
        return text

    def convert(self, source: bytes, target: bytes) -> str:
        """See `BackEnd.convert`."""
        return self._text(self._convert, source, len(source), target, len(target), self._options_at)[:-1]

    def value(self, expression: bytes) -> Quantity:
        """See `BackEnd.value`."""
        number = _Number()
        dimension = self._text(self._calls.units_value, expression, len(expression), byref(number))
        numerator = number.numerator_high << 64 | number.numerator_low
        denominator = number.denominator_high << 64 | number.denominator_low
        magnitude = Fraction(-numerator if number.negative else numerator, denominator)
        return Quantity(magnitude, read_dimension(dimension))

    def define(self, line: bytes) -> None:
        """See `BackEnd.define`."""
        self._edit(self._calls.units_define, line, len(line))

    def drop(self, key: bytes) -> None:
        """See `BackEnd.drop`."""
        self._edit(self._calls.units_drop, key, len(key))

    def undo(self) -> None:
        """See `BackEnd.undo`."""
        self._edit(self._calls.units_undo)

    def redo(self) -> None:
        """See `BackEnd.redo`."""
        self._edit(self._calls.units_redo)

    def _edit(self, call: Callable[..., int], *arguments: Any) -> None:
        # Only a refusal has a text. So if the buffer is too short, nothing was edited, and the call may be repeated.
        self._text(call, *arguments)

    def search(self, text: bytes) -> List[str]:
        """See `BackEnd.search`."""
        return self._text(self._calls.units_search, text, len(text)).split("\n")

    def conforming(self, expression: bytes) -> List[str]:
        """See `BackEnd.conforming`."""
        dimension = self.value(expression).dimension
        names = []
        for row in self.search(b""):
            name = row.partition("\t")[2].partition("\t")[0]
            if name and not name.endswith(("-", ")", "]")) and not name.startswith("!"):
                try:
                    if self.value(name.encode("utf-8", "surrogateescape")).dimension == dimension:
                        names.append(name)
                except BackEndError:
                    raise
                except UnitsError:
                    continue
        return names

    def close(self) -> None:
        """See `BackEnd.close`."""
        with self._lock:
            if not self._was_called_at_fork:
                self._calls.units_close(self._table_at)

    def __del__(self) -> None:
        if getattr(self, "_table", None) is not None:
            self.close()


def _fault(status: int, text: str) -> Exception:
    if status == _NO_MEMORY:
        return OutOfMemory("out of memory")
    if status == _CLOSED:
        return BackEndError("the table is closed")
    return fault_of_status(status, text.rstrip("\n"))


def _entries(texts: Dict[bytes, bytes]) -> Any:
    entries = [_Entry(name, len(name), text, len(text)) for name, text in texts.items()]
    return (_Entry * len(entries))(*entries)


def _encodable(variables: Dict[str, str]) -> Dict[bytes, bytes]:
    """Return the variables that are UTF-8; the program skips the others too."""
    texts: Dict[bytes, bytes] = {}
    for name, value in variables.items():
        try:
            texts[name.encode()] = value.encode()
        except UnicodeEncodeError:
            continue
    return texts
