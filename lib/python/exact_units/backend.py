# SPDX-License-Identifier: MIT OR Apache-2.0
"""The interface of the two back ends, and their lock."""

from __future__ import annotations

import os
import threading
import weakref
from typing import Dict, List, NamedTuple, Optional, Protocol

from .definition_files import DefinitionFiles, files_of_path, files_of_text
from .quantity import Quantity


class Definitions(NamedTuple):
    """The definitions of a back end: those of a file, of a text, or else the built-in ones."""

    path: Optional[str]
    text: Optional[bytes]
    locale: str
    variables: Dict[str, str]

    def read(self) -> Optional[DefinitionFiles]:
        """Return the definition files, or None for the built-in definitions. Raises a `DefinitionFault`."""
        if self.path is not None:
            return files_of_path(self.path)
        return None if self.text is None else files_of_text(self.text)


class BackEnd(Protocol):
    """A session of the program, or a table of the library. Each call raises a `UnitsError` for a fault.

    The texts are lines without `#`, of at most 60,000 bytes.
    """

    def convert(self, source: bytes, target: bytes) -> str:
        """Return the first line of the program's reply, exact, strict and compact."""

    def value(self, expression: bytes) -> Quantity:
        """Return the value of an expression."""

    def define(self, line: bytes) -> None:
        """Add a definition."""

    def drop(self, key: bytes) -> None:
        """Remove the last definition of a key."""

    def undo(self) -> None:
        """Undo the last edit."""

    def redo(self) -> None:
        """Redo the last undone edit."""

    def search(self, text: bytes) -> List[str]:
        """Return the lines of a search."""

    def conforming(self, expression: bytes) -> List[str]:
        """Return the names of the units that conform to an expression."""

    def close(self) -> None:
        """End the session or free the table. A second call does nothing."""


class LockedBackEnd:
    """A back end with a lock, which each call holds.

    The lock is one that its thread may take again, because a signal handler may ask a question during another one. So a
    call takes what it writes to out of the back end, and puts it back at its end.
    """

    def __init__(self) -> None:
        self._lock = threading.RLock()
        self._was_called_at_fork = False
        _back_ends.add(self)

    def renew_lock(self) -> None:
        """Free the lock in the child of a fork, where the thread that may have held it does not run."""
        if not self._lock.acquire(blocking=False):
            self._was_called_at_fork = True
        self._lock = threading.RLock()


_back_ends: "weakref.WeakSet[LockedBackEnd]" = weakref.WeakSet()


def _renew_locks() -> None:
    for back_end in list(_back_ends):
        back_end.renew_lock()


os.register_at_fork(after_in_child=_renew_locks)
