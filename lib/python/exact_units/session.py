# SPDX-License-Identifier: MIT OR Apache-2.0
"""The back end that runs sessions of the program."""

from __future__ import annotations

import os
from typing import Any, Callable, Iterator, List, NamedTuple, Optional, Tuple, TypeVar

from .backend import Definitions, LockedBackEnd
from .definition_files import DefinitionFiles
from .faults import BackEndError, BadKey, fault_of_text
from .quantity import Quantity
from .session_process import SessionProcess
from .unit import read_dimension, read_fraction

_Answer = TypeVar("_Answer")


class _History(NamedTuple):
    """The lines of the edits that are in force and of the undone ones, each as nested pairs with the last line first.

    It is one value, so that an interrupt cannot leave it half changed.
    """

    done: Any = None
    undone: Any = None

    def with_edit(self, line: bytes) -> "_History":
        """Return the history after an edit."""
        return _History((line, self.done), None)

    def undo(self) -> "_History":
        """Return the history after `:undo`."""
        line, done = self.done
        return _History(done, (line, self.undone))

    def redo(self) -> "_History":
        """Return the history after `:redo`."""
        line, undone = self.undone
        return _History((line, self.done), undone)

    def lines(self) -> Iterator[bytes]:
        """Yield the lines that make this history in a new session."""
        yield from reversed(list(_items(self.done)))
        undone = list(_items(self.undone))
        yield from undone
        yield from (b":undo" for _ in undone)


def _items(pairs: Any) -> Iterator[bytes]:
    while pairs is not None:
        line, pairs = pairs
        yield line


class SessionBackEnd(LockedBackEnd):
    """A session of the program, or several, one after another.

    A call takes the session and puts it back after the last reply. So an exception in between, such as
    KeyboardInterrupt, leaves no session that is out of step: the next call opens a new one, which repeats the edits. So
    does the first call in the child of a fork, because the pipes belong to the parent.
    """

    def __init__(self, program: str, definitions: Definitions) -> None:
        super().__init__()
        self._program, self._definitions = program, definitions
        self._checksum: Optional[bytes] = None
        self._history = _History()
        self._session: Optional[SessionProcess] = None
        self._is_closed = False
        with self._lock:
            self._session = self._open()

    def _open(self) -> SessionProcess:
        """Return a new session with all edits."""
        files = self._definitions.read()
        if files is not None:
            checksum = files.checksum()
            if self._checksum not in (None, checksum):
                raise BackEndError("the definition files have changed since they were read")
            self._checksum = checksum
            if self._definitions.path is not None:
                self._definitions = self._definitions._replace(path=os.fsdecode(files.main))
        session = self._start(files)
        try:
            for line in self._history.lines():
                refusal, _ = session.ask(line)
                if refusal:
                    raise BackEndError(f"a new session refuses an edit: {refusal.rstrip()}")
        except BaseException:
            session.end()
            raise
        return session

    def _start(self, files: Optional[DefinitionFiles]) -> SessionProcess:
        definitions = self._definitions
        words = [self._program, "--compact", "--exact", "--one-line", "--strict", "--locale", definitions.locale]
        if files is None:
            return SessionProcess(words, definitions.variables)
        if definitions.text is None:
            return SessionProcess([*words, "--file=" + os.fsdecode(files.main)], definitions.variables)
        # A file in memory: an interrupt leaves no file, and nobody else can write to it.
        with open(os.memfd_create("definitions"), "wb") as file:
            file.write(definitions.text)
            file.flush()
            number = file.fileno()
            return SessionProcess([*words, f"--file=/proc/self/fd/{number}"], definitions.variables, number)

    def _take(self) -> SessionProcess:
        """Take the session out of the back end, or open one."""
        session, self._session = self._session, None
        if session is not None and session.is_of_this_process():
            return session
        if self._is_closed:
            raise BackEndError("the session is closed")
        return self._open()

    def _put(self, session: SessionProcess, history: _History) -> None:
        """Put back a session whose edits are those of the history."""
        self._history = history
        if self._session is None:
            self._session = session
            return
        # A signal handler has asked another session meanwhile. Neither has the edits of both.
        other, self._session = self._session, None
        other.end()
        session.end()

    def _exchange(self, act: Callable[[SessionProcess], _Answer], edit: Optional[bytes] = None) -> _Answer:
        """Let `act` ask a session, and return its answer. An `edit` is noted unless its answer is a refusal."""
        with self._lock:
            session = self._take()
            try:
                answer = act(session)
                history = self._history if edit is None or answer else _after(self._history, edit)
                self._put(session, history)
            except BaseException:
                session.end()
                raise
            return answer

    def _question(self, first: bytes, second: bytes) -> str:
        def ask(session: SessionProcess) -> Tuple[str, bool]:
            reply, wants_target = session.ask(first)
            return (session.ask(second)[0], True) if wants_target else (reply, False)

        reply, is_asked = self._exchange(ask)
        if not is_asked:
            raise fault_of_text(reply.rstrip("\n"))
        return reply.rstrip("\n")

    def convert(self, source: bytes, target: bytes) -> str:
        """See `BackEnd.convert`."""
        reply = self._question(source, target)
        if not reply[:1].isdigit() and not reply.startswith("-"):
            raise fault_of_text(reply)
        return reply

    def value(self, expression: bytes) -> Quantity:
        """See `BackEnd.value`."""
        number, _, dimension = self._question(expression, b"").rpartition("\n")[2].partition(" ")
        return Quantity(read_fraction(number), read_dimension(dimension))

    def define(self, line: bytes) -> None:
        """See `BackEnd.define`."""
        self._edit(b":define " + line)

    def drop(self, key: bytes) -> None:
        """See `BackEnd.drop`."""
        try:
            self._edit(b":drop " + key)
        except BadKey:
            raise BadKey(f"bad key: {os.fsdecode(key)}") from None

    def undo(self) -> None:
        """See `BackEnd.undo`."""
        self._edit(_UNDO)

    def redo(self) -> None:
        """See `BackEnd.redo`."""
        self._edit(_REDO)

    def _edit(self, line: bytes) -> None:
        refusal = self._exchange(lambda session: session.ask(line)[0], line)
        if refusal:
            raise fault_of_text(refusal.rstrip("\n"))

    def search(self, text: bytes) -> List[str]:
        """See `BackEnd.search`."""
        return self._exchange(lambda session: session.ask(b"search " + text)[0]).split("\n")

    def conforming(self, expression: bytes) -> List[str]:
        """See `BackEnd.conforming`."""

        def ask(session: SessionProcess) -> Tuple[str, bool]:
            reply, wants_target = session.ask(expression)
            if wants_target:
                reply = session.ask(b"?")[0]
                session.ask(b"")
            return reply, wants_target

        reply, is_asked = self._exchange(ask)
        if not is_asked:
            raise fault_of_text(reply.rstrip("\n"))
        return [row.split("\t")[1] for row in reply.split("\n") if row.startswith("\t")]

    def close(self) -> None:
        """See `BackEnd.close`."""
        with self._lock:
            self._is_closed = True
            session, self._session = self._session, None
            if session is not None:
                session.end()


_UNDO, _REDO = b":undo", b":redo"


def _after(history: _History, line: bytes) -> _History:
    """Return the history after the program has made the edit of a line."""
    if line == _UNDO:
        return history.undo()
    return history.redo() if line == _REDO else history.with_edit(line)
