# SPDX-License-Identifier: MIT OR Apache-2.0
"""A process that runs a session of the program. Each reply is read up to the next prompt."""

from __future__ import annotations

import os
import select
import shutil
import subprocess
import tempfile
import weakref
from typing import Dict, List, Tuple

from .faults import BackEndError, DefinitionFault, UnitsError, fault_of_text

_HAVE, _WANT = b"You have: ", b"You want: "
# A prompt is at the beginning of a line. In the middle of one it is the text of a definition.
_PROMPTS = (b"\n" + _HAVE, b"\n" + _WANT)
_MOST_ERRORS = 65_536
_SECONDS_TO_END = 10


class SessionProcess:
    """A running session. After an exception in a call it may be out of step, and has to be ended.

    Raises `BackEndError` if the program cannot start, and the `DefinitionFault` that it ends with.
    """

    def __init__(self, words: List[str], variables: Dict[str, str], *passed: int) -> None:
        """Start a program with its words, its environment, and the open files that are passed to it."""
        self._owner = os.getpid()
        self._errors = b""
        self._is_loaded = False
        program = shutil.which(words[0]) or words[0]
        try:
            # An interrupt at the terminal is for this process. In a session of its own the program does not get it.
            self._process = subprocess.Popen(
                [program, *words[1:]],
                stdin=subprocess.PIPE,
                stdout=subprocess.PIPE,
                stderr=subprocess.PIPE,
                bufsize=0,
                env=variables,
                pass_fds=passed,
                start_new_session=True,
            )
        except OSError as error:
            raise BackEndError(f"cannot start {program}: {error.strerror}") from error
        assert self._process.stdin and self._process.stdout and self._process.stderr
        self._input, self._output = self._process.stdin.fileno(), self._process.stdout.fileno()
        self._error_stream = self._process.stderr.fileno()
        self._poll = select.poll()
        self._poll.register(self._output, select.POLLIN)
        self._poll.register(self._error_stream, select.POLLIN)
        _processes.add(self)
        try:
            self._pass_messages()
        except BackEndError:
            if _is_gnu_units(program):
                raise BackEndError(f"{program} is GNU units: name another program, or set EXACT_UNITS_PROGRAM") from None
            raise

    def _pass_messages(self) -> None:
        """Read what the definitions show, which may look like a prompt, up to the reply to a random word."""
        word = b":" + os.urandom(16).hex().encode()
        self._write(word)
        self._read((word + b"\n" + _HAVE,))
        self._is_loaded = True

    def is_of_this_process(self) -> bool:
        """Return whether this process has started the session, and not its parent."""
        return self._owner == os.getpid()

    def ask(self, line: bytes) -> Tuple[str, bool]:
        """Return the reply to a line, and whether the session asks for a target next."""
        self._write(line)
        output = self._read(_PROMPTS)
        return output[1 : -len(_HAVE)].decode("utf-8", "surrogateescape"), output.endswith(_WANT)

    def _write(self, line: bytes) -> None:
        data = line + b"\n"
        try:
            while data:
                data = data[os.write(self._input, data) :]
        except BrokenPipeError:
            raise self._end_fault() from None

    def _read(self, ends: Tuple[bytes, ...]) -> bytearray:
        """Return a line feed and the output up to one of these ends."""
        output = bytearray(b"\n")
        while not output.endswith(ends):
            piece = self._next_output()
            if not piece:
                raise self._end_fault()
            output += piece
        return output

    def _next_output(self) -> bytes:
        """Return the next output, or no bytes after the end. Notices are read too, lest their pipe fills up."""
        if self._is_loaded:
            # Only the definitions give notices. The reply to a question or an edit of a session has none.
            return os.read(self._output, 65536)
        while True:
            ready = [stream for stream, _ in self._poll.poll()]
            if self._error_stream in ready and not self._read_errors():
                self._poll.unregister(self._error_stream)
            if self._output in ready:
                return os.read(self._output, 65536)

    def _read_errors(self) -> bool:
        piece = os.read(self._error_stream, 65536)
        self._errors = (self._errors + piece)[-_MOST_ERRORS:]
        return bool(piece)

    def _end_fault(self) -> UnitsError:
        """Return the reason why the program has ended."""
        try:
            while self._read_errors():
                pass
            self._process.wait(_SECONDS_TO_END)
        except subprocess.TimeoutExpired:
            pass
        status = self.end()
        words = self._errors.decode("utf-8", "replace").strip().rpartition("\n")[2]
        fault = fault_of_text(words[len("units: ") :] if words.startswith("units: ") else words)
        if isinstance(fault, DefinitionFault):
            return fault
        return BackEndError(f"the session ended with status {status}" + (f": {words}" if words else ""))

    def end(self) -> int:
        """End the program, which has nothing to lose, and return its status. A later call does nothing."""
        if not self.is_of_this_process():
            self.leave()
            return 0
        if self._process.returncode is None:
            self._process.kill()
        status = self._process.wait()
        self._close_streams()
        return status

    def leave(self) -> None:
        """Close this process's copies of the pipes of a session that its parent has started."""
        self._process.returncode = 0
        self._close_streams()

    def _close_streams(self) -> None:
        # Their numbers may soon be those of other files.
        self._input = self._output = self._error_stream = -1
        for stream in (self._process.stdin, self._process.stdout, self._process.stderr):
            if stream is not None:
                stream.close()

    def __del__(self) -> None:
        if getattr(self, "_process", None) is not None:
            self.end()


_processes: "weakref.WeakSet[SessionProcess]" = weakref.WeakSet()


def _leave_processes() -> None:
    # Otherwise the sessions of the parent would not see the end of their input while a child runs.
    for process in list(_processes):
        process.leave()


os.register_at_fork(after_in_child=_leave_processes)


def _is_gnu_units(program: str) -> bool:
    try:
        done = subprocess.run(
            [program, "--version"], stdin=subprocess.DEVNULL, stdout=subprocess.PIPE, stderr=subprocess.DEVNULL,
            timeout=_SECONDS_TO_END, check=False,
        )
    except (OSError, subprocess.SubprocessError):
        return False
    return done.stdout.startswith(b"GNU Units")


def saved_definitions(program: str) -> bytes:
    """Return the built-in definitions of a program, as it saves them. Raises `BackEndError` if that fails."""
    with tempfile.TemporaryDirectory() as folder:
        path = os.path.join(folder, "built_in.units")
        try:
            subprocess.run(
                [program, "--quiet"],
                input=f":save {path}\n".encode(),
                stdout=subprocess.DEVNULL,
                stderr=subprocess.DEVNULL,
                check=True,
            )
            with open(path, "rb") as file:
                return file.read()
        except (OSError, subprocess.CalledProcessError) as error:
            raise BackEndError(f"no built-in definitions: {error}") from error
