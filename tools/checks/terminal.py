"""A program on a pseudo-terminal, for checks of interactive use."""

from __future__ import annotations

import fcntl
import os
import pty
import re
import select
import signal
import struct
import termios
import time
from pathlib import Path

ESCAPES = re.compile(
    r"\x1b(\[[0-9;?>=]*[@a-zA-Z]|\][^\x07\x1b]*(\x07|\x1b\\)|[()][A-Z0-9]|[=>78cM])|[\r\x07\x0e\x0f]"
)
SECONDS = 300  # limit for one answer of a shell, which only ends a check that hangs


def has_terminals() -> bool:
    """Whether the system has a pseudo-terminal. A bare root without /dev/pts has none."""
    try:
        for descriptor in pty.openpty():
            os.close(descriptor)
    except OSError:
        return False
    return True


class Terminal:
    """A program on a pseudo-terminal of 40 lines and 200 columns."""

    def __init__(self, command: list[str], environment: dict[str, str], folder: Path):
        self.process, self.descriptor = pty.fork()
        if self.process == 0:
            fcntl.ioctl(0, termios.TIOCSWINSZ, struct.pack("HHHH", 40, 200, 0, 0))
            os.chdir(folder)
            os.execvpe(command[0], command, environment)
        self.output = b""

    def text(self) -> str:
        """The output since the last `clear`, without escape sequences."""
        return ESCAPES.sub("", self.output.decode(errors="replace"))

    def clear(self) -> None:
        self.output = b""

    def type(self, keys: str) -> None:
        os.write(self.descriptor, keys.encode())

    def shows(self, pattern: str) -> bool:
        """Reads until the text matches the pattern; returns whether it does in time."""
        end = time.monotonic() + SECONDS
        while not re.search(pattern, self.text()):
            if not self.read_more(end - time.monotonic()):
                return False
        return True

    def status(self) -> int:
        """Reads until the program ends; returns its status, or -1 if it does not end in time."""
        end = time.monotonic() + SECONDS
        while time.monotonic() < end:
            process, status = os.waitpid(self.process, os.WNOHANG)
            if process:
                while self.read_more(1):  # until the end, which is there unless another process has the terminal
                    pass
                os.close(self.descriptor)
                return os.waitstatus_to_exitcode(status)
            self.read_more(0.05)
        self.close()
        return -1

    def read_more(self, seconds: float) -> bool:
        """Reads the output of at most this time; returns False if there is none."""
        ready, _, _ = select.select([self.descriptor], [], [], max(0, seconds))
        try:
            data = os.read(self.descriptor, 65536) if ready else b""
        except OSError:
            data = b""
        self.output += data
        return bool(data)

    def close(self) -> None:
        os.close(self.descriptor)
        try:
            os.kill(self.process, signal.SIGKILL)
        except ProcessLookupError:
            pass
        os.waitpid(self.process, 0)
