"""A headless Firefox, driven over its Marionette protocol."""

from __future__ import annotations

import base64
import json
import socket
import subprocess
import tempfile
import time
from collections.abc import Iterator
from contextlib import contextmanager
from pathlib import Path

KEYS = {"Enter": "\ue007", "Tab": "\ue004", "Escape": "\ue00c", "ArrowDown": "\ue015", "ArrowUp": "\ue013"}
CONNECTION_SECONDS = 60
CONTROLS = "button, input, select, textarea, [role=tab], [role=tabpanel], [role=listbox], [role=option], [role=log]"
POINTERS = ("ui.primaryPointerCapabilities", "ui.allPointerCapabilities")


class Firefox:
    name = "Firefox"
    command = "firefox-esr"

    def __init__(self) -> None:
        self._profile = tempfile.TemporaryDirectory(ignore_cleanup_errors=True)
        with socket.socket() as listener:
            listener.bind(("127.0.0.1", 0))
            port = listener.getsockname()[1]
        Path(self._profile.name, "user.js").write_text(f'user_pref("marionette.port", {port});\n')
        self._process = subprocess.Popen(
            [self.command, "--headless", "--marionette", "-remote-allow-system-access", "--no-remote", "--profile", self._profile.name],
            stdout=subprocess.DEVNULL, stderr=subprocess.DEVNULL)
        self._socket = self._connect(port)
        self._input, self._count = b"", 0
        self._message()
        self.call("WebDriver:NewSession", capabilities={})
        self.call("WebDriver:SetTimeouts", script=600_000)
        self.tab = self.call("WebDriver:GetWindowHandle")["value"]

    def new_tab(self) -> str:
        """Opens a tab and uses it."""
        self.use_tab(self.call("WebDriver:NewWindow", type="tab")["handle"])
        return self.tab

    def use_tab(self, tab: str) -> None:
        self.tab = tab
        self.call("WebDriver:SwitchToWindow", handle=tab)

    @staticmethod
    def _connect(port: int) -> socket.socket:
        for _ in range(CONNECTION_SECONDS * 10):
            try:
                return socket.create_connection(("127.0.0.1", port))
            except ConnectionRefusedError:
                time.sleep(0.1)
        raise TimeoutError("Firefox does not answer")

    def _receive(self) -> None:
        piece = self._socket.recv(1 << 16)
        if not piece:
            raise EOFError("the browser ended")
        self._input += piece

    def _message(self) -> list:
        while b":" not in self._input:
            self._receive()
        digits, self._input = self._input.split(b":", 1)
        length = int(digits)
        while len(self._input) < length:
            self._receive()
        message, self._input = self._input[:length], self._input[length:]
        return json.loads(message)

    def call(self, method: str, **params: object) -> dict:
        self._count += 1
        message = json.dumps([0, self._count, method, params]).encode()
        self._socket.sendall(str(len(message)).encode() + b":" + message)
        _, _, fault, result = self._message()
        if fault:
            raise RuntimeError(fault)
        return result

    def open(self, url: str) -> None:
        for address in ("about:blank", url):
            self.call("WebDriver:Navigate", url=address)

    def value(self, expression: str) -> object:
        return self.call("WebDriver:ExecuteScript", script=f"return ({expression})", args=[])["value"]

    def _press_all(self, keys: list[str]) -> None:
        actions = [{"type": kind, "value": key} for key in keys for kind in ("keyDown", "keyUp")]
        self.call("WebDriver:PerformActions", actions=[{"type": "key", "id": "keyboard", "actions": actions}])

    def type(self, text: str) -> None:
        self._press_all(list(text))

    def press(self, key: str) -> None:
        self._press_all([KEYS[key]])

    def _set_preference(self, name: str, value: int | None) -> None:
        change = f"setIntPref({json.dumps(name)}, {value})" if value is not None else f"clearUserPref({json.dumps(name)})"
        self.call("Marionette:SetContext", value="chrome")
        self.call("WebDriver:ExecuteScript", script=f"Services.prefs.{change}", args=[])
        self.call("Marionette:SetContext", value="content")

    @contextmanager
    def touch(self) -> Iterator[None]:
        """Makes the pointer a finger for a while."""
        for name in POINTERS:
            self._set_preference(name, 1)
        yield
        for name in POINTERS:
            self._set_preference(name, None)

    def unnamed_nodes(self, roles: set[str]) -> list[str]:
        """Roles of shown controls that the accessibility tree has without a name."""
        found = []
        for element in self.call("WebDriver:FindElements", using="css selector", value=CONTROLS):
            [identity] = element.values()
            if not self.call("WebDriver:IsElementDisplayed", id=identity)["value"]:
                continue
            role = self.call("WebDriver:GetComputedRole", id=identity)["value"]
            if not role or not self.call("WebDriver:GetComputedLabel", id=identity)["value"].strip():
                found.append(role)
        return found

    def resize(self, width: int, height: int, is_dark: bool) -> None:
        """Sets the theme and the size of the page. The window has some pixels more."""
        self._set_preference("layout.css.prefers-color-scheme.content-override", 0 if is_dark else 1)
        for _ in range(2):
            more = self.value("[outerWidth - innerWidth, outerHeight - innerHeight]")
            self.call("WebDriver:SetWindowRect", width=width + more[0], height=height + more[1])

    def picture(self, path: Path) -> None:
        path.write_bytes(base64.b64decode(self.call("WebDriver:TakeScreenshot", full=False)["value"]))

    def close(self) -> None:
        try:
            self.call("Marionette:Quit", flags=["eForceQuit"])
        except (EOFError, ConnectionError):
            pass
        self._process.wait(120)
        self._profile.cleanup()
