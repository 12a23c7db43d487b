"""A headless Chromium, driven over the pipe of its DevTools protocol."""

from __future__ import annotations

import base64
import json
import os
import subprocess
import tempfile
from collections.abc import Iterator
from contextlib import contextmanager
from pathlib import Path

KEYS = {"Enter": 13, "Tab": 9, "Escape": 27, "ArrowDown": 40, "ArrowUp": 38, "ArrowLeft": 37, "ArrowRight": 39}
EMPTY = "about:blank"


class Chromium:
    name = "Chromium"
    command = "chromium"

    def __init__(self) -> None:
        to_read, self._to = os.pipe()
        self._from, to_write = os.pipe()
        self._profile = tempfile.TemporaryDirectory(ignore_cleanup_errors=True)
        # The browser reads commands from descriptor 3 and writes replies to descriptor 4.
        self._process = subprocess.Popen(
            ["bash", "-c", f'exec "$@" 3<&{to_read} 4>&{to_write}', "browser", self.command, "--headless=new",
             "--no-sandbox", "--disable-gpu", "--no-first-run", "--hide-scrollbars", "--disable-background-networking",
             "--remote-debugging-pipe", f"--user-data-dir={self._profile.name}", "--window-size=1100,900", EMPTY],
            pass_fds=(to_read, to_write), stderr=subprocess.DEVNULL, stdout=subprocess.DEVNULL)
        os.close(to_read)
        os.close(to_write)
        self._count, self._input, self._session = 0, b"", ""
        self.events: list[dict] = []
        self.tab = self.new_tab()

    def new_tab(self) -> str:
        """Opens a tab in a process of its own and uses it."""
        self._session = ""
        target = self.call("Target.createTarget", url=EMPTY, newWindow=True)["targetId"]
        self.use_tab(self.call("Target.attachToTarget", targetId=target, flatten=True)["sessionId"])
        for domain in ("Page", "Runtime", "Network"):
            self.call(f"{domain}.enable")
        return self.tab

    def use_tab(self, tab: str) -> None:
        self.tab = self._session = tab

    def _message(self) -> dict:
        while b"\0" not in self._input:
            piece = os.read(self._from, 1 << 16)
            if not piece:
                raise EOFError("the browser ended")
            self._input += piece
        message, self._input = self._input.split(b"\0", 1)
        return json.loads(message)

    def call(self, method: str, **params: object) -> dict:
        self._count += 1
        message = {"id": self._count, "method": method, "params": params}
        if self._session:
            message["sessionId"] = self._session
        os.write(self._to, json.dumps(message).encode() + b"\0")
        while True:
            reply = self._message()
            if reply.get("id") == self._count:
                if "error" in reply:
                    raise RuntimeError(reply["error"])
                return reply["result"]
            self.events.append(reply)

    def _events(self, method: str) -> list[dict]:
        return [event["params"] for event in self.events if event.get("method") == method]

    def open(self, url: str) -> None:
        """Loads an empty page and then the page, since a change of only the fragment would load nothing."""
        for address in (EMPTY, url):
            self.events = [event for event in self.events if event.get("method") != "Page.loadEventFired"]
            self.call("Page.navigate", url=address)
            while not self._events("Page.loadEventFired"):
                self.events.append(self._message())

    def value(self, expression: str) -> object:
        result = self.call("Runtime.evaluate", expression=expression, returnByValue=True, awaitPromise=True)
        if "exceptionDetails" in result:
            raise RuntimeError(json.dumps(result["exceptionDetails"])[:2000])
        return result["result"].get("value")

    def type(self, text: str) -> None:
        self.call("Input.insertText", text=text)

    def press(self, key: str, is_shifted: bool = False) -> None:
        text = {"text": "\r"} if key == "Enter" else {}
        common = {"key": key, "code": key, "windowsVirtualKeyCode": KEYS[key], "modifiers": 8 * is_shifted}
        self.call("Input.dispatchKeyEvent", type="keyDown", **common, **text)
        self.call("Input.dispatchKeyEvent", type="keyUp", **common)

    def resize(self, width: int, height: int, is_dark: bool) -> None:
        self.call("Emulation.setDeviceMetricsOverride", width=width, height=height, deviceScaleFactor=1, mobile=False)
        scheme = {"name": "prefers-color-scheme", "value": "dark" if is_dark else "light"}
        self.call("Emulation.setEmulatedMedia", features=[scheme])

    def picture(self, path: Path) -> None:
        path.write_bytes(base64.b64decode(self.call("Page.captureScreenshot", format="png")["data"]))

    @contextmanager
    def touch(self) -> Iterator[None]:
        """Makes the pointer a finger for a while."""
        self.call("Emulation.setTouchEmulationEnabled", enabled=True)
        yield
        self.call("Emulation.setTouchEmulationEnabled", enabled=False)

    def unnamed_nodes(self, roles: set[str]) -> list[str]:
        """Roles among these in the accessibility tree that a screen reader would announce without a name."""
        found = []
        for node in self.call("Accessibility.getFullAXTree")["nodes"]:
            role = node.get("role", {}).get("value", "")
            if not node.get("ignored") and role in roles and not node.get("name", {}).get("value", "").strip():
                found.append(role)
        return found

    def faults(self) -> list[dict]:
        """Uncaught exceptions, and requests that the content policy refused."""
        entries = [event["entry"]["text"] for event in self._events("Log.entryAdded")]
        return self._events("Runtime.exceptionThrown") + [text for text in entries if "Content Security Policy" in text]

    def requests(self) -> list[str]:
        return [event["request"]["url"] for event in self._events("Network.requestWillBeSent")]

    def close(self) -> None:
        try:
            self.call("Browser.close")
        except EOFError:
            pass
        self._process.wait(20)
        self._profile.cleanup()
