#!/usr/bin/env python3
"""Checks tools/units_lsp.py: by the protocol itself, in Neovim and in Emacs's eglot, both without a screen.

    tools/checks/check_lsp.py [--program UNITS_WHY]

The checks of an editor that is not installed are skipped, and all checks if there is no program. The last line is
`N passed, M failed, K skipped`.
"""

from __future__ import annotations

import argparse
import json
import os
import shutil
import subprocess
import sys
import tempfile
import threading
from dataclasses import dataclass
from pathlib import Path

sys.path[:0] = [str(Path(__file__).resolve().parents[1]), str(Path(__file__).resolve().parent)]
import lsp_attacks  # noqa: E402
from built import find_program  # noqa: E402
from lsp_attacks import framed  # noqa: E402

ROOT = Path(__file__).resolve().parents[2]
SERVER = ROOT / "tools/units_lsp.py"
NEOVIM = ROOT / "tests/editors/units.lua"
EMACS = ROOT / "tests/editors/units-eglot.el"
SECONDS = 600  # after which a server or an editor that hangs is killed
FILES = {
    "all.units": "!include base.units\n!include shop.units\n",
    "base.units": "m !\nkg !\nmilli- 1e-3\nin 25.4 millim # an inch\n",
    "shop.units": "board 12 in\n  shelf 3 missing\nheavy 2 m + kg\nµboard 2 boards\nrod 5 m #: kg\nmilliin 3 m\n"
    "dozen 12\n",
}


@dataclass
class Results:
    passed: int = 0
    failed: int = 0
    skipped: int = 0

    def check(self, holds: bool, message: str) -> None:
        if holds:
            self.passed += 1
        else:
            self.failed += 1
            print(message)

    def skip(self, message: str) -> None:
        self.skipped += 1
        print(f"skipped: {message}")


class Client:
    """A client, which starts its server. A server that does not answer is killed, and then there is no answer."""

    def __init__(self, program: str, *options: str, temporary: Path | None = None, limits: tuple[str, ...] = ()):
        command = ["prlimit", *limits, sys.executable, "-B", str(SERVER), "--program", program, *options]
        environment = {**os.environ, **({"TMPDIR": str(temporary)} if temporary else {})}
        self.server = subprocess.Popen(command, stdin=subprocess.PIPE, stdout=subprocess.PIPE, env=environment)
        self.watch = threading.Timer(SECONDS, self.server.kill)
        self.watch.start()
        self.last = 0

    def send(self, message: dict) -> None:
        self.send_raw(framed(json.dumps({"jsonrpc": "2.0", **message}).encode()))

    def send_raw(self, data: bytes) -> None:
        self.server.stdin.write(data)
        self.server.stdin.flush()

    def receive(self) -> dict:
        length = 0
        while (header := self.server.stdout.readline()) not in (b"\r\n", b""):
            length = int(header.split(b":")[1])
        return json.loads(self.server.stdout.read(length))

    def ask(self, method: str, params: dict) -> dict:
        """The response to a request. Notifications before it are skipped."""
        self.last += 1
        self.send({"id": self.last, "method": method, "params": params})
        while (message := self.receive()).get("id") != self.last:
            pass
        return message

    def tell(self, method: str, params: dict) -> None:
        self.send({"method": method, "params": params})

    def diagnostics(self, path: Path) -> list[dict]:
        """The next diagnostics of a file."""
        while (message := self.receive()).get("params", {}).get("uri") != path.as_uri():
            pass
        return message["params"]["diagnostics"]

    def open(self, path: Path) -> list[dict]:
        document = {"uri": path.as_uri(), "languageId": "units", "version": 1, "text": path.read_text()}
        self.tell("textDocument/didOpen", {"textDocument": document})
        return self.diagnostics(path)

    def change(self, path: Path, text: str) -> list[dict]:
        document = {"uri": path.as_uri(), "version": 2}
        self.tell("textDocument/didChange", {"textDocument": document, "contentChanges": [{"text": text}]})
        return self.diagnostics(path)

    def at(self, method: str, path: Path, line: int, character: int):
        position = {"line": line, "character": character}
        return self.ask(method, {"textDocument": {"uri": path.as_uri()}, "position": position})["result"]

    def end(self) -> int:
        self.ask("shutdown", {})
        self.tell("exit", {})
        return self.wait()

    def wait(self) -> int:
        self.watch.cancel()
        return self.server.wait(SECONDS)


def place(diagnostic: dict) -> tuple[int, int, int]:
    start, end = diagnostic["range"]["start"], diagnostic["range"]["end"]
    return start["line"], start["character"], end["character"]


def check_protocol(program: str, folder: Path, results: Results) -> None:
    client = Client(program)
    shop = folder / "shop.units"
    answer = client.ask("initialize", {"rootUri": folder.as_uri()})["result"]["capabilities"]
    results.check(answer["hoverProvider"] and answer["definitionProvider"], "capabilities are missing")
    client.tell("initialized", {})
    diagnostics = {place(each): (each["severity"], each["message"]) for each in client.open(shop)}
    expected = {
        (1, 10, 17): (1, "shelf: unknown unit: missing in shelf"),
        (2, 0, 5): (1, "heavy: sum of unlike units: 2 m and 1 kg"),
        (4, 0, 3): (2, "rod: 5 m does not conform to kg"),
        (5, 0, 7): (3, "milliin: hides milli in = 2.54e-05 m"),
    }
    results.check(diagnostics == expected, f"diagnostics are {diagnostics}")
    lines = shop.read_text().split("\n")
    lines[1] = "shelf 3 in"
    diagnostics = [each["message"] for each in client.change(shop, "\n".join(lines))]
    is_right = len(diagnostics) == 3 and "shelf" not in "".join(diagnostics)
    results.check(is_right, f"diagnostics of a change are {diagnostics}")
    results.check("missing" in shop.read_text(), "the file was changed on the disk")
    places = client.at("textDocument/definition", shop, 0, 9)
    results.check(
        [each["uri"] for each in places] == [(folder / "base.units").as_uri()]
        and places[0]["range"]["start"] == {"line": 3, "character": 0}
        and places[0]["range"]["end"] == {"line": 3, "character": 2},
        f"the definition of in is {places}",
    )
    places = client.at("textDocument/definition", shop, 3, 10)
    results.check([each["range"]["start"]["line"] for each in places] == [0], f"the definition of boards is {places}")
    hover = client.at("textDocument/hover", shop, 3, 10)
    expected_text = "board: plural, 12 in = 0.3048 m (shop.units:1)\nDefinition: 0.3048 m"
    results.check(hover["contents"]["value"] == expected_text, f"the hover is {hover}")
    results.check(client.at("textDocument/hover", shop, 0, 6) is None, "a number has a hover")
    symbols = client.ask("textDocument/documentSymbol", {"textDocument": {"uri": shop.as_uri()}})["result"]
    names = [symbol["name"] for symbol in symbols]
    results.check(names == ["board", "shelf", "heavy", "µboard", "rod", "milliin", "dozen"], f"symbols are {names}")
    results.check("error" in client.ask("units/unknown", {}), "an unknown method has a result")
    results.check(client.end() == 0, "the server does not end")
    check_findings_option(program, shop, results)


def check_findings_option(program: str, shop: Path, results: Results) -> None:
    """The initialization option `findings` replaces `--captures`."""
    for words, count in (([], 3), (["--unused"], 4)):
        client = Client(program)
        client.ask("initialize", {"initializationOptions": {"findings": words}})
        messages = [each["message"] for each in client.open(shop)]
        results.check(len(messages) == count, f"with the findings {words} the diagnostics are {messages}")
        client.end()


def check_runs(program: str, folder: Path, results: Results) -> None:
    """A change of a file starts units-why once, with the unsaved text alone in place of a file."""
    log, counted = folder / "runs", folder / "counted"
    counted.write_text(f"#!/bin/sh\necho \"$@\" >> '{log}'\nexec '{program}' \"$@\"\n")
    counted.chmod(0o700)
    client = Client(str(counted))
    shop = folder / "shop.units"
    client.ask("initialize", {})
    client.open(shop)
    log.write_text("")
    client.change(shop, "board 11 in\n")
    client.end()
    runs = log.read_text().splitlines()
    is_right = len(runs) == 1 and runs[0].count("--overlay=") == 1 and f"--overlay={shop}=" in runs[0]
    results.check(is_right, f"a change leads to the runs {runs}")


def check_editor(command: list[str], name: str, results: Results) -> None:
    """An editor runs its script, which prints a line `holds: ..` or `failed: ..` for each of its checks."""
    process = subprocess.run(
        command, stdin=subprocess.DEVNULL, stdout=subprocess.PIPE, stderr=subprocess.STDOUT,
        timeout=SECONDS, check=False,
    )
    lines = [line.strip() for line in process.stdout.decode(errors="replace").splitlines()]
    successes = [line for line in lines if line.startswith("holds: ")]
    for line in successes:
        results.check(True, line)
    for line in lines:
        if line.startswith("failed: "):
            results.check(False, f"{name}: {line}")
    results.check(len(successes) == 5, f"{name}: {len(successes)} of 5 checks hold:\n" + "\n".join(lines[-20:]))


def has_eglot() -> bool:
    """Whether Emacs is installed and finds eglot, which is a package of its own before Emacs 29."""
    if not shutil.which("emacs"):
        return False
    command = ["emacs", "--batch", "--eval", '(kill-emacs (if (locate-library "eglot") 0 1))']
    return subprocess.run(command, stdin=subprocess.DEVNULL, stderr=subprocess.DEVNULL, check=False).returncode == 0


def check_editors(program: str, folder: Path, results: Results) -> None:
    words = [sys.executable, str(SERVER), program, str(folder / "shop.units")]
    environment = ["env", "UNITS_LSP=" + "|".join(words)]
    if shutil.which("nvim"):
        command = ["nvim", "--headless", "--clean", "-c", f"luafile {NEOVIM}", "-c", "qa!"]
        check_editor([*environment, *command], "Neovim", results)
    else:
        results.skip("nvim is not installed (package neovim)")
    if has_eglot():
        check_editor([*environment, "emacs", "--batch", "-Q", "-l", str(EMACS)], "Emacs", results)
    else:
        results.skip("Emacs with eglot is not installed (packages emacs-nox and elpa-eglot)")


def main() -> int:
    parser = argparse.ArgumentParser(description="Checks the language server.")
    parser.add_argument("--program", help="the program units-why; otherwise the one that is built")
    program = parser.parse_args().program or find_program("units_why")
    results = Results()
    if program:
        with tempfile.TemporaryDirectory() as name:
            folder = Path(name).resolve()
            for file, text in FILES.items():
                (folder / file).write_text(text)
            check_protocol(program, folder, results)
            check_runs(program, folder, results)
            for attack in lsp_attacks.ATTACKS:
                attack(Client, program, results)
            check_editors(program, folder, results)
    else:
        results.skip("units-why is not built")
    print(f"{results.passed} passed, {results.failed} failed, {results.skipped} skipped")
    return 1 if results.failed else 0


if __name__ == "__main__":
    sys.exit(main())
