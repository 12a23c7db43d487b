#!/usr/bin/env python3
# SPDX-License-Identifier: MIT OR Apache-2.0
"""A language server for definition files of units, which calls `units-why`.

    tools/units_lsp.py [--program UNITS_WHY] [--seconds N]

It speaks the Language Server Protocol on standard input and output: diagnostics as the text changes, go to definition,
hover and the symbols of a file. All answers come from `units-why`; this script only splits lines.

If another file in the folder includes a file, it is checked as a part of that one, so that it may use the definitions
of the other files. The server looks for it when a file is opened or saved, in at most 100 files. The initialization
option `root` names the file to check instead, and `findings` lists the words after `--lint`, by default
`["--captures"]`.

Each unsaved text is written to a file in a fresh folder that only its user can read, and units-why reads it in place of
the file of its name. The server writes nothing else, and removes the folder at its end. If units-why cannot check a
file, the file gets a diagnostic that says why.
"""

from __future__ import annotations

import argparse
import json
import os
import queue
import re
import signal
import sys
import threading
from pathlib import Path
from typing import BinaryIO

sys.dont_write_bytecode = True  # an uninstall knows the installed files only
from units_lsp_files import CannotCheck, Document, Files, plain_path, run_program, without_surrogates  # noqa: E402

SEVERITIES = {"error": 1, "warning": 2, "information": 3}
FINDINGS = ["--captures"]  # the default of the initialization option `findings`
FUNCTION, VARIABLE, LIST, CONSTANT = 12, 13, 18, 14  # kinds of symbols in the protocol
NOT_JSON, NOT_A_REQUEST, NO_METHOD, FAILED = -32700, -32600, -32601, -32603  # kinds of errors in the protocol
NAME = re.compile(r"[ \t]*\+?([^\s#!+(\[]+)([(\[]?)")
LIST_NAME = re.compile(r"[ \t]*![ \t]*unitlist[ \t]+(\S+)")
WORD = re.compile(r"[^\s+\-*/^|()\[\]{},;:=~!#\"'<>?.0-9][^\s+\-*/^|()\[\]{},;:=~!#\"<>?]*")
# If the length of a message is wrong, the next length is at the end of a line of the message.
LENGTH = re.compile(rb"content-length:[ \t]*([0-9]{1,9})[ \t]*\r?\n$", re.IGNORECASE)
LONGEST_HEADER = 1 << 12
LONGEST_MESSAGE = 1 << 26
NOWHERE = {"start": {"line": 0, "character": 0}, "end": {"line": 0, "character": 0}}
SIGNALS = (signal.SIGTERM, signal.SIGHUP, signal.SIGINT)
# What a message of the wrong form leads to, wherever it is used.
MALFORMED = (LookupError, TypeError, ValueError, AttributeError)


def utf16_length(text: str) -> int:
    return len(text.encode("utf-16-le", "surrogatepass")) // 2


def column_of(line: str, character: int) -> int:
    """The place in a line of a character, which the protocol counts in UTF-16."""
    units = 0
    for place, char in enumerate(line):
        if units >= character:
            return place
        units += utf16_length(char)
    return len(line)


def characters_before(line: str, column: int) -> int:
    """The number of characters of a line before a column, which counts bytes from 1."""
    return len(line.encode("utf-8", "surrogateescape")[: column - 1].decode("utf-8", "surrogateescape"))


def span(line: str, number: int, start: int, end: int) -> dict:
    """The range of some characters of a line."""
    first, last = utf16_length(line[:start]), utf16_length(line[:end])
    return {"start": {"line": number, "character": first}, "end": {"line": number, "character": last}}


def line_at(lines: list[str], number: int) -> str:
    return lines[number] if 0 <= number < len(lines) else ""


class Server:
    """The answers to requests about the open documents."""

    def __init__(self, program: str, seconds: float, out: BinaryIO):
        self.program, self.seconds, self.out = program, seconds, out
        self.files = Files()
        self.root: str | None = None
        self.findings = FINDINGS
        self.changed: set[str] = set()
        self.uris_with_findings: dict[Path, set[str]] = {}
        self.last_failure = ""

    def send(self, **message: object) -> None:
        body = json.dumps({"jsonrpc": "2.0", **message}).encode()
        self.out.write(b"Content-Length: %d\r\n\r\n" % len(body) + body)
        self.out.flush()

    def notify(self, method: str, params: dict) -> None:
        self.send(method=method, params=params)

    def fail(self, code: int, text: str, number: object = None) -> None:
        self.send(id=number, error={"code": code, "message": text})

    def run(self, root: Path, *words: str) -> tuple[int, list[dict]]:
        """The status of units-why and the JSON objects that it writes about a file."""
        program = os.path.abspath(self.program) if "/" in self.program else self.program
        try:
            overlays = self.files.overlays()
        except OSError as fault:
            raise CannotCheck(f"an unsaved text cannot be written: {fault.strerror}") from None
        command = [program, "--json", f"--file={root}", *overlays, *words]
        return run_program(command, self.files.folder if overlays else None, self.seconds)

    def find_root(self, document: Document) -> None:
        """Chooses the file to check for a document."""
        if document.path and self.root:
            document.root = plain_path(os.path.join(document.path.parent, self.root))
        elif document.path:
            document.root = self.files.root_of(document.path)

    def check(self, document: Document) -> None:
        """Publishes the diagnostics of a document and of the files that are checked with it."""
        root = document.root
        try:
            status, findings = self.run(root, "--lint", *self.findings)
            if bool(status) != bool(findings):
                raise CannotCheck(f"status {status} with {len(findings)} findings")
        except CannotCheck as fault:
            self.report_failure(document, f"{self.program} cannot check {root.name}: {fault}")
            return
        self.last_failure = ""
        diagnostics = self.diagnostics_of(document, findings)
        for uri in self.uris_with_findings.get(root, set()) - set(diagnostics):
            diagnostics[uri] = []
        self.uris_with_findings[root] = {uri for uri, found in diagnostics.items() if found}
        for uri, found in diagnostics.items():
            self.notify("textDocument/publishDiagnostics", {"uri": uri, "diagnostics": found})

    def report_failure(self, document: Document, message: str) -> None:
        """Says that a document was not checked, and to the user once for each reason."""
        finding = {"range": NOWHERE, "severity": SEVERITIES["error"], "source": "units-why", "message": message}
        self.uris_with_findings.setdefault(document.root, set()).add(document.uri)
        self.notify("textDocument/publishDiagnostics", {"uri": document.uri, "diagnostics": [finding]})
        if message != self.last_failure:
            self.notify("window/showMessage", {"type": 1, "message": message})
        self.last_failure = message

    def diagnostics_of(self, document: Document, findings: list[dict]) -> dict[str, list[dict]]:
        """The diagnostics of each file. A finding without a place is at the start of the document."""
        diagnostics: dict[str, list[dict]] = {document.uri: []}
        lines: dict[Path, list[str]] = {}
        for finding in findings:
            path = plain_path(finding["file"]) if "file" in finding else document.path
            if path not in lines:
                lines[path] = self.files.text_at(path).split("\n")
            found = self.diagnostic(lines[path], finding, document.root)
            diagnostics.setdefault(self.files.uri_of(path), []).append(found)
        return diagnostics

    @staticmethod
    def diagnostic(lines: list[str], finding: dict, root: Path) -> dict:
        place = NOWHERE
        if "file" in finding:
            number = finding["line"] - 1
            line = line_at(lines, number)
            start, end = (characters_before(line, finding[name]) for name in ("column", "end"))
            if start == end:
                end = len(line.split("#")[0].rstrip())
            place = span(line, number, start, max(start, end))
        key = f"{finding['key']}: " if "key" in finding else ""
        return {
            "range": place,
            "severity": SEVERITIES[finding["severity"]],
            "source": "units-why",
            "message": key + finding["message"].replace(f"{root.parent}/", ""),
        }

    def document_at(self, place: dict) -> Document:
        return self.files.documents[place["textDocument"]["uri"]]

    def word_at(self, place: dict) -> str | None:
        """The word under the cursor."""
        line = line_at(self.document_at(place).text.split("\n"), place["position"]["line"])
        column = column_of(line, place["position"]["character"])
        words = (match for match in WORD.finditer(line) if match.start() <= column <= match.end())
        return next((match.group() for match in words), None)

    def rows_at(self, place: dict) -> tuple[dict, list[dict]]:
        """The reply of units-why on the word under the cursor, and the rows of the word itself."""
        root, word = self.document_at(place).root, self.word_at(place)
        if not word or not root:
            return {}, []
        _, (reply, *rows) = self.run(root, "--", word)
        return reply, [row for row in rows if row.get("depth") == 0 and "key" in row]

    def definition(self, place: dict) -> list[dict]:
        _, rows = self.rows_at(place)
        return [self.location(plain_path(row["file"]), row["line"] - 1) for row in rows if "file" in row]

    def location(self, path: Path, number: int) -> dict:
        line = line_at(self.files.text_at(path).split("\n"), number)
        name = NAME.match(line)
        start, end = name.span(1) if name else (0, len(line))
        return {"uri": self.files.uri_of(path), "range": span(line, number, start, end)}

    def hover(self, place: dict) -> dict | None:
        reply, rows = self.rows_at(place)
        if not rows:
            return None
        lines = [self.row_line(row) for row in rows]
        if not reply["refused"]:
            lines.append(reply["reply"].strip())
        return {"contents": {"kind": "plaintext", "value": "\n".join(lines)}}

    @staticmethod
    def row_line(row: dict) -> str:
        value = f" = {row['value']}" if "value" in row else ""
        place = f" ({Path(row['file']).name}:{row['line']})" if "file" in row else ""
        return f"{row['key']}: {row['how']}, {row.get('text', '')}{value}{place}"

    def symbols(self, place: dict) -> list[dict]:
        """The definitions of a document, line by line. A line that continues another one has none."""
        symbols, continues = [], False
        for number, line in enumerate(self.document_at(place).text.split("\n")):
            match = None if continues else (LIST_NAME.match(line) or NAME.match(line))
            if match:
                name, kind = match.group(1), self.symbol_kind(match)
                selection = span(line, number, *match.span(1))
                whole = span(line, number, 0, len(line))
                symbols.append({"name": name, "kind": kind, "range": whole, "selectionRange": selection})
            continues = line.split("#")[0].rstrip().endswith("\\")
        return symbols

    @staticmethod
    def symbol_kind(match: re.Match[str]) -> int:
        if match.re is LIST_NAME:
            return LIST
        if match.group(2):
            return FUNCTION
        return CONSTANT if match.group(1).endswith("-") else VARIABLE

    def initialize(self, params: dict) -> dict:
        options = params.get("initializationOptions") or {}
        self.root = options.get("root")
        self.findings = [str(word) for word in options.get("findings", FINDINGS)]
        self.program = str(options.get("program", self.program))
        capabilities = {
            "textDocumentSync": {"openClose": True, "change": 1, "save": True},
            "definitionProvider": True,
            "hoverProvider": True,
            "documentSymbolProvider": True,
        }
        return {"capabilities": capabilities, "serverInfo": {"name": "units_lsp"}}

    def answer(self, message: dict) -> None:
        """Answers a request."""
        requests = {
            "initialize": self.initialize,
            "textDocument/definition": self.definition,
            "textDocument/hover": self.hover,
            "textDocument/documentSymbol": self.symbols,
            "shutdown": lambda _: None,
        }
        handler = requests.get(message["method"])
        if handler is None:
            self.fail(NO_METHOD, f"no method {message['method']}", message["id"])
            return
        try:
            result = handler(message.get("params") or {})
        except CannotCheck as fault:
            self.fail(FAILED, f"{self.program}: {fault}", message["id"])
        except MALFORMED as fault:
            self.fail(NOT_A_REQUEST, f"malformed {message['method']}: {fault!r}", message["id"])
        else:
            self.send(id=message["id"], result=result)

    def take(self, message: dict) -> None:
        """Handles a notification. Changes are checked when no message is left."""
        params = message.get("params") or {}
        method = message["method"]
        if not method.startswith("textDocument/did"):
            return
        uri = params["textDocument"]["uri"]
        if method == "textDocument/didOpen":
            self.find_root(self.files.open(uri, params["textDocument"]["text"]))
        elif method == "textDocument/didChange":
            self.files.documents[uri].text = without_surrogates(params["contentChanges"][-1]["text"])
        elif method == "textDocument/didSave":
            self.find_root(self.files.documents[uri])
        elif method == "textDocument/didClose":
            self.files.close(uri)
        self.changed.add(uri)

    def check_changed(self) -> None:
        for uri in sorted(self.changed & set(self.files.documents)):
            if self.files.documents[uri].root:
                self.check(self.files.documents[uri])
        self.changed.clear()

    def handle(self, body: bytes) -> bool:
        """Handles a message, whatever it is. Returns whether the client goes on."""
        try:
            message = json.loads(body)
        except (ValueError, RecursionError):
            self.fail(NOT_JSON, "a message is not JSON")
            return True
        if not isinstance(message, dict) or not isinstance(message.get("method", ""), str):
            self.fail(NOT_A_REQUEST, "a message is not a request")
        elif "method" in message and "id" in message:
            self.check_changed()
            self.answer(message)
        elif "method" in message:
            try:
                self.take(message)
            except (OSError, *MALFORMED) as fault:
                text = f"{message['method']} has no effect: {fault!r}"
                self.notify("window/logMessage", {"type": 2, "message": text})
        return not isinstance(message, dict) or message.get("method") != "exit"


def read_body(source: BinaryIO) -> bytes | None:
    """The body of the next message, or None at the end of the input. What is not a header is skipped."""
    length = None
    while line := source.readline(LONGEST_HEADER):
        if header := LENGTH.search(line):
            length = int(header[1])
        elif line in (b"\r\n", b"\n") and length is not None and length <= LONGEST_MESSAGE:
            body = source.read(length)
            return body if len(body) == length else None
    return None


def fill(messages: queue.Queue, source: BinaryIO) -> None:
    """Puts the bodies of the messages of the input into a queue, and None after the last one."""
    while (body := read_body(source)) is not None:
        messages.put(body)
    messages.put(None)


def serve(server: Server) -> None:
    """Handles messages until the client ends."""
    messages: queue.Queue = queue.Queue(maxsize=100)
    threading.Thread(target=fill, args=(messages, sys.stdin.buffer), daemon=True).start()
    while (body := messages.get()) is not None and server.handle(body):
        if messages.empty():
            server.check_changed()


def default_program() -> str:
    """units-why in bin/ of the repository or of the prefix that contains the server, or else on the PATH."""
    programs = (folder / "bin/units-why" for folder in Path(__file__).resolve().parents)
    return next((str(program) for program in programs if os.access(program, os.X_OK)), "units-why")


def main() -> int:
    parser = argparse.ArgumentParser(description="A language server for definition files of units.")
    parser.add_argument("--program", default=default_program(), help="the program units-why")
    parser.add_argument("--seconds", type=float, default=20, help="limit for one run of units-why (20)")
    options = parser.parse_args()
    server = Server(options.program, options.seconds, sys.stdout.buffer)
    for number in SIGNALS:
        signal.signal(number, lambda number, _: sys.exit(128 + number))
    status = 0
    try:
        serve(server)
    except BrokenPipeError:  # the client is gone
        pass
    except SystemExit as end:
        status = end.code
    finally:
        for number in SIGNALS:
            signal.signal(number, signal.SIG_IGN)
        server.files.remove_folder()
    return status


if __name__ == "__main__":
    os._exit(main())  # the thread that reads the input may still wait, and the end of Python would wait for it
