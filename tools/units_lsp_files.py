# SPDX-License-Identifier: MIT OR Apache-2.0
"""The files of the language server `units_lsp.py`: open documents, their unsaved texts, and runs of units-why on them.

A file is somebody else's. So names are compared without `..`, nothing but a regular file is read, and no more of it than
units-why reads.
"""

from __future__ import annotations

import itertools
import json
import os
import re
import secrets
import shutil
import stat
import subprocess
import tempfile
import threading
from dataclasses import dataclass
from pathlib import Path
from urllib.parse import unquote, urlsplit

INCLUDE = re.compile(r"^[ \t]*![ \t]*include[ \t]+(\S+)[ \t]*(?:#.*)?$", re.MULTILINE)
LONGEST_FILE = 1 << 24  # that of units-why
LONGEST_OUTPUT = 1 << 24
LONGEST_COMPLAINT = 1 << 10
MOST_ENTRIES, MOST_FILES = 10_000, 100  # that are looked at in a folder


class CannotCheck(Exception):
    """units-why gave no answer."""


def plain_path(name: str) -> Path:
    """An absolute path in the form in which units-why compares names."""
    return Path("/" + os.path.normpath(name).lstrip("/"))


def path_of(uri: str) -> Path | None:
    """The path of a document, or None if it is in no file."""
    parts = urlsplit(uri)
    return plain_path(unquote(parts.path, errors="surrogateescape")) if parts.scheme == "file" else None


def read_text(path: Path) -> str:
    """The text of a regular file that units-why reads whole; empty for anything else."""
    try:
        if not path.is_file():
            return ""
        with open(os.open(path, os.O_RDONLY | os.O_NONBLOCK | os.O_CLOEXEC), "rb") as file:
            is_regular = stat.S_ISREG(os.fstat(file.fileno()).st_mode)
            data = file.read(LONGEST_FILE + 1) if is_regular else b""
    except (OSError, ValueError):
        return ""
    return data.decode("utf-8", "surrogateescape") if len(data) <= LONGEST_FILE else ""


def without_surrogates(text: str) -> str:
    """A text of an editor with U+FFFD for each half of a pair, which is no character."""
    return text.encode("utf-16-le", "surrogatepass").decode("utf-16-le", "replace")


def units_files_in(folder: Path) -> list[Path]:
    """Some of the definition files in a folder, by name: a folder may have any number."""
    try:
        with os.scandir(folder) as entries:
            names = [entry.name for entry in itertools.islice(entries, MOST_ENTRIES)]
    except (OSError, ValueError):
        return []
    return [folder / name for name in sorted(names) if name.endswith(".units")][:MOST_FILES]


@dataclass
class Document:
    """An open document with its text in the editor. It has no path if it is in no file, and then no root."""

    uri: str
    path: Path | None
    text: str
    number: int
    root: Path | None = None  # the file to check for it


class Files:
    """The open documents by their URIs, and the files on the disk. Unsaved texts are in a folder of their own."""

    def __init__(self) -> None:
        self.documents: dict[str, Document] = {}
        self.numbers = itertools.count()
        self.folder: Path | None = None

    def open(self, uri: str, text: str) -> Document:
        document = Document(uri, path_of(uri), without_surrogates(text), next(self.numbers))
        self.documents[uri] = document
        return document

    def close(self, uri: str) -> None:
        document = self.documents.pop(uri, None)
        if document and self.folder:
            (self.folder / str(document.number)).unlink(missing_ok=True)

    def document_of(self, path: Path) -> Document | None:
        return next((document for document in self.documents.values() if document.path == path), None)

    def text_at(self, path: Path) -> str:
        document = self.document_of(path)
        return document.text if document else read_text(path)

    def uri_of(self, path: Path) -> str:
        """The URI of a file, in the spelling of the editor if it is open."""
        document = self.document_of(path)
        return document.uri if document else path.as_uri()

    def root_of(self, path: Path) -> Path:
        """The first file of the folder that includes a file and is included by none itself; without one, the file."""
        includes, room = {}, LONGEST_FILE
        for other in units_files_in(path.parent):
            text = self.text_at(other)
            room -= len(text)
            if room < 0:
                break
            includes[other] = {plain_path(os.path.join(path.parent, name)) for name in INCLUDE.findall(text)}
        visited = {path}
        while includers := [other for other, names in includes.items() if path in names and other not in visited]:
            path = includers[0]
            visited.add(path)
        return path

    def overlays(self) -> list[str]:
        """The options by which units-why reads the unsaved texts. It has to run in the folder."""
        options = []
        for document in self.documents.values():
            if document.path and document.text != read_text(document.path):
                self.write(document)
                options.append(f"--overlay={document.path}={document.number}")
        return options

    def write(self, document: Document) -> None:
        if not self.folder or not self.folder.is_dir():
            # The name is known before the folder is there, so that a signal in between leaves nothing.
            self.folder = Path(tempfile.gettempdir()).absolute() / f"units-lsp-{secrets.token_hex(8)}"
            self.folder.mkdir(mode=0o700)
        (self.folder / str(document.number)).write_text(document.text, encoding="utf-8", newline="")

    def remove_folder(self) -> None:
        if self.folder:
            shutil.rmtree(self.folder, ignore_errors=True)


def run_program(command: list[str], folder: Path | None, seconds: float) -> tuple[int, list[dict]]:
    """The status of a run of units-why in a folder, and the JSON objects that it writes."""
    try:
        status, output, complaint = outcome_of(command, folder, seconds)
    except (OSError, ValueError) as fault:  # a program or a folder that is not there, a null byte in a name
        raise CannotCheck(str(fault)) from None
    if status not in (0, 1):
        raise CannotCheck(f"status {status}" + f": {complaint}" * bool(complaint))
    try:
        return status, [json.loads(line) for line in output.split(b"\n") if line]
    except ValueError:
        raise CannotCheck("its answer is not JSON") from None


def outcome_of(command: list[str], folder: Path | None, seconds: float) -> tuple[int, bytes, str]:
    """The status of a run, its output and the start of its error output. No run outlives the call."""
    with (
        tempfile.TemporaryFile() as errors,  # it has no name
        subprocess.Popen(
            command, cwd=folder, stdin=subprocess.DEVNULL, stdout=subprocess.PIPE, stderr=errors
        ) as process,
    ):  # fmt: skip
        timer = threading.Timer(seconds, process.kill)
        timer.start()
        try:
            output = process.stdout.read(LONGEST_OUTPUT + 1)
            if len(output) > LONGEST_OUTPUT:
                raise CannotCheck("there are too many findings")
            status = process.wait()
            if timer.finished.is_set():
                raise CannotCheck(f"there is no answer within {seconds:g} s")
        finally:
            timer.cancel()
            process.kill()
        errors.seek(0)
        return status, output, errors.read(LONGEST_COMPLAINT).decode("utf-8", "replace").strip()
