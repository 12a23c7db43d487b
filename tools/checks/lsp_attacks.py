"""Attacks on the language server, for check_lsp.py: folders of strangers, broken messages, and sudden ends."""

from __future__ import annotations

import os
import signal
import tempfile
from contextlib import contextmanager
from pathlib import Path

MEMORY = ("--as=1500000000",)  # a limit for the server and units-why
PATIENCE = "600"  # seconds for a run that ends by itself
BROKEN = (
    b"Content-Length: 4\r\n\r\n{abc",
    b"Content-Length: 2\r\n\r\n[]",
    b'Content-Length: 6\r\n\r\n"text"',
    b"Content-Length: 4\r\n\r\nnull",
    b"Content-Length: 0\r\n\r\n",
    b"Content-Length: many\r\n\r\n{}",
    b"Content-Length: -7\r\n\r\n{}",
    b"Content-Length: 999999999\r\n\r\n{}",
    b"Content-Length: 99999999999999999999\r\n\r\n{}",
    b'Content-Length: 5\r\n\r\n{"method":"initialized"}',
    b'Content-Length: 40\r\n\r\n{"method":"initialized"}',
    b"\r\n\r\n\n" + b"x" * 1_000_000,
    b"Content-Type: text\r\n\r\n{}\n",
    b"Content-Length: 200000\r\n\r\n" + b"[" * 200_000,
)


def framed(body: bytes) -> bytes:
    return b"Content-Length: %d\r\n\r\n" % len(body) + body


@contextmanager
def folders():
    """A folder for a project and one for temporary files."""
    with tempfile.TemporaryDirectory() as name:
        top = Path(name).resolve()
        (top / "project").mkdir()
        (top / "temporary").mkdir()
        yield top / "project", top / "temporary"


def attack_other_files(client_type, program, results) -> None:
    """Includes of files outside of the folder, and of a file by detours: nothing but the unsaved text is written."""
    with folders() as (project, temporary):
        victim = project.parent / "victim/precious.txt"
        victim.parent.mkdir()
        victim.write_text("precious data\n")
        main = project / "main.units"
        lines = "m !\n!include ../../victim/precious.txt\n!include ../victim/precious.txt\n!include sub/../main.units\n"
        main.write_text(lines)
        client = client_type(program, temporary=temporary)
        client.ask("initialize", {})
        client.open(main)
        client.change(main, lines + "x 2 m\n")
        client.change(main, lines + "x 3 mm\n")
        written = [path for path in temporary.rglob("*") if path.is_file()]
        results.check(victim.read_text() == "precious data\n", "a file outside of the folder was changed")
        results.check(main.read_text() == lines, "the file itself was changed")
        results.check(len(written) == 1, f"the server wrote {written}")
        modes = {oct(path.stat().st_mode & 0o777) for path in temporary.iterdir()}
        results.check(modes == {"0o700"}, f"the folder of the unsaved texts has the mode {modes}")
        hover = client.at("textDocument/hover", main, 4, 0)
        results.check(hover and "3 mm" in hover["contents"]["value"], f"the hover of an unsaved text is {hover}")
        client.end()
        results.check(not list(temporary.iterdir()), "the server left its files")


def attack_names(client_type, program, results) -> None:
    """Names of folders and files with every kind of character."""
    for name in ("a b", "a=b", "a;b", "-f", "q'\"`$x", "50%41", "line\nfeed", "höhe", "back\\slash"):
        with folders() as (project, temporary):
            path = project / name / f"{name}.units"
            path.parent.mkdir()
            path.write_text("m !\n")
            client = client_type(program, temporary=temporary)
            client.ask("initialize", {})
            client.open(path)
            messages = [each["message"] for each in client.change(path, "m !\nbad 2 missing\n")]
            results.check(messages == ["bad: unknown unit: missing in bad"], f"{name!r}: the diagnostics are {messages}")
            client.end()


def attack_special_files(client_type, program, results) -> None:
    """A FIFO, a link to endless bytes and a long file, beside the file and included by it."""
    with folders() as (project, temporary):
        main = project / "main.units"
        os.mkfifo(project / "a.units")
        (project / "b.units").symlink_to("/dev/zero")
        with open(project / "c.units", "wb") as file:
            file.truncate(1 << 34)
        for number in range(150):
            (project / f"d{number}.units").write_text("!include main.units\n")
        main.write_text("m !\nbad 2 missing\n")
        client = client_type(program, "--seconds", PATIENCE, temporary=temporary, limits=MEMORY)
        client.ask("initialize", {})
        messages = [each["message"] for each in client.open(main)]
        results.check(messages == ["bad: unknown unit: missing in bad"], f"beside special files: {messages}")
        messages = [each["message"] for each in client.change(main, "!include b.units\n!include c.units\nm !\n")]
        is_told = len(messages) == 2 and all("file too long" in each for each in messages)
        results.check(is_told, f"includes of long files: {messages}")
        results.check(client.end() == 0, "the server does not end")
        main.write_text("!include a.units\nm !\n")
        client = client_type(program, "--seconds", "1", temporary=temporary)
        client.ask("initialize", {})
        messages = [each["message"] for each in client.open(main)]
        results.check(len(messages) == 1 and "no answer within 1 s" in messages[0], f"an include of a FIFO: {messages}")
        results.check(client.end() == 0, "the server does not end after it was late")


def attack_messages(client_type, program, results) -> None:
    """Broken messages: the server answers the next request that is sound."""
    client = client_type(program, limits=MEMORY)
    noise = framed(b'{"method":"$/noise"}')  # what a message of the wrong length may take with it
    for data in BROKEN:
        client.send_raw(data + noise + noise)
        answer = client.ask("units/unknown", {})
        results.check(answer.get("error", {}).get("code") == -32601, f"after {data[:60]!r}: {answer}")
    place = {"textDocument": {"uri": 7}, "position": {"line": "x", "character": None}}
    for params in ([], 3, "x", {}, {"textDocument": None}, place, {"textDocument": {"uri": "file:///none%00"}}):
        for method in ("didOpen", "didChange", "didSave", "didClose"):
            client.tell(f"textDocument/{method}", params)
        for method in ("hover", "definition", "documentSymbol"):
            answer = client.ask(f"textDocument/{method}", params)
            results.check("error" in answer, f"{method} of {params}: {answer}")
    client.send_raw(b"Content-Length: 100\r\n\r\n{")
    client.server.stdin.close()
    results.check(client.wait() == 0, "a message without an end does not end the server")


def attack_ends(client_type, program, results) -> None:
    """Ends by a signal and by a client that is gone: no file stays."""
    for end in ("terminate", "close input", "close output"):
        with folders() as (project, temporary):
            main = project / "main.units"
            main.write_text("m !\n")
            client = client_type(program, temporary=temporary)
            client.ask("initialize", {})
            client.open(main)
            client.change(main, "m !\nx 2 m\n")
            results.check(len(list(temporary.iterdir())) == 1, "an unsaved text has no file")
            if end == "terminate":
                client.server.send_signal(signal.SIGTERM)
            elif end == "close input":
                client.server.stdin.close()
            else:
                client.server.stdout.close()
                client.tell("textDocument/didSave", {"textDocument": {"uri": main.as_uri()}})
            status = client.wait()
            expected = 128 + signal.SIGTERM if end == "terminate" else 0
            results.check(status == expected, f"{end}: the status is {status}")
            results.check(not list(temporary.iterdir()), f"{end}: the server left its files")


def attack_program(client_type, program, results) -> None:
    """Programs that are no units-why, or that cannot check: the file is never reported as clean."""
    scripts = {
        "exit 1": "status 1 with 0 findings",
        "exit 3": "status 3",
        "echo no memory >&2; exit 6": "status 6: no memory",
        "echo text": "not JSON",
        "kill -9 $$": "status -9",
        "exec sleep 3600": "no answer within 1 s",
        "exec yes '{}'": "too many findings",
    }
    with folders() as (project, temporary):
        main = project / "main.units"
        main.write_text("m !\n")
        script = project / "script"
        for text, reason in [*scripts.items(), ("", "No such file")]:
            script.write_text(f"#!/bin/sh\n{text}\n")
            script.chmod(0o700)
            if not text:
                script.unlink()
            seconds = "1" if "sleep" in text else PATIENCE
            client = client_type(str(script), "--seconds", seconds, temporary=temporary, limits=MEMORY)
            client.ask("initialize", {})
            messages = [each["message"] for each in client.open(main)]
            shown = client.receive()
            is_right = len(messages) == 1 and "cannot check main.units" in messages[0] and reason in messages[0]
            results.check(is_right, f"{text!r}: the diagnostics are {messages}")
            results.check(shown.get("method") == "window/showMessage", f"{text!r}: the user sees {shown}")
            client.end()
        client = client_type(program, temporary=temporary, limits=("--fsize=0",))
        client.ask("initialize", {})
        client.open(main)
        messages = [each["message"] for each in client.change(main, "m !\nx 2 m\n")]
        results.check(len(messages) == 1 and "cannot be written" in messages[0], f"on a full disk: {messages}")
        client.end()


ATTACKS = (attack_other_files, attack_names, attack_special_files, attack_messages, attack_ends, attack_program)
