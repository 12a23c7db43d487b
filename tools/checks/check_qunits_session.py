#!/usr/bin/env python3
"""Holds sessions of qunits on a pseudo-terminal, with rlwrap and without it.

    tools/checks/check_qunits_session.py [SEED]

With rlwrap, a session has line editing, a history file of its own and completion of names and commands. The library is
the repository's. A stand-in for the program writes random bytes to a terminal, by a seed that is printed. If rlwrap,
perl or less is not installed, the cases that need it are skipped. The last line is `N passed, M failed, K skipped`.
"""

from __future__ import annotations

import fcntl
import os
import random
import re
import shlex
import shutil
import signal
import struct
import subprocess
import sys
import tempfile
import termios
from pathlib import Path

import transcripts
from terminal import Terminal, has_terminals

ROOT = Path(__file__).resolve().parents[2]
QUNITS = str(ROOT / "bin/qunits")
HELP = (ROOT / "share/qunits/session_help.txt").read_text()
UP, HOME_KEY = "\x1b[A", "\x01"


class Check:
    """The numbers of cases that passed, failed and were skipped."""

    def __init__(self) -> None:
        self.passed = self.failed = self.skipped = 0

    def count(self, name: str, is_well: bool, detail: object = "") -> None:
        self.passed += is_well
        self.failed += not is_well
        if not is_well:
            print(f"check_qunits_session: {name}: {detail!r}")

    def exchange(self, terminal: Terminal, name: str, keys: str, pattern: str) -> None:
        """Types the keys; the terminal has to show the pattern."""
        terminal.clear()
        terminal.type(keys)
        self.count(name, terminal.shows(pattern), terminal.text())


def environment_of(home: Path, **more: str) -> dict[str, str]:
    home.mkdir(parents=True, exist_ok=True)
    return {"HOME": str(home), "PATH": os.environ["PATH"], "TERM": "xterm", "LANG": "C.UTF-8", **more}


def start(check: Check, name: str, environment: dict[str, str], *words: str) -> Terminal:
    terminal = Terminal([QUNITS, *words], environment, Path(environment["HOME"]))
    check.count(name, terminal.shows("You have: "), terminal.text())
    return terminal


def try_editing(check: Check, room: Path) -> None:
    home = room / "home"
    state = home / ".local/state/units"
    terminal = start(check, "a session begins", environment_of(home))
    check.exchange(terminal, "a command is completed", ":def\t", ":define")
    check.exchange(terminal, "and taken", " mug 350 ml\n", "You have: ")
    check.exchange(terminal, "so is a word", "searc\t", "search")
    check.exchange(terminal, "and taken too", " furl\n", r"furlong\s[^Y]*You have: ")
    check.exchange(terminal, "a name is completed", "2 furlo\t", "2 furlong")
    check.exchange(terminal, "a line is taken", "\n", "You want: ")
    check.exchange(terminal, "a name after an operator is completed", "meter/metr\x7f\x7f\x7f\x7f\x7f", "meter")
    check.exchange(terminal, "the reply", "\n", r"\* 402\.336\s[^Y]*You have: ")
    check.exchange(terminal, "keys edit a line", f"0 yard{HOME_KEY}1", "0 yard.*1")
    check.exchange(terminal, "an edited line is taken", "\n", "You want: ")
    check.exchange(terminal, "and replied to", "m\n", r"\* 9\.144\s[^Y]*You have: ")
    check.exchange(terminal, "an earlier line comes back", UP + UP, "10 yard")
    check.exchange(terminal, "and is taken again", "\n", "You want: ")
    check.exchange(terminal, "a blank line asks what it is", "\n", r"Definition: 9\.144 m[^Y]*You have: ")
    terminal.type("quit\n")
    check.count("a session ends with 0", terminal.status() == 0)
    history = state / "history"
    lines = history.read_text().splitlines() if history.exists() else []
    check.count("the history is at its place", "2 furlong" in lines and "10 yard" in lines, lines)
    check.count("GNU's history is left alone", not (home / ".units_history").exists())
    files = sorted(str(path.relative_to(home)) for path in home.rglob("*") if path.is_file())
    expected = [".local/state/units/history", ".local/state/units/names"]
    check.count("nothing else is written below HOME", files == expected, files)

    terminal = start(check, "a second session", environment_of(home))
    check.exchange(terminal, "has the history of the first", UP + UP + UP, "10 yard")
    terminal.type("\x15\x04")
    check.count("the end of input ends it with 0", terminal.status() == 0)


def try_places(check: Check, room: Path) -> None:
    """Tries the place of the history, and completion of the user's own definitions."""
    home, state, config = room / "other", room / "a state", room / "a config"
    environment = environment_of(home, XDG_STATE_HOME=str(state), XDG_CONFIG_HOME=str(config))
    (config / "units").mkdir(parents=True)
    (config / "units/my.units").write_text("m !\nown_unit_of_mine 3 m\n")
    terminal = start(check, "a session over own definitions", environment, "-d", "3")
    check.exchange(terminal, "own names are completed", "own_\t", "own_unit_of_mine")
    check.exchange(terminal, "and known", "\n", "You want: ")
    check.exchange(terminal, "options apply", "7 m\n", r"\* 0\.429\s")
    terminal.type("quit\n")
    check.count("it ends with 0", terminal.status() == 0)
    check.count("the history follows XDG_STATE_HOME", (state / "units/history").exists())
    check.count("and nothing is below HOME", not any(home.iterdir()), list(home.iterdir()))


def try_statuses(check: Check, room: Path) -> None:
    home = room / "third"
    terminal = Terminal([QUNITS, "-f", str(room)], environment_of(home), room)
    check.count("a file that cannot be read", terminal.shows("qunits: a file or standard input could not be read"))
    check.count("ends with its status", terminal.status() == 4)
    home = room / "fourth"
    environment = environment_of(home)
    (home / ".local").write_text("")
    terminal = start(check, "a history that cannot be written", environment)
    check.exchange(terminal, "leaves a session", "1 ft\n", "You want: ")
    terminal.close()


def path_without(room: Path, *names: str) -> str:
    """A folder with all programs but these."""
    folder = room / "-".join(("without", *names))
    if not folder.exists():
        folder.mkdir()
        for program in Path("/usr/bin").iterdir():
            if program.name not in names:
                (folder / program.name).symlink_to(program)
    return str(folder)


def try_plain(check: Check, room: Path) -> None:
    """Tries a session without rlwrap."""
    home = room / "plain"
    environment = environment_of(home, PATH=path_without(room, "rlwrap"))
    terminal = Terminal(["/bin/sh", QUNITS], environment, home)
    check.count("without rlwrap a session begins", terminal.shows("You have: "), terminal.text())
    check.exchange(terminal, "and takes lines", "1 acre\n", "You want: ")
    check.exchange(terminal, "and replies", "m^2\n", r"\* 4046\.8564")
    terminal.type("quit\n")
    check.count("and ends with 0", terminal.status() == 0)
    check.count("and writes nothing below HOME", not any(home.iterdir()), list(home.iterdir()))


# Bytes that a terminal obeys, and the text that it gets in place of them.
OBEYED = {
    b"\x1b]0;title\x07": r"\x1b]0;title\x07",
    b"\x7f": r"\x7f",
    b"\xc2\x9b5n": r"\xc2\x9b5n",
    b"\x9b5n": r"\x9b5n",
    "\u202e".encode(): r"\xe2\x80\xae",
    "\u2066".encode(): r"\xe2\x81\xa6",
    "\u200f".encode(): r"\xe2\x80\x8f",
    "\u061c".encode(): r"\xd8\x9c",
}


def count_escapes(check: Check, name: str, command: list[str | bytes], environment: dict[str, str]) -> None:
    """The command shows each of those bytes escaped on a terminal, and writes it as it is to a pipe."""
    folder = Path(environment["HOME"])
    terminal = Terminal(command, environment, folder)
    terminal.status()
    shown = terminal.output
    piped = subprocess.run(command, env=environment, cwd=folder, stdin=subprocess.DEVNULL, capture_output=True)
    for data, text in OBEYED.items():
        if data in piped.stdout + piped.stderr:
            check.count(f"{name}: {text}", text.encode() in shown and data not in shown, shown)
    check.count(f"{name}: a letter of Greece", "µ".encode() in shown, shown)


def try_escapes(check: Check, room: Path) -> None:
    """Tries names, notices and paths with bytes that a terminal obeys."""
    home = room / "escapes"
    environment = environment_of(home)
    names = b"".join(b"\xc2\xb5" + data + b"x 3 m\n" for data in OBEYED)
    (home / "names.units").write_bytes(b"m !\n" + names)
    for word in ("m", "--check"):
        count_escapes(check, f"notices, with {word}", [QUNITS, "-f", "names.units", word], environment)
    count_escapes(check, "all names", [QUNITS, "--names", "-f", "names.units"], environment)
    path = "µ".encode() + b"".join(data for data in OBEYED if data[0] != 0x9B)
    count_escapes(check, "a reply", [QUNITS, os.fsdecode("µ".encode() + b"".join(data for data in OBEYED if data[0] >= 0xC0))], environment)
    count_escapes(check, "the path of a file", [QUNITS, "-f", path, "m"], environment)
    environment["XDG_CONFIG_HOME"] = os.fsdecode(bytes(home) + b"/\n" + path)
    count_escapes(check, "a path of qunits", [QUNITS, "--new"], environment)
    count_escapes(check, "a path that exists", [QUNITS, "--new"], environment)
    terminal = Terminal([QUNITS, "--new"], environment, home)
    terminal.status()
    check.count("a line feed in a path", rb"\x0a" in terminal.output, terminal.output)


def try_hostile_session(check: Check, room: Path, name: str, path: str) -> None:
    """Tries a session over a file with bytes that a terminal obeys in its names and messages."""
    home, mark = room / name, "µ".encode()
    environment = environment_of(home, PATH=path)
    names = b"".join(mark + data + b"x 3 m\n" for data in OBEYED)
    messages = b"".join(b"!message " + mark + data + b"\n" for data in OBEYED)
    (home / "names.units").write_bytes(b"m !\n" + names + messages)
    terminal = Terminal([QUNITS, "-f", "names.units"], environment, home)
    check.count(f"{name}: a prompt", terminal.shows("You have: "), terminal.text())
    notices = terminal.output
    check.exchange(terminal, f"{name}: a reply", "nosuch\n", r"unknown unit: nosuch\s[^Y]*You have: ")
    terminal.clear()
    terminal.type("search x\nquit\n")
    check.count(f"{name}: its end", terminal.status() == 0, terminal.output)
    for data, text in OBEYED.items():
        escaped = mark + text.encode()
        check.count(f"{name}: a message, {text}", escaped in notices and mark + data not in notices, notices)
        if data[0] >= 0xC0:  # a name with another byte is refused
            is_well = escaped in terminal.output and mark + data not in terminal.output
            check.count(f"{name}: a name, {text}", is_well, terminal.output)
    names_file = home / ".local/state/units/names"
    if names_file.exists():
        names = names_file.read_bytes()
        is_well = names.endswith(b"\nexit\nm\n") and names.count(b"x") == 1
        check.count(f"{name}: Tab completes no such name", is_well, names)


def pattern_of(*parts: str) -> str:
    """A pattern of the texts in this order, without those line feeds that a terminal breaks."""
    return "(?s)" + ".*".join(re.escape(part).replace("\\\n", r"\s*\n") for part in parts)


def try_help(check: Check, room: Path, name: str, path: str) -> None:
    """Tries :help, between questions and typed ahead. The program gets all other lines, in their order."""
    environment = environment_of(room / f"help {name}", PATH=path)
    terminal = start(check, f"{name}: before the help", environment)
    check.count(f"{name}: it is announced", '":help" lists the commands' in terminal.text(), terminal.text())
    check.exchange(terminal, f"{name}: the help", ":help\n", pattern_of(HELP, "You have: ") + r"\Z")
    check.exchange(terminal, f"{name}: a quantity", "3 ft\n", r"You want: \Z")
    pattern = pattern_of(HELP, "You want: ") + r"\Z"
    check.exchange(terminal, f"{name}: the help before a unit", "\t:help  # of it\n", pattern)
    check.exchange(terminal, f"{name}: the quantity waits", "m\n", r"\* 0\.9144\s")
    check.exchange(terminal, f"{name}: another command", ":helpx\n", r"unknown command: :helpx\s+You have: ")
    check.exchange(terminal, f"{name}: a word", "help\n", r"unknown unit: help\s+You have: ")
    ahead = "5 ft\nm\n:help\n:help me\n7 ft\n:help\nm\n"
    replies = ("* 1.524", HELP, HELP, HELP, "* 2.1336", "You have: ")
    check.exchange(terminal, f"{name}: lines that are typed ahead", ahead, pattern_of(*replies) + r"\Z")
    check.count(f"{name}: and nothing else", "unknown" not in terminal.text(), terminal.text())
    terminal.type("quit\n")
    check.count(f"{name}: the end after the help", terminal.status() == 0)
    terminal = Terminal([QUNITS, "-q"], environment, room)
    check.exchange(terminal, f"{name}: with -q, it is unknown", "1 ft\nm\n:help\n", "unknown command: :help")
    terminal.type("\x04")
    check.count(f"{name}: and ends with 0", terminal.status() == 0)


LISTENER = """#!/bin/sh
printf 'You have: '
while IFS= read -r line || [ "$line" ]; do
    echo "$line" >> lines
    if [ "$line" = quit ]; then exit 3; fi
    printf 'You have: '
done
"""


def try_lines(check: Check, room: Path) -> None:
    """Tries which lines the program gets, by a stand-in that writes them to a file, and what it leaves to the shell."""
    folder = room / "lines"
    (folder / "bin").mkdir(parents=True)
    (folder / "share").symlink_to(ROOT / "share")
    shutil.copy(QUNITS, folder / "bin/qunits")
    (folder / "bin/units").write_text(LISTENER)
    (folder / "bin/units").chmod(0o755)
    environment = environment_of(folder / "home", PATH=path_without(room, "rlwrap"))
    for mode, keys, got in (
        ("icanon", "1 ft\n:help\n\n:helpful\n:hel\x04p\nhalf\x04\x04", ["1 ft", "", ":helpful", "half"]),
        ("icanon", ":help\nquit\nleft\n", ["quit"]),
        ("-icanon", "1 ft\n:help\n\nquit\n", ["1 ft", "", "quit"]),
    ):
        (folder / "lines").write_text("")
        shell = f"stty {mode}; bin/qunits; echo status $?; stty icanon; read -r rest; echo rest $rest; cat lines"
        terminal = Terminal(["/bin/sh", "-c", shell], environment, folder)
        terminal.shows("You have: ")
        terminal.type(keys)
        is_well = terminal.shows(f"status {3 if 'quit' in keys else 0}\\s")
        check.count(f"a program ends: {keys!r}", is_well, terminal.text())
        if "left" not in keys:
            terminal.type("left\n")
        terminal.status()
        check.count(f"the shell has the rest: {keys!r}", "rest left" in terminal.text(), terminal.text())
        lines = (folder / "lines").read_text().splitlines()
        check.count(f"no :help among them: {keys!r}", lines == got, lines)
    command = ["/bin/sh", "-c", f"printf ':help\\n' | {QUNITS}"]
    terminal = Terminal(command, environment_of(folder / "home"), folder)
    terminal.status()
    check.count("a pipe is passed on unchanged", "unknown command: :help\n" in terminal.text(), terminal.text())


def try_pager(check: Check, room: Path) -> None:
    """Tries the pager of lists: which it is, when there is none, an interrupt, and an early end."""
    home = room / "pager"
    environment = environment_of(home)
    (home / "small.units").write_text("m !\nfoot 0.3 m\n")
    (home / "large.units").write_text("m !\n" + "".join(f"name_{number} {number} m\n" for number in range(1, 20001)))
    small, large = ([QUNITS, "--names", "-f", f"{size}.units"] for size in ("small", "large"))
    fit, unknown = ([QUNITS, "-q", "-f", "small.units", start, "to", "?"] for start in ("m", "s"))
    conversion = [QUNITS, "-t", "-f", "small.units", "foot", "to", "m"]

    def shown(words: list[str], **more: str) -> tuple[int, str]:
        terminal = Terminal(words, {**environment, **more}, home)
        return terminal.status(), terminal.text()

    mark = "sed s/^/paged:/"
    for name, words, more, expected in (
        ("the pager of the user", small, {"PAGER": mark}, (0, "paged:foot\npaged:m\n")),
        ("of units that fit", fit, {"PAGER": mark}, (0, "paged:\tfoot\t0.3 m\npaged:\tm\t!\n")),
        ("not of a refusal", unknown, {"PAGER": mark}, (1, "unknown unit: s\n")),
        ("nor of a conversion", conversion, {"PAGER": mark}, (0, "0.3\n")),
        ("nor in a pipe", ["/bin/sh", "-c", shlex.join(small) + " | cat"], {"PAGER": mark}, (0, "foot\nm\n")),
        ("no pager", small, {"PAGER": ""}, (0, "foot\nm\n")),
        ("a pager that is absent", small, {"PAGER": "no-such-pager -x"}, (0, "foot\nm\n")),
        ("a terminal that cannot page", small, {"TERM": "dumb"}, (0, "foot\nm\n")),
        ("without less", small, {"PATH": path_without(room, "less")}, (0, "foot\nm\n")),
        ("a pager that ends early", large, {"PAGER": "head -n 1"}, (0, "m\n")),
        ("a pager that fails", small, {"PAGER": "cat; exit 9"}, (0, "foot\nm\n")),
    ):
        result = shown(words, **more)
        check.count(f"{name}, as a pager", result == expected, result)
    if not shutil.which("less"):
        print("check_qunits_session: less is not installed, so the cases of it are skipped")
        check.skipped += 4
        return
    for pager in ({}, {"PAGER": "less"}):
        check.count(f"a short list by less, {pager}", shown(small, **pager) == (0, "foot\nm\n"), shown(small, **pager))
    shell = f"trap : INT; {shlex.join(large)}; echo status $?; read -r line; echo got $line"
    terminal = Terminal(["/bin/sh", "-c", shell], environment, home)
    check.count("a long list by less", terminal.shows(r"name_10030\s+:"), terminal.text())
    check.exchange(terminal, "goes forward", " ", "name_10031")
    check.exchange(terminal, "and ends", "q", r"status 0\s")
    check.exchange(terminal, "in step with the shell", "word\n", "got word")
    check.count("and with its status", terminal.status() == 0)


def shown_text(data: bytes) -> bytes:
    """What a terminal gets in place of the bytes."""
    hidden = "[\0-\x08\x0b-\x1f\x7f-\x9f\u061c\u200e\u200f\u202a-\u202e\u2066-\u2069\udc80-\udcff]"

    def escape(match: re.Match[str]) -> str:
        return "".join(rf"\x{byte:02x}" for byte in match[0].encode(errors="surrogateescape"))

    return re.sub(hidden, escape, data.decode(errors="surrogateescape")).encode()


def random_bytes(generator: random.Random) -> bytes:
    """A line of bytes that are often nearly UTF-8."""
    first = [0x1B, 0x7F, 0xC1, 0xC2, 0xD8, 0xE0, 0xE1, 0xE2, 0xED, 0xEF, 0xF0, 0xF1, 0xF4, 0xF5, 0xFF, 0x0A, 0x41]
    later = [0x7F, 0x80, 0x81, 0x8E, 0x8F, 0x90, 0x9B, 0x9C, 0x9F, 0xA0, 0xA6, 0xAA, 0xAE, 0xBF, 0xC0, 0x20, 0x09]
    parts = (bytes([generator.choice(first), *generator.choices(later, k=generator.randrange(5))]) for _ in range(500))
    return b"".join(parts) + "µ½°π€😀\n".encode()


class StandIn:
    """A copy of qunits whose program writes parts to its streams, each after a pipe has passed on the part before it.

    It ends with a status or by a signal.
    """

    ANNOUNCEMENT = b'Type a quantity, then a unit. ":help" lists the commands, and "quit" ends.\n'
    PROGRAM = """import array, fcntl, os, termios
unread = array.array("i", [0])
for part in open("parts"):
    stream = int(part[0])
    os.write(stream, bytes.fromhex(part[2:]))
    for _ in range(10**5):
        if os.isatty(stream) or fcntl.ioctl(stream, termios.FIONREAD, unread) or not unread[0]:
            break
        os.sched_yield()
end = int(os.environ["END"])
if end < 0:
    os.kill(os.getpid(), -end)
os._exit(end)
"""

    def __init__(self, room: Path):
        self.folder = room / "stand-in"
        (self.folder / "bin").mkdir(parents=True)
        (self.folder / "share").symlink_to(ROOT / "share")
        shutil.copy(QUNITS, self.folder / "bin/qunits")
        program = self.folder / "bin/units"
        program.write_text(f"#!{sys.executable}\n{self.PROGRAM}")
        program.chmod(0o755)
        self.environment = environment_of(self.folder / "home", PATH=path_without(room, "rlwrap"), END="0")

    def set_parts(self, *parts: tuple[int, bytes]) -> None:
        (self.folder / "parts").write_text("".join(f"{stream} {data.hex()}\n" for stream, data in parts))

    def run(self, words: str = "", **more: str) -> tuple[int, bytes]:
        """The status of `qunits WORDS`, and what its terminal shows after the announcement of :help."""
        command = ["/bin/sh", "-c", f"exec bin/qunits {words}"]
        terminal = Terminal(command, {**self.environment, **more}, self.folder)
        status = terminal.status()
        return status, terminal.output.replace(b"\r\n", b"\n").removeprefix(self.ANNOUNCEMENT)

    def run_on_pipes(self, **more: str) -> tuple[int, bytes]:
        """The status of `qunits` without a terminal, and what it writes to both streams."""
        streams = {"stdin": subprocess.DEVNULL, "stdout": subprocess.PIPE, "stderr": subprocess.PIPE}
        done = subprocess.run(["bin/qunits"], cwd=self.folder, env={**self.environment, **more}, **streams)
        return done.returncode, done.stdout + done.stderr


def try_filter(check: Check, program: StandIn, seed: int) -> None:
    """Compares what a terminal shows with Python's decoder, for parts that end at any byte."""
    generator = random.Random(seed)
    not_utf8 = (b"\xe0\x82\x9b", b"\xed\xa0\x80", b"\xf0\x80\x82\x9b", b"\xf4\x90\x80\x80", b"\xe2\x80")
    for data in (*OBEYED, *not_utf8, "µ€😀".encode()):
        program.set_parts(*((1, bytes([byte])) for byte in data))
        result = program.run()
        check.count(f"a byte at a time: {data!r}", result == (0, shown_text(data)), result)
    for _ in range(20):
        data = random_bytes(generator)
        cuts = sorted(generator.sample(range(len(data)), generator.choice((0, 1, 50, 500))))
        program.set_parts(*((1, data[first:last]) for first, last in zip([0, *cuts], [*cuts, len(data)])))
        for words in ("", "--check"):
            result = program.run(words)
            check.count(f"random bytes of seed {seed}: qunits {words}", result == (0, shown_text(data)), (data, result))


def try_streams(check: Check, room: Path, program: StandIn) -> None:
    """Tries the order of the streams, one that is not a terminal, each ending, and a system without perl."""
    numbers = [b"%d\n" % number for number in range(500)]
    program.set_parts(*((1 + place % 2, number) for place, number in enumerate(numbers)))
    result = program.run()
    check.count("the streams in their order", result == (0, b"".join(numbers)), result)
    output, errors = "1 µ\u202e\n".encode(), "2 µ\u202e\n".encode()
    program.set_parts((1, output), (2, errors))
    for words, shown, kept in (("2> file", output, errors), ("> file", errors, output)):
        got = *program.run(words), (program.folder / "file").read_bytes()
        check.count(f"one terminal: {words}", got == (0, shown_text(shown), kept), got)
    for end in (*range(8), *(-number for number in (signal.SIGINT, signal.SIGTERM, signal.SIGSEGV, signal.SIGKILL))):
        status, written = program.run_on_pipes(END=str(end))
        result = program.run(END=str(end))
        is_well = written.startswith(output + errors) and result == (status, shown_text(written))
        check.count(f"a program that ends with {end}", is_well, result)
    without = path_without(room, "rlwrap", "perl")
    status, shown = program.run(PATH=without)
    check.count("without perl", status == 0 and shown.endswith(output + errors), shown)
    check.count("which is said once", shown.count(b"there is no command perl") == 1, shown)
    result = program.run("-q", PATH=without)
    check.count("but not with -q", result == (0, output + errors), result)


def try_keys(check: Check, room: Path, name: str, path: str) -> None:
    """Tries the keys and signals that end a session, and a change of the window."""
    environment = environment_of(room / f"keys {name}", PATH=path)
    for key, status in (("\x03", -signal.SIGINT), ("\x1c", -signal.SIGQUIT), ("\x04", 0)):
        terminal = start(check, f"{name}: before {key!r}", environment)
        terminal.type(key)
        got = terminal.status()
        check.count(f"{name}: {key!r}", got == status, (got, terminal.output))
    for number in (signal.SIGTERM, signal.SIGHUP):
        terminal = start(check, f"{name}: before {number.name}", environment)
        os.killpg(terminal.process, number)
        got = terminal.status()
        check.count(f"{name}: {number.name}", got == -number, got)
    terminal = start(check, f"{name}: before a change of the window", environment)
    fcntl.ioctl(terminal.descriptor, termios.TIOCSWINSZ, struct.pack("HHHH", 50, 60, 0, 0))
    check.exchange(terminal, f"{name}: a line in another window", "1 ft\n", "You want: ")
    check.exchange(terminal, f"{name}: its reply", "m\n", r"\* 0\.3048\s")
    terminal.type("quit\n")
    check.count(f"{name}: the end of it", terminal.status() == 0)


def try_redirection(check: Check, room: Path) -> None:
    """Tries the name of the file that -> without quotes empties, which only /proc has."""
    if not Path("/proc/self/fd").exists():
        print("check_qunits_session: the file of an unquoted -> is skipped, since there is no /proc")
        check.skipped += 1
        return
    done = subprocess.run(["sh", "-c", f"{QUNITS} 5 miles -> km"], cwd=room, stderr=subprocess.PIPE, text=True)
    is_well = f"redirection and emptied {room / 'km'}\n" in done.stderr and "to km\n" in done.stderr
    check.count("the file of an unquoted ->", is_well and done.returncode == 2, done.stderr)


def main() -> None:
    check = Check()
    if not transcripts.program("units"):
        print(f"no session ran: {transcripts.BUILD_FIRST}\n0 passed, 1 failed")
        sys.exit(1)
    if not has_terminals():
        print("check_qunits_session: everything is skipped, since the system has no pseudo-terminal")
        print("0 passed, 0 failed, 1 skipped")
        return
    seed = int(sys.argv[1]) if len(sys.argv) > 1 else random.SystemRandom().randrange(10**6)
    print(f"seed {seed}")
    with tempfile.TemporaryDirectory(prefix="qunits-session-") as folder:
        room = Path(folder)
        if shutil.which("rlwrap"):
            try_editing(check, room)
            try_places(check, room)
            try_statuses(check, room)
            try_hostile_session(check, room, "rlwrap", os.environ["PATH"])
            try_keys(check, room, "rlwrap", os.environ["PATH"])
            try_help(check, room, "rlwrap", os.environ["PATH"])
        else:
            print("check_qunits_session: rlwrap is not installed, so editing, history and completion are skipped")
            check.skipped += 80
        try_plain(check, room)
        try_escapes(check, room)
        try_redirection(check, room)
        try_pager(check, room)
        if shutil.which("perl"):
            program = StandIn(room)
            try_filter(check, program, seed)
            try_streams(check, room, program)
            try_hostile_session(check, room, "no rlwrap", path_without(room, "rlwrap"))
            try_keys(check, room, "no rlwrap", path_without(room, "rlwrap"))
            try_help(check, room, "no rlwrap", path_without(room, "rlwrap"))
            try_lines(check, room)
        else:
            print("check_qunits_session: perl is not installed, so the escapes of sessions are skipped")
            check.skipped += 120
    print(f"{check.passed} passed, {check.failed} failed, {check.skipped} skipped")
    sys.exit(1 if check.failed else 0)


if __name__ == "__main__":
    main()
