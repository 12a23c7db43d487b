#!/usr/bin/env python3
"""Presses Tab in bash with bash-completion, in zsh and in fish, each on a pseudo-terminal, after an install.

    tools/checks/check_completions.py [SHELL..]

tools/install.sh installs into temporary folders: for a user into ~/.local with --setup, and for a system into a stage
of /usr, to which variables of bash-completion and of the shells point. The cases of a shell that is not installed are
skipped. The last line is `N passed, M failed, K skipped`.
"""

from __future__ import annotations

import os
import re
import shutil
import subprocess
import sys
import tempfile
from dataclasses import dataclass
from pathlib import Path

from terminal import Terminal, has_terminals

ROOT = Path(__file__).resolve().parents[2]
BASH_COMPLETION = Path("/usr/share/bash-completion/bash_completion")


@dataclass(frozen=True)
class Shell:
    """A shell, and the commands that give it the prompt `ready>`."""

    name: str
    command: list[str]
    startup: str  # a file below HOME
    commands: str


SHELLS = [
    Shell(
        "bash",
        ["bash", "--noprofile", "--rcfile", ".rc", "-i"],
        ".rc",
        f"PS1='ready> '\nbind 'set enable-bracketed-paste off'\n. {BASH_COMPLETION}\n",
    ),
    Shell(
        "zsh",
        ["zsh", "-i"],
        ".zshrc",
        "PS1='ready> '\nunsetopt prompt_sp\nautoload -U compinit && compinit -u\n",
    ),
    Shell(
        "fish",
        ["fish", "-i"],
        ".config/fish/config.fish",
        "function fish_prompt; echo -n 'ready> '; end\nset -g fish_greeting\nset -g fish_autosuggestion_enabled 0\n",
    ),
]

# The keys before Tab, and a pattern of the completed line. NAME is the name of the program.
OPTIONS = [
    ("NAME --ro", r"NAME --round "),
    ("NAME -t --dig", r"NAME -t --digits"),
    ("NAME -f la", r"NAME -f lab\.units "),
    ("NAME --file=la", r"NAME --file=lab\.units "),
    ("NAME --file=a", r"NAME --file=a\\ file\.units "),
    ("NAME -l en_G", r"NAME -l en_GB "),
    ("NAME --locale=en_G", r"NAME --locale=en_GB "),
    ("qunits --wh", r"qunits --why "),
    ("qunits --strict --file=la", r"qunits --strict --file=lab\.units "),
    ("units-why --capt", r"units-why --captures "),
    ("units-why --buil", r"units-why --built-in "),
    ("units-why --vers", r"units-why --version "),
    ("units-why --lint -f la", r"units-why --lint -f lab\.units "),
    ("units-lint --stat", r"units-lint --statuses "),
    ("units-lint la", r"units-lint lab\.units "),
]
NAMES = [
    ("NAME zincg", r"NAME zincgauge "),
    ('NAME "10 yar', r'NAME "10 yard'),
    ("NAME yd/gall", r"NAME yd/gallon "),
    ("NAME -f lab.units buffer_", r"NAME -f lab\.units buffer_of_the_lab "),
    ("NAME --file=lab.units 5 buffer_", r"NAME --file=lab\.units 5 buffer_of_the_lab "),
    ("NAME -f ~/own.units own_", r"NAME -f ~/own\.units own_unit "),
    ("qunits 1 furlo", r"qunits 1 furlong"),
    ("qunits 60 mile/fortn", r"qunits 60 mile/fortnight"),
    ("units-why 1 furlo", r"units-why 1 furlong"),
    ("qunits -f lab.units 2 buffer_", r"qunits -f lab\.units 2 buffer_of_the_lab "),
]


# Parts of names, each with the quotes in which bash can hold it.
SPECIALS = {
    "`touch${IFS}pwned`": "\"'",
    "$HOME": "\"'",
    "'": '"',
    '"': "\"'",
    "\\": "\"'",
    "!x": "'",
    "&touch<pwned>?{a,b}": "\"'",
    "%=:@_.,": "\"'",
    "\xb5": "\"'",
}
# Parts of names that a terminal obeys instead of showing them, so that bash and fish do not complete these names.
INVISIBLE = ["\x9b5n", "\u202e", "\u2066", "\u200f", "\u061c"]
FILE_SPECIALS = [
    *SPECIALS,
    "two  blanks",
    "\n`touch pwned`\n",
    "\x01",
    "\x1b[5n",
    "\x7f",
    "\x9b5n",
    ";|*[x]#~()",
]


class Tally:
    """The numbers of cases that passed, failed and were skipped."""

    def __init__(self) -> None:
        self.passed = self.failed = self.skipped = 0

    def count(self, is_well: bool, message: str) -> None:
        self.passed += is_well
        self.failed += not is_well
        if not is_well:
            print(f"check_completions: {message}")

    def skip(self, number: int, reason: str) -> None:
        self.skipped += number
        print(f"check_completions: {number} cases are skipped: {reason}")


def is_installed(shell: Shell) -> bool:
    return shutil.which(shell.name) is not None and (shell.name != "bash" or BASH_COMPLETION.exists())


@dataclass(frozen=True)
class Install:
    """An installed program, and the environment and folder of a shell that runs it."""

    kind: str
    name: str
    environment: dict[str, str]
    folder: Path


def try_cases(tally: Tally, shell: Shell, install: Install, cases: list[tuple[str, str]]) -> None:
    """Types each case in one shell."""
    startup = Path(install.environment["HOME"]) / shell.startup
    startup.parent.mkdir(parents=True, exist_ok=True)
    startup.write_text(shell.commands)
    command = [word if word != ".rc" else str(startup) for word in shell.command]
    terminal = Terminal(command, install.environment, install.folder)
    title = f"{shell.name}, {install.kind}, {install.name}"
    try:
        tally.count(terminal.shows("ready> "), f"{title}: no prompt: {terminal.text()!r}")
        for keys, pattern in cases:
            line = keys.replace("NAME", install.name)
            terminal.clear()
            terminal.type(line)
            terminal.shows(re.escape(line[-3:]))
            terminal.type("\t")
            is_well = terminal.shows(pattern.replace("NAME", install.name))
            tally.count(is_well, f"{title}: {line!r} became {terminal.text()!r}")
            terminal.type("\x15")
    finally:
        terminal.close()


def special_names() -> dict[str, str]:
    """A name for each special part, by the letters that it begins with."""
    parts = [*SPECIALS, *INVISIBLE]
    return {f"q{chr(ord('a') + at)}": f"q{chr(ord('a') + at)}{part}z" for at, part in enumerate(parts)}


def make_specials(folder: Path) -> None:
    """Writes a file with those names and one file for each special part of a file name; their values differ."""
    folder.mkdir()
    names = enumerate(special_names().values())
    (folder / "names.units").write_text("m !\n" + "".join(f"{name} {1000 + at} m\n" for at, name in names))
    for at, part in enumerate(FILE_SPECIALS):
        (folder / f"{at:02}{part}z").write_text(f"m !\nhere {1000 + at} m\n")


def try_lines(tally: Tally, shell: Shell, install: Install, lines: list[tuple[str, str, str]]) -> None:
    """Types the keys before Tab and those after it; the output has to match the pattern."""
    command = [word if word != ".rc" else str(Path(install.environment["HOME"]) / shell.startup) for word in shell.command]
    terminal = Terminal(command, install.environment, install.folder)
    before = sorted(os.listdir(install.folder))
    try:
        tally.count(terminal.shows("ready> "), f"{shell.name}: no prompt: {terminal.text()!r}")
        for keys, more_keys, pattern in lines:
            terminal.clear()
            terminal.type(keys)
            terminal.shows(re.escape(keys[-2:]))
            terminal.type("\t")
            if "unknown" not in pattern:
                terminal.shows(f"(?s){keys[-2:]}.*z")
            terminal.type(more_keys)
            is_well = terminal.shows(f"(?s){pattern}.*ready> ")
            tally.count(is_well, f"{shell.name}: {keys!r} and {more_keys!r} became {terminal.output!r}")
            if not is_well:
                terminal.type("\x03")
        after = sorted(os.listdir(install.folder))
        tally.count(before == after, f"{shell.name}: a command ran: {set(after) - set(before)}")
    finally:
        terminal.close()


def special_lines(shell: Shell) -> list[tuple[str, str, str]]:
    """Lines that complete each special name and each special file name. Of names that a quote of bash cannot hold, and
    of those that no terminal shows, the letters stay as they are."""
    lines = []
    names = list(special_names())
    for at, (letters, quotes) in enumerate(zip(names, SPECIALS.values())):
        lines.append((f"units -1 -f names.units {letters}", "\r", rf"Definition: {1000 + at} m"))
        for quote in "\"'":
            is_held = quote in quotes or shell.name != "bash"
            pattern = rf"Definition: {5000 + 5 * at} m" if is_held else f"unknown unit: {letters}\\b"
            lines.append((f"units -1 -f names.units {quote}5 {letters}", "\r" if is_held else f"{quote}\r", pattern))
    if shell.name != "zsh":
        for letters in names[len(SPECIALS) :]:
            lines.append((f"units -1 -f names.units {letters}", "\r", f"unknown unit: {letters}\\b"))
    for at in range(len(FILE_SPECIALS)):
        for option in ("-1 -f ", "-1 --file="):
            lines.append((f"units {option}{at:02}", " here\r", rf"Definition: {1000 + at} m"))
    return lines


def run_install(environment: dict[str, str], *words: str) -> None:
    command = [str(ROOT / "tools/install.sh"), *words]
    process = subprocess.run(command, env=environment, capture_output=True, text=True)
    if process.returncode != 0:
        sys.exit(f"check_completions: {' '.join(command)}: {process.stderr}")


def environment_of(home: Path, programs: Path, **more: str) -> dict[str, str]:
    path = f"{programs}:/usr/local/bin:/usr/bin:/bin"
    home.mkdir(parents=True, exist_ok=True)
    return {"HOME": str(home), "PATH": path, "TERM": "xterm", "LANG": "C.UTF-8", **more}


def make_lab(folder: Path, home: Path) -> None:
    folder.mkdir()
    (folder / "lab.units").write_text("m !\nbuffer_of_the_lab 3 m\n")
    (folder / "a file.units").write_text("m !\n")
    (home / "own.units").write_text("m !\nown_unit 3 m\n")


def try_user(tally: Tally, room: Path) -> None:
    """Tries an install into ~/.local with --setup."""
    home = room / "home"
    environment = environment_of(home, home / ".local/bin")
    make_lab(room / "lab", home)
    run_install(environment, "--setup")
    user = Install("for a user", "units", environment, room / "lab")
    make_specials(room / "specials")
    specials = Install("for a user", "units", environment, room / "specials")
    for shell in SHELLS:
        cases = OPTIONS + NAMES
        if is_installed(shell):
            try_cases(tally, shell, user, cases)
            try_lines(tally, shell, specials, special_lines(shell))
        else:
            number = len(cases) + len(special_lines(shell)) + 3
            tally.skip(number, f"{shell.name} or its bash-completion is not installed")


def try_system(tally: Tally, room: Path, name: str) -> None:
    """Tries a staged install into /usr, which the shells find as if it were in its place."""
    stage = room / f"stage of {name}"
    share = stage / "usr/share"
    environment = environment_of(
        room / f"home of {name}",
        stage / "usr/bin",
        DESTDIR=str(stage),
        XDG_DATA_DIRS=f"{share}:/usr/share",
        BASH_COMPLETION_COMPAT_DIR=str(stage / "etc/bash_completion.d"),
    )
    run_install(environment, "--prefix", "/usr", "--name", name)
    system = Install("for a system", name, environment, room / "lab")
    folders = " ".join(f"'{folder}'" for folder in sorted(share.glob("zsh/*")))
    cases = [OPTIONS[0], OPTIONS[2], OPTIONS[7], NAMES[0], NAMES[6]]
    for shell in SHELLS:
        if not is_installed(shell):
            tally.skip(len(cases) + 1, f"{shell.name} is not installed")
            continue
        if shell.name == "zsh":
            shell = Shell("zsh", shell.command, shell.startup, f"fpath=({folders} $fpath)\n" + shell.commands)
        try_cases(tally, shell, system, cases)


def try_claim(tally: Tally, room: Path) -> None:
    """Checks that bash-completion claims `units`; otherwise the other cases show nothing."""
    if not BASH_COMPLETION.exists():
        tally.skip(1, "bash-completion is not installed")
        return
    environment = environment_of(room / "empty", room, BASH_COMPLETION_COMPAT_DIR=str(room))
    command = ["bash", "--norc", "-ic", f". {BASH_COMPLETION}; complete -p units"]
    claim = subprocess.run(command, env=environment, capture_output=True, text=True).stdout
    tally.count("_longopt" in claim, f"bash-completion does not claim units any more: {claim!r}")


def main() -> None:
    tally = Tally()
    if not has_terminals():
        print("check_completions: everything is skipped, since the system has no pseudo-terminal")
        print("0 passed, 0 failed, 1 skipped")
        return
    SHELLS[:] = [shell for shell in SHELLS if shell.name in sys.argv[1:] or not sys.argv[1:]]
    room = Path(tempfile.mkdtemp(prefix="completions-"))
    try:
        try_user(tally, room)
        try_system(tally, room, "units")
        try_system(tally, room, "exact-units")
        try_claim(tally, room)
    finally:
        # Fish may still write its own completions there.
        shutil.rmtree(room, ignore_errors=True)
    print(f"{tally.passed} passed, {tally.failed} failed, {tally.skipped} skipped")
    sys.exit(1 if tally.failed else 0)


if __name__ == "__main__":
    main()
