#!/usr/bin/env python3
"""Runs shellcheck on every shell script and pyflakes on every Python file that git lists.

    tools/checks/lint_sources.py [FILE..]

The suffix, the first line or a `shellcheck shell=` comment tells the language of a script. A file is skipped if its
linter is not installed. The last line is `N passed, M failed, K skipped`.
"""

from __future__ import annotations

import re
import shutil
import subprocess
import sys
from pathlib import Path

ROOT = Path(__file__).resolve().parents[2]
SHELL = re.compile(rb"#!\s*\S*/(?:env (?:-S )?)?(?:ba|da)?sh\b|# shellcheck shell=")
PYTHON = re.compile(rb"#!.*\bpython3?\b")
SHELLCHECK = [["shellcheck", "--external-sources", "--source-path=SCRIPTDIR"]]
# The first one that is installed is used; both report the same kind of faults.
PYTHON_LINTERS = [["pyflakes3"], ["ruff", "check", "--select", "F", "--quiet"]]


def known_files() -> list[Path]:
    output = subprocess.run(
        ["git", "-C", ROOT, "ls-files", "-z", "--cached", "--others", "--exclude-standard"],
        stdout=subprocess.PIPE,
        check=True,
    )
    names = filter(None, output.stdout.decode().split("\0"))
    files = (ROOT / name for name in names if not name.startswith(("crates/", "wip/")))
    return [file for file in files if file.is_file()]


def scripts_among(files: list[Path]) -> tuple[list[Path], list[Path]]:
    """The shell scripts and the Python files."""
    shell, python = [], []
    for file in files:
        with open(file, "rb") as source:
            head = source.read(200)
        if file.suffix == ".py" or PYTHON.match(head):
            python.append(file)
        elif SHELL.match(head):
            shell.append(file)
    return shell, python


def lint(linters: list[list[str]], files: list[Path]) -> tuple[int, int, int]:
    """The numbers of files that passed, failed and were skipped."""
    if not files:
        return 0, 0, 0
    linter = next((words for words in linters if shutil.which(words[0])), None)
    if not linter:
        names = " or ".join(words[0] for words in linters)
        print(f"lint_sources: {len(files)} files are skipped: {names} is not installed")
        return 0, 0, len(files)
    # In one call, since a linter takes longer to start than to read a file.
    process = subprocess.run([*linter, *files], cwd=ROOT, stdout=subprocess.PIPE, stderr=subprocess.STDOUT, check=False)
    output = process.stdout.decode(errors="replace")
    sys.stdout.write(output)
    failed = sum(1 for file in files if str(file) in output)
    if process.returncode != 0 and failed == 0:
        failed = len(files)
    return len(files) - failed, failed, 0


def main() -> int:
    shell, python = scripts_among([Path(word).resolve() for word in sys.argv[1:]] or known_files())
    results = [lint(SHELLCHECK, shell), lint(PYTHON_LINTERS, python)]
    passed, failed, skipped = (sum(numbers) for numbers in zip(*results))
    print(f"{passed} passed, {failed} failed, {skipped} skipped")
    return 1 if failed else 0


if __name__ == "__main__":
    sys.exit(main())
