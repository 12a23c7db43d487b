#!/usr/bin/env python3
"""Runs the transcripts of tests/ and the examples of the manual with the built programs, and shows the differences.

    tools/checks/transcripts.py [FILE..]

A transcript has the format of cram. A line that is not indented is a comment. `  $ COMMAND` begins a case, `  > TEXT`
continues its command, and the other lines that are indented by two blanks are its output on both streams, with `
[STATUS]` last if its status is not 0. A line that ends in ` (esc)` has Python's escapes for bytes that do not print, a
line that ends in ` (no-eol)` has no line feed, ` (glob)` allows `*` and `?`, and ` (re)` is a regular expression.

The commands of a file run in one shell, in a new folder, with empty input. The proved programs of the repository and
the scripts of bin/ are on its PATH. BUILTIN is a file with the built-in definitions, LIBRARY is the standard library of
definitions, CLONE the top of the repository. Each difference is shown. A file that uses a program that is not built is
named and skipped; if that leaves no file, the run has failed. The last line is `N passed, M failed, K skipped`, which
counts cases.
"""

import difflib
import fnmatch
import os
import re
import secrets
import signal
import subprocess
import sys
import tempfile
from concurrent.futures import ThreadPoolExecutor
from dataclasses import dataclass, field
from pathlib import Path

ROOT = Path(__file__).resolve().parents[2]
TESTS = ROOT / "tests"
MANUAL = ROOT / "share/man/man1"
BUILT_IN = ROOT / "crates/deck/src/built_in.rt"
LIBRARY = ROOT / "share/units/standard.units"
BUILT = ROOT / "tools/built.sh"
# The commands of bin/ other than units, each with the program that it runs.
COMMANDS = {"qunits": "units", "units-lint": "units", "units-why": "units_why"}
BUILD_FIRST = "run bin/check --try, which builds the programs without proofs, or bin/test, which proves them"
SECONDS = 900  # limit for the commands of a file, which only stops a run that hangs
INDENT = b"  "
UNPRINTABLE = re.compile(rb"[\x00-\x09\x0b-\x1f\x7f-\xff]")
STATUS = re.compile(rb"\[[0-9]+\]\n?")
ESCAPED, UNENDED = b" (esc)\n", b" (no-eol)\n"


@dataclass
class Case:
    """A command, its line number, its expected output, and the comments that follow."""

    at: int
    command: list[bytes] = field(default_factory=list)
    expected: list[bytes] = field(default_factory=list)
    comments: list[bytes] = field(default_factory=list)

    def lines(self):
        first, *rest = self.command
        return [INDENT + b"$ " + first, *(INDENT + b"> " + line for line in rest)]


def read_cases(text):
    """The comments at the head of a transcript, and its cases."""
    head, cases = [], []
    for at, line in enumerate(text.splitlines(keepends=True), 1):
        line = line.removesuffix(b"\n") + b"\n"
        case = cases[-1] if cases else None
        if line.startswith(INDENT + b"$ "):
            cases.append(Case(at, [line[4:]]))
        elif not line.startswith(INDENT) or case is None:
            (case.comments if case else head).append(line)
        elif case.comments:
            raise ValueError(f"line {at} is indented, and no command precedes it")
        elif line.startswith(INDENT + b"> ") and not case.expected:
            case.command.append(line[4:])
        else:
            case.expected.append(line[2:])
    return head, cases


def script_of(cases, salt):
    """The commands, each followed by one that prints the salt and the status."""
    return b"".join(b"".join(case.command) + b"echo " + salt + b" $?\n" for case in cases)


def answers_in(output, salt):
    """The output and the status of each command that ended."""
    *parts, _ = re.split(re.escape(salt) + rb" ([0-9]+)\n", output)
    return list(zip(parts[::2], map(int, parts[1::2])))


def escape(line):
    """A line in the form of a transcript."""
    if not UNPRINTABLE.search(line):
        return line
    return line.removesuffix(b"\n").decode("latin-1").encode("unicode_escape") + ESCAPED


def transcript_lines(text, status):
    """The lines of a transcript for the output and the status of a command."""
    lines = [escape(line) for line in text.split(b"\n")]
    last = lines.pop()
    lines = [line if line.endswith(b"\n") else line + b"\n" for line in lines]
    if last:
        lines.append(last.removesuffix(b"\n") + UNENDED)
    return lines + [b"[%d]\n" % status] * (status != 0)


def matches(expected, line):
    """Whether an expected line of a transcript matches a line of `transcript_lines`."""
    if expected == line or escape(expected) == line:
        return True
    if expected.endswith(ESCAPED):
        try:
            plain = expected.removesuffix(ESCAPED).decode("unicode_escape").encode("latin-1")
        except ValueError:
            return False
        return escape(plain + b"\n") == line
    for mark, pattern in [(b" (glob)\n", fnmatch.translate), (b" (re)\n", str)]:
        if expected.endswith(mark) and not STATUS.fullmatch(line):
            text = expected.removesuffix(mark).decode(errors="surrogateescape")
            line_text = line.removesuffix(b"\n").decode(errors="surrogateescape")
            return re.fullmatch(pattern(text), line_text) is not None
    return False


def merge(expected, lines):
    """The lines of the output; a line that matches an expected one is replaced by it."""
    merged, remaining = [], expected
    for line in lines:
        at = next((i for i, candidate in enumerate(remaining) if matches(candidate, line)), None)
        merged.append(line if at is None else remaining[at])
        remaining = remaining if at is None else remaining[at + 1 :]
    return merged


def names_of_programs():
    """The names of the repository's programs, in the order of crates.txt."""
    for line in (ROOT / "crates.txt").read_text().splitlines():
        name = line.partition("#")[0].partition(":")[0].split()[:1]
        if name and (ROOT / "crates" / name[0] / "src/main.rt").exists():
            yield name[0]


def program(name):
    """The path of a proved program of the present sources, or None."""
    process = subprocess.run([BUILT, name], stdout=subprocess.PIPE, stderr=subprocess.DEVNULL, check=False)
    return Path(process.stdout.decode().strip()) if process.returncode == 0 else None


def link_programs(folder):
    """Links the programs and the commands of bin/ into a folder, and returns the programs that are not built."""
    missing = set()
    for name in names_of_programs():
        path = program(name)
        if path:
            (folder / name).symlink_to(path)
        else:
            missing.add(name)
    for command in COMMANDS:
        if (ROOT / "bin" / command).exists():
            (folder / command).symlink_to(ROOT / "bin" / command)
    return missing


def absent_programs(cases, missing):
    """The programs that the commands use and that are not built."""
    script = b"\n".join(line for case in cases for line in case.command).decode(errors="replace")
    words = set(re.findall(r"(?<![\w./-])[\w.-]+", script))
    words |= {COMMANDS[word] for word in words & set(COMMANDS)}
    return sorted(words & missing)


def used_programs():
    """The programs that all transcripts and examples use, in the order of crates.txt."""
    names = set(names_of_programs())
    used = {name for file in all_files() for name in absent_programs(read_cases(file.read_bytes())[1], names)}
    return [name for name in names_of_programs() if name in used]


def all_files():
    return [*sorted(TESTS.glob("*.t")), *sorted(MANUAL.glob("*.1"))]


def built_in():
    """The built-in definitions: the only literal of their file, in which each backslash is doubled."""
    literal = re.search(rb' = b"(.*?)^";$', BUILT_IN.read_bytes(), re.DOTALL | re.MULTILINE)
    return literal.group(1).replace(rb"\\", b"\\")


def run_shell(script, room, path):
    """The output of the shell on both streams, and why it was stopped, if it was."""
    (room / "script").write_bytes(script)
    work = room / "work"
    work.mkdir()
    environment = {
        "PATH": f"{path}:{os.environ.get('PATH', os.defpath)}",
        "BUILTIN": str(path.parent / "builtin.units"),
        "LIBRARY": str(LIBRARY),
        "CLONE": str(ROOT),
        "PYTHONDONTWRITEBYTECODE": "1",
        "HOME": str(work),
        "TMPDIR": str(work),
        "LANG": "C",
        "LC_ALL": "C",
        "TZ": "GMT",
    }
    with open(room / "output", "wb+") as output:
        shell = subprocess.Popen(
            ["/bin/sh", room / "script"],
            cwd=work,
            env=environment,
            stdin=subprocess.DEVNULL,
            stdout=output,
            stderr=subprocess.STDOUT,
            start_new_session=True,
        )
        reason = None
        try:
            shell.wait(timeout=SECONDS)
        except subprocess.TimeoutExpired:
            reason = f"had not ended after {SECONDS} seconds"
        finally:
            try:
                os.killpg(shell.pid, signal.SIGKILL)
            except ProcessLookupError:
                pass
            shell.wait()
        output.seek(0)
        return output.read(), reason


@dataclass
class Report:
    """The differences of a transcript, and how many of its cases passed, failed and were skipped."""

    text: bytes = b""
    passed: int = 0
    failed: int = 0
    skipped: int = 0


def compare(name, head, cases, answers):
    """The report on the cases that have an answer."""
    expected, actual, failed = list(head), list(head), 0
    for case, (text, status) in zip(cases, answers):
        lines = merge(case.expected, transcript_lines(text, status))
        failed += lines != case.expected
        expected += [*case.lines(), *(INDENT + line for line in case.expected), *case.comments]
        actual += [*case.lines(), *(INDENT + line for line in lines), *case.comments]
    files = name.encode(), b"output"
    difference = difflib.diff_bytes(difflib.unified_diff, expected, actual, *files)
    return Report(b"".join(difference), len(answers) - failed, failed)


def run_file(file, path, unbuilt):
    """Runs a transcript and returns the report on it."""
    name = os.path.relpath(file, ROOT)
    try:
        head, cases = read_cases(file.read_bytes())
    except (OSError, ValueError) as fault:
        return Report(f"{name}: {fault}\n".encode(), failed=1)
    if not cases:
        return Report(f"{name}: there is no case\n".encode(), failed=1)
    missing = absent_programs(cases, unbuilt)
    if missing:
        text = f"{name}: skipped, since {' and '.join(missing)} is not built; tools/build.sh builds a program\n"
        return Report(text.encode(), skipped=len(cases))
    salt = b"transcript-" + secrets.token_hex(8).encode()
    with tempfile.TemporaryDirectory(prefix="transcript-") as room:
        output, reason = run_shell(script_of(cases, salt), Path(room), path)
    answers = answers_in(output, salt)
    report = compare(name, head, cases, answers)
    unanswered = cases[len(answers) :]
    if unanswered:
        why = reason or "ended the shell, or is incomplete"
        text = f"{name}: the command in line {unanswered[0].at} {why}; {len(unanswered)} cases have no answer\n"
        report.text += text.encode()
        report.failed += len(unanswered)
    return report


def main():
    files = [Path(word).resolve() for word in sys.argv[1:]]
    files = files or all_files()
    total = Report()
    with tempfile.TemporaryDirectory(prefix="transcripts-") as folder:
        path = Path(folder) / "programs"
        path.mkdir()
        missing = link_programs(path)
        (path.parent / "builtin.units").write_bytes(built_in())
        with ThreadPoolExecutor(os.cpu_count()) as pool:
            for report in pool.map(lambda file: run_file(file, path, missing), files):
                sys.stdout.buffer.write(report.text)
                sys.stdout.flush()
                total.passed += report.passed
                total.failed += report.failed
                total.skipped += report.skipped
    if not files:
        print(f"no transcripts in {TESTS}")
        total.failed = 1
    elif not total.passed and not total.failed:
        print(f"no case ran: {BUILD_FIRST}")
        total.failed = 1
    print(f"{total.passed} passed, {total.failed} failed, {total.skipped} skipped")
    sys.exit(1 if total.failed else 0)


if __name__ == "__main__":
    main()
