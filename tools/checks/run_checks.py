#!/usr/bin/env python3
"""Runs the checks of the repository and adds up how many cases passed, failed and were skipped.

    bin/check [CRATE..]    the checks that need no proof; then `rt ci CRATE..`, if crates are named
    bin/check --try        the checks that run a program, in a copy, with programs that are built without proofs
    bin/test               the gate: every proof and test, the must-fail edits, then the checks, with the programs built

Each check is a command whose last line is `N passed, M failed` or `N passed, M failed, K skipped`. A check that ends
with another line, that has no case, or whose status disagrees with that line, counts as one more failure. The last line
has the sums, and the status is 0 if nothing failed and else 1.
"""

from __future__ import annotations

import os
import re
import resource
import shutil
import subprocess
import sys
import tempfile
import time
from concurrent.futures import ThreadPoolExecutor
from dataclasses import dataclass
from pathlib import Path

sys.path.insert(0, str(Path(__file__).resolve().parent))
from proof_progress import prove  # noqa: E402
from transcripts import used_programs  # noqa: E402

ROOT = Path(__file__).resolve().parents[2]
WORKERS = 4  # even on two processors, since the checks on terminals mostly wait
RESULT = re.compile(r"(\d+) passed, (\d+) failed(?:, (\d+) skipped)?")


@dataclass(frozen=True)
class Check:
    """A check: its name, and its command relative to the top of the repository."""

    name: str
    command: tuple[str, ...]
    runs_program: bool = False

    def exists(self) -> bool:
        return (ROOT / self.command[0]).exists()


@dataclass(frozen=True)
class Result:
    """How many cases passed, failed and were skipped."""

    passed: int = 0
    failed: int = 0
    skipped: int = 0

    def __add__(self, other: Result) -> Result:
        return Result(self.passed + other.passed, self.failed + other.failed, self.skipped + other.skipped)

    def __str__(self) -> str:
        return f"{self.passed} passed, {self.failed} failed, {self.skipped} skipped"


# The longest checks come first.
QUICK = [
    Check("transcripts", ("tools/checks/transcripts.py",), runs_program=True),
    Check("Python package", ("tools/checks/check_python.py",)),
    Check("statuses", ("tools/checks/check_statuses.sh",), runs_program=True),
    Check("launcher", ("tools/checks/check_launcher.sh",)),
    Check("archive of the C library", ("tools/checks/check_c_archive.sh",)),
    Check("library", ("tools/checks/check_library.sh",), runs_program=True),
    Check("install", ("tools/checks/check_install.sh",)),
    Check("completions", ("tools/checks/check_completions.py",)),
    Check("sessions of qunits", ("tools/checks/check_qunits_session.py",), runs_program=True),
    Check("recipes", ("tools/checks/check_recipes.sh",), runs_program=True),
    Check("GNU import", ("tools/checks/check_import_gnu.sh",)),
    Check("GNU page", ("tools/checks/check_gnu_page.py",)),
    Check("page on other converters", ("tools/checks/check_why_page.py",), runs_program=True),
    Check("package", ("tools/checks/check_package.sh",)),
    Check("Vim files", ("tools/checks/check_vim.sh",)),
    Check("sources", ("tools/checks/lint_sources.py",)),
    Check("definitions", ("tools/checks/definitions.py",)),
    Check("public calls", ("tools/checks/check_surface.py",)),
    Check("changed statements", ("tools/checks/check_clauses.py",)),
    Check("documents", ("tools/checks/check_documents.py",)),
    Check("pictures", ("tools/draw_pictures.py", "--check"), runs_program=True),
    Check("record of tests", ("tools/checks/tested.py",)),
    Check("record of measurements", ("bench/record.py", "--check")),
]
# These need all processors.
ALONE = [Check("must-fail edits", ("tools/checks/check_must_fail.py",))]
AFTER_PROOFS = [
    Check("C library", ("tools/checks/check_c_library.sh",)),
    Check("stack", ("tools/checks/check_stack.sh",)),
    Check("out of memory", ("tools/checks/check_memory.sh",)),
    Check("out of memory in edits", ("tools/checks/check_edits.py",)),
    Check("trees of units-why", ("tools/checks/check_why.py",)),
    Check("random trees of units-why", ("tools/checks/check_why_random.py",)),
    Check("language server", ("tools/checks/check_lsp.py",)),
    Check("static program", ("tools/checks/check_static.sh",)),
    Check("web page", ("tools/checks/check_web.sh",)),
    Check("release", ("tools/release/release.sh", "--compare")),
]


def last_line(output: str) -> str:
    lines = output.splitlines()
    return lines[-1] if lines else ""


def result_of(output: str, status: int) -> Result:
    """The result in the last line of a check, with one more failure if it has no case or the status disagrees."""
    match = RESULT.fullmatch(last_line(output))
    if not match:
        return Result(failed=1)
    result = Result(*(int(number or 0) for number in match.groups()))
    agrees = (status == 0) == (result.failed == 0)
    return result if agrees and result != Result() else result + Result(failed=1)


@dataclass(frozen=True)
class Run:
    """A check that ended: its output, its result, and its time by the clock and of the processor, in seconds."""

    output: str
    result: Result
    seconds: float
    processor_seconds: float


def run(check: Check, top: Path) -> Run:
    begin, processor_seconds = time.monotonic(), 0.0
    try:
        process = subprocess.Popen(
            [top / check.command[0], *check.command[1:]],
            cwd=top,
            stdin=subprocess.DEVNULL,
            stdout=subprocess.PIPE,
            stderr=subprocess.STDOUT,
        )
    except OSError as fault:
        output, status = f"{check.command[0]}: {fault}\n", 127
    else:
        output = process.stdout.read().decode(errors="replace")
        _, wait_status, usage = os.wait4(process.pid, 0)
        process.returncode = status = os.waitstatus_to_exitcode(wait_status)
        processor_seconds = usage.ru_utime + usage.ru_stime
    return Run(output, result_of(output, status), time.monotonic() - begin, processor_seconds)


def run_all(checks: list[Check], workers: int, top: Path = ROOT) -> tuple[Result, list[str]]:
    """The sum of all results of the checks in a copy of the repository, and the names of the checks that failed."""
    total, failures = Result(), []
    with ThreadPoolExecutor(workers) as pool:
        for check, done in zip(checks, pool.map(lambda check: run(check, top), checks)):
            print(f"== {check.name} ({done.seconds:.0f} s, {done.processor_seconds:.0f} s of the processor)")
            print(done.output, end="" if done.output.endswith("\n") else "\n", flush=True)
            total += done.result
            if done.result.failed:
                failures.append(check.name)
    return total, failures


def quick_checks() -> list[Check]:
    return [check for check in QUICK if check.exists()]


def check_quickly(crates: list[str]) -> tuple[Result, list[str]]:
    print("bin/check: every check that needs no proof; about a minute on two processors", flush=True)
    total, failures = run_all(quick_checks(), WORKERS)
    if crates:
        print(f"bin/check: rt ci {' '.join(crates)}; minutes to an hour, with the crates below these", flush=True)
        result = prove(ROOT, crates, result_of_proofs)
        total, failures = total + result, failures + ["proofs"] * (result.failed > 0)
    return total, failures


def copy_repository(top: Path) -> None:
    """Copies the files of the working tree but the released programs and the proofs, with their times."""
    command = ["git", "ls-files", "-z", "--cached", "--others", "--exclude-standard"]
    names = subprocess.run(command, cwd=ROOT, stdout=subprocess.PIPE, check=True).stdout.decode().split("\0")
    for name in filter(None, names):
        if not re.match(r"release/units-|crates/\w+/proofs/", name) and (ROOT / name).is_file():
            (top / name).parent.mkdir(parents=True, exist_ok=True)
            shutil.copy2(ROOT / name, top / name)


def check_unproved() -> tuple[Result, list[str]]:
    """Runs the checks that need a program in a copy of the repository with unproved programs as the built ones."""
    print("bin/check --try: builds each changed program without proofs, in some three processor minutes, and runs it")
    with tempfile.TemporaryDirectory(prefix="units-try-") as folder:
        top = Path(folder)
        copy_repository(top)
        for name in used_programs():
            print(f"building {name}", flush=True)
            command = [ROOT / "tools/checks/unproved.sh", name]
            built = subprocess.run(command, stdin=subprocess.DEVNULL, stdout=subprocess.PIPE, check=False)
            if built.returncode:
                return Result(failed=1), [f"build of {name}"]
            (top / "crates" / name / "out").mkdir()
            shutil.copy(built.stdout.decode().strip(), top / "crates" / name / "out" / name)
        total, failures = run_all([check for check in QUICK if check.runs_program], WORKERS, top)
    print("nothing was proved: these programs were built without proofs")
    return total, failures


def check_all() -> tuple[Result, list[str]]:
    print("bin/test: proves every crate, tries the edits that must be refused, and runs every check.")
    print("70 processor minutes from nothing on a fast machine (34 by the clock), 4 if proofs are kept", flush=True)
    total = prove(ROOT, [], result_of_proofs)
    failures = ["proofs"] if total.failed else []
    minutes = [processor_minutes()]
    checks = quick_checks() + [check for check in AFTER_PROOFS if check.exists()]
    for group, workers in ((ALONE, 1), (checks, WORKERS)):
        result, names = run_all(group, workers)
        total, failures = total + result, failures + names
        minutes.append(processor_minutes())
    proofs, edits, others = (after - before for before, after in zip([0.0, *minutes], minutes))
    print(f"processor minutes: {proofs:.1f} for proofs, {edits:.1f} for must-fail edits, {others:.1f} for other checks")
    print(f"processor minutes in all: {minutes[-1]:.1f}")
    return total, failures


def processor_minutes() -> float:
    """The processor time of all processes that ended so far below this one."""
    usage = resource.getrusage(resource.RUSAGE_CHILDREN)
    return (usage.ru_utime + usage.ru_stime) / 60


def result_of_proofs(last: str, status: int) -> Result:
    """The result in the last line of `rt ci`, which for named crates ends with a remark."""
    match = RESULT.match(last)
    if not match:
        return Result(failed=1)
    result = Result(int(match[1]), int(match[2]))
    return result if (status == 0) == (result.failed == 0) else result + Result(failed=1)


def main() -> int:
    mode, *crates = sys.argv[1:] or ["--help"]
    tries = mode == "check" and crates == ["--try"]
    is_known = mode in ("check", "test") and not (mode == "test" and crates)
    if not is_known or (any(word.startswith("-") for word in crates) and not tries):
        print(__doc__.strip(), file=sys.stderr)
        return 2
    os.chdir(ROOT)
    if (mode == "test" or crates) and not shutil.which("rt"):
        print("this needs the toolchain, and there is no command rt: see CONTRIBUTING.md", file=sys.stderr)
        if mode == "check":
            return 127
    if tries:
        total, failures = check_unproved()
    else:
        total, failures = check_quickly(crates) if mode == "check" else check_all()
    for name in failures:
        print(f"failed: {name}")
    print(total)
    return 1 if total.failed else 0


if __name__ == "__main__":
    sys.exit(main())
