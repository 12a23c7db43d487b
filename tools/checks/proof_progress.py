"""Runs `rt ci` and shows its progress: the crates that are being proved, how many are done, and the time so far."""

from __future__ import annotations

import os
import re
import subprocess
import sys
import threading
import time
from collections.abc import Callable
from dataclasses import dataclass, field
from pathlib import Path
from typing import TypeVar

T = TypeVar("T")
PERIOD = 60.0  # seconds between two lines of progress
PROOF_BYTES = 4 << 30  # more than the memory of any proof
PROVED = re.compile(r"rt: (\w+) (?:proved|is kept: .*)")
# The lines of rt to show; the rest is one line for each function.
SUMMARY = re.compile(r"rt: |error|\d+ passed, ")


@dataclass
class Progress:
    """The number of crates, the start, and the crates whose proof is done."""

    crates: int
    begin: float = field(default_factory=time.monotonic)
    proved: set[str] = field(default_factory=set)

    def read(self, line: str) -> None:
        match = PROVED.match(line)
        if match:
            self.proved.add(match[1])

    def line(self, running: list[str]) -> str:
        minutes, seconds = divmod(int(time.monotonic() - self.begin), 60)
        now = ", ".join(running) if running else "nothing"
        return f"[{minutes}:{seconds:02} min] {len(self.proved)} of {self.crates} crates proved; now: {now}"


def number_of_crates(root: Path) -> int:
    lines = (root / "crates.txt").read_text().splitlines()
    return sum(1 for line in lines if line.partition("#")[0].strip())


def is_descendant(process: str, ancestor: int) -> bool:
    """Whether a process descends from another one."""
    while process not in ("0", "1"):
        if process == str(ancestor):
            return True
        status = Path("/proc", process, "stat").read_text()
        process = status.rpartition(")")[2].split()[1]
    return False


def work_below(ancestor: int) -> list[str]:
    """The crates on which the provers started by a process are working."""
    names = set()
    for process in filter(str.isdigit, os.listdir("/proc")):
        try:
            words = Path("/proc", process, "cmdline").read_bytes().decode(errors="replace").split("\0")
            if not words[0].endswith("/rattle") or "--crate-name" not in words or not is_descendant(process, ancestor):
                continue
        except OSError:
            continue
        names.add(words[words.index("--crate-name") + 1])
    return sorted(names)


def number_in(path: str, pattern: str) -> int | None:
    """The number in a file of the system, or None without the file or the number."""
    try:
        match = re.search(pattern, Path(path).read_text())
    except OSError:
        return None
    return int(match[1]) if match else None


def proofs_side_by_side() -> int:
    """One for each processor, or fewer if the memory is small. A control group may have less of both."""
    processors = len(os.sched_getaffinity(0))
    quota, period = (number_in("/sys/fs/cgroup/cpu.max", pattern) for pattern in (r"^(\d+) ", r" (\d+)$"))
    if quota and period:
        processors = min(processors, quota // period)
    memory = 1024 * (number_in("/proc/meminfo", r"MemAvailable:\s+(\d+)") or 0)
    memory = min(memory, number_in("/sys/fs/cgroup/memory.max", r"^(\d+)$") or memory)
    return max(1, min(processors, memory // PROOF_BYTES))


def environment() -> dict[str, str]:
    """The variables of `rt ci`. RT_JOBS, unless it is set, gives each proof one process: if rt divides a proof among
    three, it ends sooner, but takes twice the processor time."""
    return {"RT_JOBS": str(proofs_side_by_side()), **os.environ}


def show_periodically(progress: Progress, process: int, end: threading.Event) -> None:
    while not end.wait(PERIOD):
        print(progress.line(work_below(process)), flush=True)


def prove(root: Path, crates: list[str], result_of: Callable[[str, int], T]) -> T:
    """The result of `rt ci` on these crates, or on all. Its whole output goes to out/rt-ci.log; if it fails, the end of
    that is shown too."""
    (root / "out").mkdir(exist_ok=True)
    log = root / "out/rt-ci.log"
    progress = Progress(number_of_crates(root))
    print(f"== proofs and runs (the whole output: {log.relative_to(root)})", flush=True)
    try:
        process = subprocess.Popen(
            ["rt", "ci", *crates], cwd=root, env=environment(),
            stdin=subprocess.DEVNULL, stdout=subprocess.PIPE, stderr=subprocess.STDOUT,
        )
    except OSError as fault:
        print(f"rt ci: {fault}")
        return result_of("", 127)
    end, lines = threading.Event(), []
    watcher = threading.Thread(target=show_periodically, args=(progress, process.pid, end), daemon=True)
    watcher.start()
    with open(log, "w") as file:
        for data in process.stdout:
            line = data.decode(errors="replace")
            file.write(line)
            lines.append(line)
            progress.read(line)
            if SUMMARY.match(line):
                sys.stdout.write(line)
                sys.stdout.flush()
    status = process.wait()
    end.set()
    if status != 0:
        print("".join(["rt ci failed; the end of its output:\n", *lines[-200:]]), end="")
    print(progress.line([]), flush=True)
    return result_of(lines[-1].strip() if lines else "", status)
