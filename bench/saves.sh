#!/usr/bin/env bash
# Times `:save` in a session to a new file, with the write to the disk, over decks of 25,000, 50,000 and 100,000 lines
# `u_i C u_j`, and a load of the saved file. Prints the milliseconds of a save by the processor and by the clock: the
# lowest of five sessions of 20 saves, less the lowest of five without saves.
#   bench/saves.sh
set -u
root=$(cd "$(dirname "${BASH_SOURCE[0]}")/.." && pwd)
program=$("$root/tools/built.sh" units) || exit
exec python3 - "$program" <<'PYTHON'
import os
import resource
import subprocess
import sys
import tempfile
import time
from pathlib import Path

PROGRAM = sys.argv[1]
SAVES = 20


def busy():
    usage = resource.getrusage(resource.RUSAGE_CHILDREN)
    return usage.ru_utime + usage.ru_stime


def session_times(deck, lines):
    """The lowest milliseconds of five sessions, by the processor and by the clock."""
    text = "".join(line + "\n" for line in lines).encode()
    rounds = []
    for _ in range(5):
        start, busy_before = time.perf_counter(), busy()
        process = subprocess.run([PROGRAM, "-q", "-f", deck], input=text, stdout=subprocess.PIPE, check=False)
        rounds.append(((busy() - busy_before) * 1e3, (time.perf_counter() - start) * 1e3))
        if process.returncode != 0 or process.stdout != b"":
            sys.exit(f"{lines}: status {process.returncode}, {process.stdout[-200:]!r}")
    return [min(row) for row in zip(*rounds)]


def say(title, times):
    print(f"{title:44} {times[0]:8.1f} ms of the processor {times[1]:8.1f} ms passed", flush=True)


with tempfile.TemporaryDirectory() as folder:
    os.chdir(folder)
    for count in [25_000, 50_000, 100_000]:
        text = "".join(["u_0 !\n", *(f"u_{i} {1 + i % 3} u_{i // 2}\n" for i in range(1, count))])
        Path("deck").write_text(text)
        loading = session_times("deck", [])
        say(f"{count} lines, loaded", loading)
        save_times = session_times("deck", [f":save saved-{i}" for i in range(SAVES)])
        say("  saved", [(a - b) / SAVES for a, b in zip(save_times, loading)])
        if any(Path(f"saved-{i}").read_text() != text for i in range(SAVES)):
            sys.exit("what was saved is not what was loaded")
        say("  what was saved, loaded", session_times("saved-0", []))
PYTHON
