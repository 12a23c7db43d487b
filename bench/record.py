#!/usr/bin/env python3
"""Runs measurements and writes their results into bench/README.md.

    bench/record.py [SCRIPT..]   runs bench/SCRIPT.sh (by default all), saves each output in bench/results, and writes
                                 the page
    bench/record.py --write      writes the page from the saved outputs
    bench/record.py --check      compares the page with the saved outputs; the last line is `N passed, M failed`

Run it on an idle machine; each output begins with the processor and the load at its start. The output of a script that
fails is not saved. Status 1 with an output means that a bound is exceeded; that output is saved.
"""

from __future__ import annotations

import os
import re
import subprocess
import sys
from datetime import date
from pathlib import Path

sys.path.insert(0, str(Path(__file__).resolve().parent))
from tables import shown  # noqa: E402

FOLDER = Path(__file__).resolve().parent
RESULTS = FOLDER / "results"
PAGE = FOLDER / "README.md"
HEAD = """# Measurements

`bench/record.py` writes this page from the last output of each script; do not edit it. The tables have the time by \
the processor if a script measures it, else by the clock, and the largest size of `scaling.sh`; `bench/results` has the \
full outputs. Times vary by a third from run to run and by more between machines, so compare the columns of one run: a \
script that compares programs runs them in turns.
"""


def scripts() -> list[str]:
    return sorted(path.stem for path in FOLDER.glob("*.sh"))


def purpose_of(name: str) -> str:
    """The comment at the head of a script, up to the usage."""
    lines = (FOLDER / f"{name}.sh").read_text().splitlines()[1:]
    comment = []
    for line in lines:
        if not line.startswith("# ") or line.startswith("#   "):
            break
        comment.append(line[2:])
    return " ".join(comment)


def machine() -> str:
    model = re.search(r"^model name\s*: (.*)$", Path("/proc/cpuinfo").read_text(), re.MULTILINE)
    processor = model.group(1) if model else "unknown processor"
    return f"{date.today()}, {processor}, {os.cpu_count()} processors, load {os.getloadavg()[0]:.1f}"


def record(name: str) -> bool:
    """Runs a script and saves its output. Returns False if it fails."""
    head = machine()
    process = subprocess.run([FOLDER / f"{name}.sh"], stdout=subprocess.PIPE, check=False)
    if process.returncode > 1 or process.returncode < 0 or not process.stdout:
        print(f"{name}.sh ended with status {process.returncode}; its last output is kept", file=sys.stderr)
        return False
    RESULTS.mkdir(exist_ok=True)
    output = process.stdout.decode().replace(f"{FOLDER.parent}/", "")
    (RESULTS / f"{name}.txt").write_text(f"{head}\n{output}")
    print(f"{name}.sh: recorded")
    return True


def page() -> str:
    parts = [HEAD]
    for name in scripts():
        result = RESULTS / f"{name}.txt"
        parts.append(f"## {name}.sh\n\n{purpose_of(name)}\n")
        if result.exists():
            head, _, output = result.read_text().partition("\n")
            parts.append(f"{head}:\n\n{shown(name, output.rstrip())}\n")
        else:
            parts.append("No output is recorded.\n")
    return "\n".join(parts)


def main(words: list[str]) -> int:
    if words == ["--check"]:
        same = PAGE.read_text() == page()
        if not same:
            print("bench/README.md is not what bench/record.py writes: run bench/record.py --write")
        print(f"{int(same)} passed, {int(not same)} failed")
        return int(not same)
    names = [] if words == ["--write"] else words or scripts()
    unknown = [name for name in names if name not in scripts()]
    if unknown:
        print(f"record.py: no script bench/{unknown[0]}.sh", file=sys.stderr)
        return 2
    successes = [record(name) for name in names]
    PAGE.write_text(page())
    return int(not all(successes))


if __name__ == "__main__":
    sys.exit(main(sys.argv[1:]))
