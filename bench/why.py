"""The measurements of bench/why.sh."""

from __future__ import annotations

import os
import resource
import subprocess
import sys
import tempfile
from pathlib import Path
from statistics import median

LENGTH = 60000
LETTERS = str.maketrans("0123456789", "abcdefghij")
GNU = Path("/usr/share/units/definitions.units")


def name(number: int) -> str:
    return f"n{str(number).translate(LETTERS)}z"


def seconds(command: list[str]) -> float:
    """The processor time of a run."""
    before = resource.getrusage(resource.RUSAGE_CHILDREN)
    subprocess.run(command, stdin=subprocess.DEVNULL, stdout=subprocess.DEVNULL, stderr=subprocess.DEVNULL, check=False)
    after = resource.getrusage(resource.RUSAGE_CHILDREN)
    return after.ru_utime + after.ru_stime - before.ru_utime - before.ru_stime


def compare(title: str, one: list[str], other: list[str], rounds: int) -> None:
    """Prints the medians of the times of two commands that run in turns, and the median of the ratios of the turns."""
    times = [(seconds(one), seconds(other)) for _ in range(rounds)]
    first, second = median(pair[0] for pair in times), median(pair[1] for pair in times)
    ratio = median(pair[0] / pair[1] for pair in times)
    print(f"{title}: {first:.3f} s and {second:.3f} s, ratio {ratio:.2f}")


def main() -> int:
    units, why, rounds = sys.argv[1], sys.argv[2], int(sys.argv[3])
    with tempfile.TemporaryDirectory() as folder:
        file = os.path.join(folder, "chain.units")
        lines = [f"{name(i)} 2|2 {name(i - 1)}\n" for i in range(1, LENGTH)]
        Path(file).write_text(f"{name(0)} !\n{''.join(lines)}", encoding="ascii")
        last = name(LENGTH - 1)
        compare(f"a chain of {LENGTH}, units-why and units", [why, "-f", file, last], [units, "-f", file, last], rounds)
    if GNU.exists():
        lint, check = [why, "--lint", "-f", str(GNU)], [units, "--check", "-f", str(GNU)]
        compare("GNU's definitions, --lint and --check", lint, check, rounds)
    else:
        print(f"skipped: {GNU} is absent (package units)")
    return 0


if __name__ == "__main__":
    sys.exit(main())
