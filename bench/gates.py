"""Compares the processor time that the proofs of two commits take.

    bench/gates.sh COMMIT [SAMPLES]

Clones COMMIT and HEAD, runs `rt ci` in both at once, and prints the seconds of the processor for each crate, the sums,
and their ratio. This takes one to three hours, on a machine that has kept no proofs of either commit: a crate that an
earlier run proved cannot be measured, and ends the script. What the provers used is sampled every three seconds into
the file SAMPLES, if it is given. If that file has samples already, only their sums are printed.
"""

from __future__ import annotations

import json
import os
import subprocess
import sys
import tempfile
import time
from pathlib import Path

ROOT = Path(__file__).resolve().parents[1]
TICKS = os.sysconf("SC_CLK_TCK")
NAMES = ("before", "now")

Samples = dict[str, tuple[str, str, float]]  # of each process: the name of its clone, the crate, and its seconds


def sample(clones: dict[str, Path], samples: Samples) -> None:
    """Notes the seconds of each prover that runs in a crate of these clones."""
    for process in Path("/proc").iterdir():
        try:
            words = (process / "cmdline").read_bytes().split(b"\0")
            if not process.name.isdigit() or not words[0].endswith(b"/rattle"):
                continue
            folder = (process / "cwd").readlink()
            fields = (process / "stat").read_text().rpartition(")")[2].split()
        except OSError:
            continue
        for name, clone in clones.items():
            if folder.is_relative_to(clone / "crates"):
                seconds = (int(fields[11]) + int(fields[12])) / TICKS
                samples[f"{process.name}.{fields[19]}"] = (name, folder.name, seconds)


def run(commit: str, file: Path | None) -> Samples:
    """Proves both commits at once. Ends the script if a crate was kept that neither clone proved."""
    samples: Samples = {}
    with tempfile.TemporaryDirectory(prefix="units-gates-") as folder:
        clones = {name: Path(folder) / name for name in NAMES}
        for name, clone in clones.items():
            subprocess.run(["git", "clone", "-q", ROOT, clone], check=True)
            subprocess.run(["git", "-C", clone, "checkout", "-q", commit if name == NAMES[0] else "HEAD"], check=True)
        logs = {name: (Path(folder) / f"{name}.log").open("w+") for name in NAMES}
        runs = [subprocess.Popen(["rt", "ci"], cwd=clones[name], stdout=log, stderr=log) for name, log in logs.items()]
        while any(process.poll() is None for process in runs):
            sample(clones, samples)
            if file:
                file.write_text(json.dumps(samples))
            time.sleep(3)
        proved = {crate for _, crate, _ in samples.values()}
        for log in logs.values():
            log.seek(0)
            kept = {line.split()[1] for line in log if line.startswith("rt: ") and " is kept" in line} - proved
            if kept:
                sys.exit(f"gates: proved before on this machine: {', '.join(sorted(kept))}")
    return samples


def crates_of(commit: str) -> set[str]:
    command = ["git", "-C", ROOT, "show", f"{commit}:crates.txt"]
    text = subprocess.run(command, check=True, capture_output=True, text=True).stdout
    return {line.split()[0].rstrip(":") for line in text.splitlines() if line.strip() and line[0] != "#"}


def show(samples: Samples, commits: dict[str, str]) -> int:
    """Prints a line for each crate that was proved for each commit, or that one commit alone has."""
    crates = {name: crates_of(commit) for name, commit in commits.items()}
    seconds = {name: dict.fromkeys(found, 0.0) for name, found in crates.items()}
    for name, crate, used in samples.values():
        seconds[name][crate] = seconds[name].get(crate, 0.0) + used
    once = {crate for crate in crates["before"] & crates["now"] if not all(seconds[name][crate] for name in NAMES)}
    same = sum(seconds[name][crate] for name in NAMES for crate in once)
    print(f"crates that are the same in both: {same:.0f} s of the processor")
    for crate in sorted((crates["before"] | crates["now"]) - once, key=lambda it: -seconds["now"].get(it, 0.0)):
        before, now = (seconds[name].get(crate, 0.0) for name in NAMES)
        ratio = f"{now / before:.2f}" if before else ""
        print(f"{crate}  {before:.0f} s  {now:.0f} s  {ratio}".rstrip())
    before, now = (same + sum(used for crate, used in seconds[name].items() if crate not in once) for name in NAMES)
    print(f"all  {before:.0f} s  {now:.0f} s  {now / before:.3f}")
    return 0


def main() -> int:
    commit, *rest = sys.argv[1:]
    file = Path(rest[0]) if rest else None
    samples = json.loads(file.read_text()) if file and file.exists() else run(commit, file)
    return show(samples, dict(zip(NAMES, (commit, "HEAD"))))


if __name__ == "__main__":
    sys.exit(main())
