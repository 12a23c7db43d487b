#!/usr/bin/env python3
"""Lists the functions of a crate whose proofs take longest.

    tools/proof_costs.py CRATE [COUNT]

Proves the crate from nothing in one process, over the libraries that `rt ci` built, which takes some minutes. Then it
prints a line for each part of the proofs and one for each of the COUNT slowest functions and files of lemmas (30 by
default), with the seconds by the clock: run it on an idle machine. The slowest part of a function follows. `Lts` is the
evidence of the borrow checker, half of all time. It grows with the statements times the values alive, so it falls if a
function is split, above all where `?` leaves it while vectors or tables are alive. `Proof` has the goals: answer the slow
ones by hand.
"""

from __future__ import annotations

import subprocess
import sys
import tempfile
import time
from collections import Counter
from dataclasses import dataclass
from pathlib import Path

sys.path.insert(0, str(Path(__file__).resolve().parent / "checks"))
from built_libraries import ROOT, NotBuilt, check_command, find_kit, read_libraries  # noqa: E402

# The modules that the prover makes for each function.
PARTS = ("Answers", "Code", "Given", "Goals", "Invariants", "Kinds", "Layout", "Lts", "Met", "Mir", "Named", "Proof",
         "Statement", "Tie")  # fmt: skip
COUNT = 30


@dataclass(frozen=True)
class Module:
    """A module that was checked: its function or file of lemmas, its part of the proof, and its seconds."""

    owner: str
    part: str
    seconds: float


def read_module(crate: str, file: Path, seconds: float) -> Module:
    """The module that a file of the prover is about. The names of modules are separated by dots."""
    owner = file.stem.removeprefix(f"Rattle-{crate}-")
    area, _, path = owner.partition(".")
    names = path.split(".")
    part = "specs" if area == "specs" else "lemmas" if area == "proofs" else "start"
    while len(names) > 1 and names[-1] in PARTS:
        part = names.pop()
    return Module(".".join(names) or owner, part, seconds)


def modules_in(crate: str, folder: Path, begin: float) -> list[Module]:
    """The modules in the order in which the prover wrote them. Each took the time since the one before."""
    written = sorted((file.stat().st_mtime, file) for file in folder.rglob("*.oantt") if "records" not in file.parts)
    times = [begin, *(time for time, _ in written)]
    return [read_module(crate, file, now - before) for before, (now, file) in zip(times, written)]


def print_costs(modules: list[Module], count: int) -> None:
    parts, owners, slowest = Counter(), Counter(), {}
    for module in modules:
        parts[module.part] += module.seconds
        owners[module.owner] += module.seconds
        slowest[module.owner] = max(slowest.get(module.owner, module), module, key=lambda it: it.seconds)
    for part, seconds in parts.most_common():
        print(f"{seconds:8.1f}  {part}")
    print()
    for owner, seconds in owners.most_common(count):
        print(f"{seconds:8.1f}  {owner} ({slowest[owner].part} {slowest[owner].seconds:.1f})")


def main(words: list[str]) -> int:
    if not words or words[0].startswith("-") or len(words) > 2 or not all(word.isdigit() for word in words[1:]):
        print(__doc__.strip(), file=sys.stdout if words == ["--help"] else sys.stderr)
        return 0 if words == ["--help"] else 2
    crate, kit, libraries = words[0], find_kit(), read_libraries()
    if kit is None or crate not in libraries:
        print("there is no command rt" if kit is None else f"crates.txt has no crate {crate}", file=sys.stderr)
        return 2
    try:
        command = check_command(crate, kit, libraries)
    except NotBuilt as reason:
        print(f"{reason}: run bin/test first", file=sys.stderr)
        return 126
    with tempfile.TemporaryDirectory() as folder:
        begin = time.time()
        process = subprocess.run(
            [*command, "--incremental", folder], cwd=ROOT / "crates" / crate, stdin=subprocess.DEVNULL,
            stdout=subprocess.PIPE, stderr=subprocess.STDOUT, check=False,
        )  # fmt: skip
        if process.returncode != 0:
            print(process.stdout.decode(errors="replace")[-2000:], file=sys.stderr)
        print_costs(modules_in(crate, Path(folder), begin), int(words[1]) if words[1:] else COUNT)
    return process.returncode


if __name__ == "__main__":
    sys.exit(main(sys.argv[1:]))
