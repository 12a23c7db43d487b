"""The libraries that `rt ci` built, and the prover's command over them."""

from __future__ import annotations

import os
import shutil
from pathlib import Path

ROOT = Path(__file__).resolve().parents[2]
PARTS = ("src", "specs", "proofs")


class NotBuilt(Exception):
    """A library is missing, or older than its sources."""


def find_kit() -> Path | None:
    """The folder of the toolchain, or None without the command rt."""
    rt = shutil.which("rt")
    return Path(os.path.realpath(rt)).parent.parent if rt else None


def read_libraries() -> dict[str, list[str]]:
    """The libraries that each crate uses, those of the toolchain among them."""
    lines = ((ROOT / "crates.txt").read_text()).splitlines()
    heads = (line.partition("#")[0].partition(":") for line in lines)
    return {head.split()[0]: uses.split() for head, _, uses in heads if head.strip()}


def crates_below(crate: str, libraries: dict[str, list[str]]) -> set[str]:
    own = {name for name in libraries[crate] if name in libraries}
    return own.union(*(crates_below(name, libraries) for name in own))


def sources_of(crate: str) -> list[Path]:
    folder = ROOT / "crates" / crate
    return sorted(path for part in PARTS for path in (folder / part).rglob("*") if path.is_file())


def library_of(crate: str) -> Path:
    """The folder of a built library, if it is newer than its sources."""
    library = ROOT / f"crates/{crate}/out/rlib/{crate}.rlib"
    if not library.exists() or max(path.stat().st_mtime for path in sources_of(crate)) > library.stat().st_mtime:
        raise NotBuilt(f"the library {crate} is not built")
    return library


def check_command(crate: str, kit: Path, libraries: dict[str, list[str]]) -> list[str]:
    """The command that checks a crate. It runs in the folder of the crate, or of a copy."""
    main = "src/main.rt" if (ROOT / "crates" / crate / "src/main.rt").exists() else "src/lib.rt"
    words = [str(kit / "bin/rattle"), "check", "--crate-name", crate, main]
    for name in ("std", *libraries[crate]):
        path = library_of(name) if name in libraries else kit / f"rlibs/{name}.rlib"
        words += ["--extern", f"{name}={path}"]
    folders = [library_of(name).parent for name in sorted(crates_below(crate, libraries))]
    for folder in (*folders, kit / "rlibs"):
        words += ["-L", f"dependency={folder}"]
    logic = kit / "rattle/logic/antt-project.json"
    return [*words, "--antt-project", str(logic), "--logic-built", str(kit / "logic_built")]
