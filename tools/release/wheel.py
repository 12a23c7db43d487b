#!/usr/bin/env python3
# SPDX-License-Identifier: MIT OR Apache-2.0
"""Builds the wheel of the Python package exact_units, without a network and without pip.

    tools/release/wheel.py FOLDER [--library LIBRARY]

Writes the wheel to FOLDER and prints its path. The wheel has the library of units as one file, the built-in definitions,
and LIBRARY (libunits.so.1) if it is named. With the library it is for Linux on x86-64 with glibc 2.14 or later, the
oldest whose calls the library needs. Without it, it is for any platform, and needs the program or the library of an
install. Two wheels of the same files are equal byte for byte.
"""

from __future__ import annotations

import argparse
import base64
import hashlib
import stat
import sys
import zipfile
from pathlib import Path

ROOT = Path(__file__).resolve().parents[2]
PACKAGE = ROOT / "lib" / "python" / "exact_units"
UNITS = ROOT / "share" / "units"
PURE = ("py3-none-any",)
# The second tag is for versions of pip that do not know the form of the first one.
WITH_LIBRARY = ("py3-none-manylinux_2_14_x86_64", "py3-none-manylinux2014_x86_64")
MOMENT = (2000, 1, 1, 0, 0, 0)

METADATA = """\
Metadata-Version: 2.1
Name: exact-units
Version: {version}
Summary: Exact unit conversion over GNU units' definitions
License: MIT OR Apache-2.0
Requires-Python: >=3.9
Classifier: Typing :: Typed
Description-Content-Type: text/markdown

{description}"""

WHEEL = """\
Wheel-Version: 1.0
Generator: units tools/release/wheel.py
Root-Is-Purelib: {is_pure}
{tags}"""


def version() -> str:
    """Return the version of the package."""
    for line in (PACKAGE / "__init__.py").read_text().splitlines():
        if line.startswith("__version__"):
            return line.split('"')[1]
    raise SystemExit("wheel.py: the package has no __version__")


def flat_text(file: Path) -> bytes:
    """Return the definitions of a file of the library, with those of its includes in their places."""
    lines = []
    for line in file.read_bytes().splitlines(keepends=True):
        word, _, name = line.rstrip().partition(b" ")
        lines.append(flat_text(file.parent / name.decode()) if word == b"!include" else line)
    return b"".join(lines)


def contents(library: Path | None) -> dict[str, bytes]:
    """Return the files of the wheel without its RECORD, by name."""
    files = {f"exact_units/{path.name}": path.read_bytes() for path in PACKAGE.glob("*.py")}
    files["exact_units/py.typed"] = b""
    files["exact_units/built_in.units"] = (UNITS / "built_in.units").read_bytes()
    files["exact_units/all.units"] = flat_text(UNITS / "all.units")
    if library is not None:
        files["exact_units/libunits.so.1"] = library.read_bytes()
    info = f"exact_units-{version()}.dist-info"
    description = (ROOT / "docs" / "C_AND_PYTHON.md").read_text()
    files[f"{info}/METADATA"] = METADATA.format(version=version(), description=description).encode()
    tags = "".join(f"Tag: {tag}\n" for tag in tags_of(library))
    files[f"{info}/WHEEL"] = WHEEL.format(is_pure=str(library is None).lower(), tags=tags).encode()
    return files


def tags_of(library: Path | None) -> tuple[str, ...]:
    return PURE if library is None else WITH_LIBRARY


def record(files: dict[str, bytes], name: str) -> bytes:
    """Return the RECORD of these files; `name` is its own name."""
    rows = []
    for path, data in sorted(files.items()):
        digest = base64.urlsafe_b64encode(hashlib.sha256(data).digest()).rstrip(b"=").decode()
        rows.append(f"{path},sha256={digest},{len(data)}")
    return ("\n".join([*rows, f"{name},,"]) + "\n").encode()


def write_wheel(path: Path, files: dict[str, bytes]) -> None:
    """Write a zip archive that depends on names and bytes alone."""
    with zipfile.ZipFile(path, "w", zipfile.ZIP_DEFLATED) as archive:
        for name, data in sorted(files.items()):
            entry = zipfile.ZipInfo(name, MOMENT)
            entry.external_attr = (stat.S_IFREG | 0o644) << 16
            entry.compress_type = zipfile.ZIP_DEFLATED
            archive.writestr(entry, data)


def main() -> None:
    parser = argparse.ArgumentParser(description=__doc__, formatter_class=argparse.RawDescriptionHelpFormatter)
    parser.add_argument("folder", type=Path)
    parser.add_argument("--library", type=Path)
    arguments = parser.parse_args()
    files = contents(arguments.library)
    info = f"exact_units-{version()}.dist-info"
    files[f"{info}/RECORD"] = record(files, f"{info}/RECORD")
    first, *others = tags_of(arguments.library)
    tags = ".".join([first, *(tag.rpartition("-")[2] for tag in others)])
    arguments.folder.mkdir(parents=True, exist_ok=True)
    path = arguments.folder / f"exact_units-{version()}-{tags}.whl"
    write_wheel(path, files)
    sys.stdout.write(f"{path}\n")


if __name__ == "__main__":
    main()
