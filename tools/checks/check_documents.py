#!/usr/bin/env python3
"""Compares the documents with the repository.

    tools/checks/check_documents.py

- The diagram and the list of docs/ARCHITECTURE.md name each product crate of crates.txt exactly once, under the
  heading of its section, and no crate uses one on its own row or a higher one.
- The version in CHANGELOG.md, the manual pages, the citation, units-why, the header, the Python package and each file of
  the release is the same, and so is the date in the first three.
- Each relative link in a document leads to a file, and each block of Rust is in the source of a crate.
- The manual pages of units and qunits and the help of sessions have each session line that begins with a colon.
- No document exceeds its limit in LIMITS, and all but tables stay within SUM_LIMIT.

Each fault is printed; the last line is `N passed, M failed`.
"""

from __future__ import annotations

import re
import subprocess
import sys
from pathlib import Path

ROOT = Path(__file__).resolve().parents[2]
ARCHITECTURE = ROOT / "docs/ARCHITECTURE.md"
TEST_PROGRAMS = "test programs"
LIMITS = {
    "README.md": 6_000,
    "CONTRIBUTING.md": 6 * 1024,
    "docs/ARCHITECTURE.md": 9 * 1024,
    "docs/DECISIONS.md": 13 * 1024,
    "docs/PROVED.md": 10 * 1024,
    "docs/STYLE.md": 5 * 1024,
    "docs/TOUR.md": 6 * 1024,
    "docs/WHY.md": 6 * 1024,
}
SUM_LIMIT = 90 * 1024  # of the pages by hand
TABLES = {"INDEX.md", "SOURCES.md", "TESTED.md"}
VERSIONS = [
    ("CITATION.cff", r"^version: (\S+)$"),
    ("crates/units_why/src/version.rt", r'^    b"units-why (\S+)\\n"$'),
    ("lib/units.h", r'^#define UNITS_VERSION "(\S+)"$'),
    ("lib/python/exact_units/__init__.py", r'^__version__ = "(\S+)"$'),
    ("release/MADE_FROM", r"^version (\S+)$"),
    ("release/libunits.pc", r"^Version: (\S+)$"),
    ("release/units.html", r'"version": "units (\S+)\. Module'),
]
LINK = re.compile(r"\[[^\]]*\]\(([^)#:\s]+)(?:#[^)]*)?\)")


def sections() -> dict[str, dict[str, list[str]]]:
    """The crates of crates.txt by heading, each with the crates that it uses."""
    crates: dict[str, dict[str, list[str]]] = {}
    heading = ""
    for line in (ROOT / "crates.txt").read_text().splitlines():
        if line.startswith("# "):
            heading = line[2:]
        elif ":" in line:
            head, uses = line.split(":", 1)
            crates.setdefault(heading, {})[head.split()[0]] = uses.split()
    return crates


def product(groups: dict[str, dict[str, list[str]]]) -> dict[str, list[str]]:
    """The crates that are part of the product, each with the crates of the repository that it uses."""
    products = [crates for heading, crates in groups.items() if not heading.startswith(TEST_PROGRAMS)]
    crates = {name: uses for part in products for name, uses in part.items()}
    return {name: [use for use in uses if use in crates] for name, uses in crates.items()}


def diagram_rows(text: str) -> list[tuple[str, list[str]]]:
    """The rows of the diagram, each with its heading, the highest first. A heading is a line that is not indented."""
    rows, heading = [], ""
    block = re.search(r"^```\n(.*?)^```", text, re.DOTALL | re.MULTILINE)
    for line in block.group(1).splitlines() if block else []:
        if line.startswith(" "):
            rows.append((heading, line.split()))
        else:
            heading = line
    return rows


def check_diagram(text: str) -> list[str]:
    groups = sections()
    crates, faults = product(groups), []
    rows = diagram_rows(text)
    row_of: dict[str, int] = {}
    for place, (heading, names) in enumerate(rows):
        for name in names:
            if name not in crates:
                faults.append(f"the diagram has {name}, which is not a product crate")
            elif name in row_of:
                faults.append(f"the diagram has {name} twice")
            elif name not in groups.get(heading, {}):
                faults.append(f"the diagram has {name} under '{heading}', crates.txt does not")
            row_of[name] = place
    faults += [f"the diagram lacks {name}" for name in crates if name not in row_of]
    faults += [
        f"{name} uses {use}, which is not on a lower row"
        for name, uses in crates.items()
        for use in uses
        if name in row_of and row_of.get(use, len(rows)) <= row_of[name]
    ]
    return faults


def check_list(text: str) -> list[str]:
    names = re.findall(r"^- `(\w+)`: ", text, re.MULTILINE)
    crates = product(sections())
    faults = [f"the list of crates lacks {name}" for name in crates if name not in names]
    faults += [f"the list of crates has {name}, which is not a product crate" for name in names if name not in crates]
    return faults + [f"the list of crates has {name} twice" for name in names if names.count(name) > 1]


def version_in(path: str, pattern: str) -> str | None:
    file = ROOT / path
    match = re.search(pattern, file.read_text(), re.MULTILINE) if file.exists() else None
    return match.group(1) if match else None


def check_versions() -> list[str]:
    heading = re.search(r"^## \[?(\d+\.\d+\.\d+)\]? - (\S+)$", (ROOT / "CHANGELOG.md").read_text(), re.MULTILINE)
    if not heading:
        return ["CHANGELOG.md has no version"]
    pages = sorted(str(page.relative_to(ROOT)) for page in (ROOT / "share/man/man1").glob("*.1"))
    places = [(page, r'^\.TH \S+ \S+ "\S+" "?\S+ (\d+\.\d+\.\d+)"?') for page in pages] + VERSIONS
    dates = [(page, r'^\.TH \S+ \S+ "(\S+)"') for page in pages] + [("CITATION.cff", r'^date-released: "(\S+)"$')]
    faults = [
        f"{path} has {found}, CHANGELOG.md has {wanted}"
        for wanted, rows in zip(heading.groups(), (places, dates))
        for path, pattern in rows
        if (found := version_in(path, pattern)) != wanted
    ]
    major, minor, patch = map(int, heading[1].split("."))
    number = version_in("lib/units.h", r"^#define UNITS_VERSION_NUMBER (\d+)$")
    if number != str(1000000 * major + 1000 * minor + patch):
        faults.append(f"lib/units.h has the number {number}, CHANGELOG.md has {heading[1]}")
    wheels = [wheel.name.split("-")[1] for wheel in (ROOT / "release").glob("*.whl")]
    return faults if wheels == [heading[1]] else [*faults, f"release/ has the wheels {wheels}, not one of {heading[1]}"]


def documents() -> list[Path]:
    output = subprocess.run(
        ["git", "-C", ROOT, "ls-files", "--cached", "--others", "--exclude-standard", "*.md"],
        stdout=subprocess.PIPE,
        check=True,
    )
    files = [ROOT / name for name in output.stdout.decode().splitlines() if not name.startswith("wip/")]
    return [file for file in files if file.exists()]


def check_links() -> list[str]:
    return [
        f"{file.relative_to(ROOT)}: {target} does not exist"
        for file in documents()
        for target in LINK.findall(file.read_text())
        if not (file.parent / target).exists()
    ]


def check_quotations() -> list[str]:
    source = " ".join(" ".join(file.read_text().split()) for file in ROOT.glob("crates/*/src/**/*.rt"))
    return [
        f"{file.relative_to(ROOT)}: no crate has {block}"
        for file in documents()
        for block in re.findall(r"^```rust\n(.*?)^```", file.read_text(), re.DOTALL | re.MULTILINE)
        if " ".join(block.split()) not in source
    ]


def check_session_lines() -> list[str]:
    words = re.findall(r'b"(:\w+)"', (ROOT / "crates/session/src/colon_word.rt").read_text())
    pages = [ROOT / "share" / name for name in ("man/man1/units.1", "man/man1/qunits.1", "qunits/session_help.txt")]
    faults = [f"{page.name} lacks {word}" for page in pages for word in words if word not in page.read_text()]
    return faults if words else ["colon_word.rt has no session line"]


def check_sizes() -> list[str]:
    sizes = {path: (ROOT / path).stat().st_size for path in LIMITS if (ROOT / path).exists()}
    too_long = {path: size for path, size in sizes.items() if size > LIMITS[path]}
    faults = [f"{path} has {size} bytes, more than {LIMITS[path]}" for path, size in too_long.items()]
    pages = [page for page in (ROOT / "docs").glob("*.md") if page.name not in TABLES]
    total = sum(page.stat().st_size for page in [*pages, ROOT / "CONTRIBUTING.md"])
    return faults + [f"the pages have {total} bytes, more than {SUM_LIMIT}"] * (total > SUM_LIMIT)


def main() -> int:
    text = ARCHITECTURE.read_text()
    results = [check_diagram(text), check_list(text), check_versions(), check_links(), check_session_lines()]
    results += [check_quotations(), check_sizes()]
    for faults in results:
        for fault in faults:
            print(f"check_documents: {fault}")
    failed = sum(1 for faults in results if faults)
    print(f"{len(results) - failed} passed, {failed} failed")
    return 1 if failed else 0


if __name__ == "__main__":
    sys.exit(main())
