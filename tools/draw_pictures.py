#!/usr/bin/env python3
"""Draws two pictures of docs/pictures: a terminal with what qunits answers, and the crates, each above those it uses.

    tools/draw_pictures.py            writes terminal.svg and crates.svg
    tools/draw_pictures.py --check    compares them with what it would write

Both follow the light or dark theme of the reader. The last line of a comparison is `N passed, M failed`.
"""

from __future__ import annotations

import os
import shlex
import subprocess
import sys
from html import escape
from pathlib import Path

sys.path.insert(0, str(Path(__file__).resolve().parent / "checks"))
from check_documents import ARCHITECTURE, ROOT, diagram_rows, product, sections  # noqa: E402

PICTURES = ROOT / "docs/pictures"
STYLE = """<style>
.back {fill: #f6f8fa} .box {fill: #fff; stroke: #8c959f} .line {stroke: #8c959f; stroke-opacity: .45}
text {fill: #1f2328; font: 14px monospace; white-space: pre} .dim {fill: #656d76}
@media (prefers-color-scheme: dark) {
.back {fill: #0d1117} .box {fill: #161b22; stroke: #768390} text {fill: #e6edf3} .dim {fill: #9198a1}
}
</style>"""
QUESTIONS = [
    "60 mph to km/h",
    "--exact yd to m",
    "180 cm to 'ft;in'",
    "'tempF(350)' to tempC",
    "2 lb + 3 ft to kg",
]
CHARACTER, LINE = 8.5, 20
ROW, BOX, GAP, LEFT, SHIFT, WIDTH = 46, 26, 14, 190, 80, 820


def svg(width: float, height: float, parts: list[str]) -> str:
    head = f'<svg xmlns="http://www.w3.org/2000/svg" viewBox="0 0 {width:g} {height:g}" width="{width:g}">'
    back = f'<rect class="back" width="{width:g}" height="{height:g}" rx="8"/>'
    return "\n".join([head, STYLE, back, *parts, "</svg>\n"])


def text(x: float, y: float, words: str, kind: str = "plain") -> str:
    return f'<text class="{kind}" x="{x:g}" y="{y:g}">{escape(words)}</text>'


def terminal() -> str:
    lines: list[tuple[str, str]] = []
    environment = {**os.environ, "XDG_CONFIG_HOME": "/nonexistent"}  # without a file of the user's own
    for question in QUESTIONS:
        command = [ROOT / "bin/qunits", *shlex.split(question)]
        process = subprocess.run(
            command, stdin=subprocess.DEVNULL, stdout=subprocess.PIPE, check=False, env=environment
        )
        lines.append((f"$ qunits {question}", "dim"))
        lines += [(line.expandtabs(), "plain") for line in process.stdout.decode().splitlines()]
    width = 32 + CHARACTER * max(len(line) for line, _ in lines)
    parts = [text(16, 28 + LINE * number, line, kind) for number, (line, kind) in enumerate(lines)]
    return svg(width, 24 + LINE * len(lines), parts)


def needed_uses(crates: dict[str, list[str]], name: str) -> list[str]:
    """The crates that a crate uses, without those that it also uses through another one."""

    def below(crate: str) -> set[str]:
        return {lower for use in crates[crate] for lower in {use} | below(use)}

    return [use for use in crates[name] if not any(use in below(other) for other in crates[name])]


def crates_picture() -> str:
    crates, rows = product(sections()), diagram_rows(ARCHITECTURE.read_text())
    boxes, parts, heading = {}, [], ""
    for row, (section, names) in enumerate(rows):
        widths = [CHARACTER * len(name) + 20 for name in names]
        # Rows are shifted in turn, so that lines do not run behind boxes.
        x = LEFT + (WIDTH - LEFT - sum(widths) - GAP * (len(names) - 1)) / 2 + SHIFT * (row % 3 - 1)
        for name, width in zip(names, widths):
            boxes[name] = (x, 16 + ROW * row, width)
            x += width + GAP
        if section != heading:
            heading = section
            parts.append(text(16, 33 + ROW * row, section.split(",")[0], "dim"))
    for name, (x, y, width) in boxes.items():
        for use in needed_uses(crates, name):
            to_x, to_y, to_width = boxes[use]
            ends = f'x1="{x + width / 2:g}" y1="{y + BOX:g}" x2="{to_x + to_width / 2:g}" y2="{to_y:g}"'
            parts.insert(0, f'<line class="line" {ends}/>')
    for name, (x, y, width) in boxes.items():
        parts.append(f'<rect class="box" x="{x:g}" y="{y:g}" width="{width:g}" height="{BOX}" rx="4"/>')
        parts.append(text(x + 10, y + 18, name))
    return svg(WIDTH, ROW * len(rows) + 12, parts)


def main() -> int:
    pictures = {"terminal.svg": terminal(), "crates.svg": crates_picture()}
    if sys.argv[1:] != ["--check"]:
        for name, picture in pictures.items():
            (PICTURES / name).write_text(picture)
        return 0
    old = [name for name, picture in pictures.items() if (PICTURES / name).read_text() != picture]
    for name in old:
        print(f"docs/pictures/{name} is out of date: run tools/draw_pictures.py")
    print(f"{len(pictures) - len(old)} passed, {len(old)} failed")
    return 1 if old else 0


if __name__ == "__main__":
    sys.exit(main())
