"""Makes a Markdown table of size, time and ratio from the output of a script in bench."""

from __future__ import annotations

import re
from typing import Callable

TIME = re.compile(r"^(.*?)[ ,:]+(-?[\d.]+ (?:s|ms|µs))\b(.*)$")
OF_PROCESSOR = re.compile(r"(-?[\d.]+)(?: (s|ms|µs))? of the processor")
MEMORY = re.compile(r"-?[\d.]+ (?:MiB|KiB|MB|bytes a \w+)")
RATIO = re.compile(r"the part of GNU's time:?\s+([\d.]+)")
PYTHON_COMPARISON = re.compile(r"(.*?)\s+([\d.]+ s \([\d.]+\)), Python\s+([\d.]+ s \([\d.]+\)), (.*)")
LONG_TEXT = re.compile(r"'(.*)'\s+(\d+)\s+MiB\s+([\d.]+ s)\s+(\d+ MiB) of memory, (.*)")
STARTED = re.compile(r"\s+(.*?)\s\s+([\d.]+ ms) of the processor.*?passed\s+([\d.]+)")
EXPONENTS = re.compile(r"exponents: time (-?[\d.]+), memory (-?[\d.]+)(.*): (ok|over)")
INSTRUCTIONS = re.compile(r" +([\d,]+ instructions, at most .*): (ok|over)")

Row = list[str]


def parts(pattern: re.Pattern[str], line: str) -> Row:
    """The groups of a pattern in a line. Raises `ValueError` if the line does not match it."""
    match = pattern.match(line)
    if not match:
        raise ValueError(line)
    return [" ".join(part.split()) for part in match.groups()]


def table(heads: Row, rows: list[Row], notes: Row) -> str:
    """The rows as a table without empty columns, followed by the notes."""
    places = [place for place in range(len(heads)) if any(row[place] for row in rows)]
    lines = [[heads[place] for place in places], ["---"] * len(places)]
    lines += [[row[place].replace("|", "\\|") for place in places] for row in rows]
    text = "\n".join("| " + " | ".join(line) + " |" for line in lines)
    return "\n\n".join([text, *notes])


def processor_time(line: str) -> tuple[str, str] | None:
    """The label of a line and its time, by the processor or else by the clock; None if it has no time."""
    match = TIME.match(line)
    if not match:
        return None
    label, clock, _ = match.groups()
    busy = OF_PROCESSOR.search(line)
    time = f"{busy.group(1)} {busy.group(2) or clock.split()[1]}" if busy else clock
    is_indented = label.startswith("  ")
    return ("… " if is_indented else "") + label.strip(), time


def measurements(output: str) -> str:
    """A line for each measurement: its time, and its memory if it has one."""
    rows, notes = [], []
    for line in output.splitlines():
        label_and_time = processor_time(line)
        label, _, rest = line.strip().partition("  ")
        if label_and_time:
            memory = MEMORY.search(parts(TIME, line)[2])
            rows.append([*label_and_time, memory.group() if memory else ""])
        elif rest:
            rows.append([f"… {label}", rest.strip(), ""])
        else:
            notes.append(line)
    return table(["", "time", "memory"], rows, notes)


def gnu_comparison(output: str) -> str:
    """A line for each measurement; GNU's time and the ratio follow on lines of their own."""
    rows: list[Row] = []
    for line in output.splitlines():
        ratio, label_and_time = RATIO.search(line), processor_time(line)
        if ratio:
            rows[-1][3] = ratio.group(1)
        elif label_and_time and label_and_time[0] == "… GNU units":
            rows[-1][2] = label_and_time[1]
        elif label_and_time:
            rows.append([*label_and_time, "", ""])
    return table(["", "units", "GNU units", "ratio"], rows, [])


def python_comparison(output: str) -> str:
    """A line for each kind of call, with the times of both and the comparison of the answers."""
    rows = [parts(PYTHON_COMPARISON, line) for line in output.splitlines()]
    return table(["", "units", "Python", "answers"], rows, [])


def columns(output: str) -> str:
    """The columns as they are; the first line has their heads."""
    rows = [re.split(r"\s\s+", line) for line in output.splitlines()]
    return table(rows[0], rows[1:], [])


def long_texts(output: str) -> str:
    """A row for each text, with a column for each size."""
    matches = [parts(LONG_TEXT, line) for line in output.splitlines()]
    sizes = sorted({int(size) for _, size, *_ in matches})
    rows: dict[str, Row] = {}
    for text, size, time, memory, answer in matches:
        row = rows.setdefault(text, [f"`{text}`" if text else "blanks", *[""] * len(sizes), ""])
        row[1 + sizes.index(int(size))] = f"{time}, {memory}"
        row[-1] = answer
    return table(["", *(f"{size} MiB" for size in sizes), "answer to the longest"], list(rows.values()), [])


def startups(output: str) -> str:
    """A row for each program, with a column for each file: the time, and its ratio to that of GNU units."""
    heads = [""]
    rows: dict[str, Row] = {}
    for line in output.splitlines():
        match = STARTED.match(line)
        if not match:
            heads.append(line.rpartition("/")[2])
            continue
        program, time, ratio = match.groups()
        rows.setdefault(program, [program]).append(f"{time} ({ratio})")
    return table(heads, list(rows.values()), [])


def growth(output: str) -> str:
    """A row for each input: its largest size with time and memory, the exponents, and the verdict."""
    rows, notes, label, last = [], [], "", ""
    for line in output.splitlines():
        exponents = EXPONENTS.search(line)
        if exponents:
            size, time, _, memory, unit = last.replace(" s ", " s  ").split()
            numbers = f"{exponents.group(1)}, {exponents.group(2)}{exponents.group(3)}"
            rows.append([label, size, f"{time} s", f"{memory} {unit}", numbers, exponents.group(4)])
        elif counted := INSTRUCTIONS.fullmatch(line):
            rows.append([label, "", "", "", counted.group(1), counted.group(2)])
        elif line.startswith(" "):
            last = line
        elif line.endswith(":"):
            label = line[:-1]
        else:
            notes.append(line)
    return table(["", "size", "time", "memory", "exponents of time, memory", ""], rows, notes)


def plain(output: str) -> str:
    """The output unchanged."""
    return f"```\n{output}\n```"


FORMS: dict[str, Callable[[str], str]] = {
    "c_library": columns,
    "conversions": gnu_comparison,
    "expressions": long_texts,
    "gates": plain,
    "numbers": python_comparison,
    "quantities": python_comparison,
    "releases": columns,
    "scaling": growth,
    "sessions": gnu_comparison,
    "startup": startups,
    "web": plain,
    "why": plain,
}


def shown(name: str, output: str) -> str:
    """The output of a script as the page shows it: as a table, or unchanged if it does not have the expected form."""
    try:
        return FORMS.get(name, measurements)(output)
    except (IndexError, ValueError):
        return plain(output)
