#!/usr/bin/env python3
"""Compares the command lines that the program accepts with those that the real clap accepts.

    tools/comparisons/compare_words.py [LISTS] [SEED]

Makes LISTS random lists of words (20,000 by default) from SEED (1 by default). The real clap reads them through
tools/comparisons/words_by_clap.rs, which is built with Debian's package librust-clap-dev, and the built program runs
with each. The status and both streams have to be those that follow from clap's fields; if the output depends on more
than the words, the program has to accept them. Prints how many runs had each ending and the first differences. The
status is 1 if there is a difference.
"""

import os
import random
import subprocess
import sys
import tempfile
from collections import Counter
from concurrent.futures import ThreadPoolExecutor
from fractions import Fraction
from pathlib import Path

sys.path[:0] = [str(Path(__file__).resolve().parents[1] / name) for name in (".", "models")]
from compare_numbers import digits_answer, exact  # noqa: E402

TOOLS = Path(__file__).resolve().parents[1]
REGISTRY = Path("/usr/share/cargo/registry")
SHOWN = 5  # how many differences are printed
USAGE = (2, b"", b"units: usage: units [options] [FROM [TO]]\n")
TAKEN = "taken"  # the words are accepted, and the output depends on more than the words
INPUT = [["1", "2"], ["3", "4", "5"]]  # the records on standard input
UNITS = ["m", "in", "ft", "yd"]
VALUES = dict(zip(UNITS, map(Fraction, ["1", "0.0254", "0.3048", "0.9144"])))
LAYOUT = {"one-line", "compact", "terse", "strict", "verbose"}

MANIFEST = """[package]
name = "words_by_clap"
version = "0.1.0"
edition = "2021"
[[bin]]
name = "words_by_clap"
path = "words_by_clap.rs"
[dependencies]
clap = "4"
"""
SOURCE = f"""[source.crates-io]
replace-with = "debian"
[source.debian]
directory = "{REGISTRY}"
"""

# Words
FLAGS = "--exact --one-line -1 --compact --terse -t --quiet -q --strict -s".split()
FLAGS += "--round -r --verbose -v --check -c --header --header".split()
NUMBERS = "1 3 8 36 37 0 -1 +5 007 256 20000 20001 65536 x 3.0".split() + ["", " 3"]
TEXTS = ["first.units", "gone.units", "", "m", "-", "--", "-q", "--file", "=first.units", "en_GB"]
NAMES = ["m", "in", "ft", "yd", "kg", "per", "sin", "m2", "", "-", "help", "a b"]
OTHERS = "-- -x --help -h --version -V --exac --exact=true -qs -qd3 -d3 -d=3 -1t -tf".split()
OTHERS += "-qffirst.units --digits -f --no-exact - --= -\u00e9 \u00e9".split()


def conversion(r):
    """Words of a conversion, in most cases a valid one."""
    file = "gone.units" if r.randrange(10) == 0 else "first.units"
    words = [["-f", file], [f"--file={file}"], [f"-f{file}"], ["--file", file]]
    parts = [r.choice(words), [r.choice(UNITS)], [r.choice([*UNITS, "kg"])]]
    if r.randrange(2):
        digits = [["-d", r.choice(NUMBERS)], [f"--digits={r.randrange(1, 38)}"]]
        parts.append(r.choice([["--exact"], *digits]))
    if r.randrange(3) == 0:
        parts.append(r.choice([["--column", r.choice(NUMBERS)], [f"--column={r.randrange(4)}"]]))
        parts += [["--header"]] * r.randrange(2)
    r.shuffle(parts)
    return [word for part in parts for word in part]


def any_word(r):
    kind = r.randrange(10)
    if kind < 3:
        return [r.choice(FLAGS)]
    if kind < 5:
        name = r.choice(["-d", "--digits", "--trial", "--column", "--column"])
        value = r.choice(NUMBERS)
        return r.choice([[name, value], [f"{name}={value}"], [f"{name}{value}"]])
    if kind < 7:
        name, value = r.choice(["-f", "--file", "-l", "--locale"]), r.choice(TEXTS)
        return r.choice([[name, value], [f"{name}={value}"], [f"{name}{value}"]])
    return [r.choice(NAMES if kind < 9 else OTHERS)]


def word_list(r):
    words = conversion(r) if r.randrange(2) else []
    for _ in range(r.choice([0, 0, 1, 1, 2, 3, 5] if words else [0, 1, 2, 3, 4, 6])):
        at = r.randrange(len(words) + 1)
        words[at:at] = any_word(r)
    result = [word.encode() for word in words]
    if result and r.randrange(40) == 0:
        result[r.randrange(len(result))] += bytes([r.choice([0x80, 0xC3, 0xFF])])
    return result


# Endings


def number_text(x, fields):
    return exact(x) if "exact" in fields else digits_answer(x, int(fields.get("digits", 8)))


def text_in(fields, name):
    return bytes.fromhex(fields[name][1:]) if name in fields else None


def content(text):
    """A text without a final carriage return, a comment and the blanks around it."""
    return text.removesuffix(b"\r").partition(b"#")[0].strip(b" \t")


def fits(fields):
    """Whether arguments that clap accepts may be used together."""
    if sum(name in fields for name in ["from", "check", "trial"]) > 1:
        return False
    if "column" in fields:
        return "from" in fields and "to" in fields and content(text_in(fields, "to")) not in [b"", b"?"]
    return "header" not in fields


def converted_records(fields, factor):
    """The ending of a run that converts a column of the records."""
    column = int(fields["column"])
    records = [list(record) for record in INPUT]
    for record in records[1 if "header" in fields else 0 :]:
        if column <= len(record):
            record[column - 1] = number_text(factor * int(record[column - 1]), fields)
    return 0, "".join(",".join(record) + "\n" for record in records).encode(), b""


def expected_ending(line):
    """The status and the bytes on both streams that follow from the fields that clap finds."""
    fields = {name: value for name, _, value in (word.partition("=") for word in line.split())}
    if line == "refused" or not fits(fields):
        return USAGE
    file, source, target = (text_in(fields, name) for name in ["file", "from", "to"])
    if file is None or file == b"" or "trial" in fields:
        return TAKEN  # a trial makes its own definitions
    if file != b"first.units":
        return 3, b"", b"units: no file: " + file + b"\n"
    names = [text and text.decode() for text in [source, target]]
    if any(name not in VALUES for name in names):
        return TAKEN
    factor = VALUES[names[0]] / VALUES[names[1]]
    if "column" in fields:
        return converted_records(fields, factor)
    if LAYOUT & set(fields):
        return TAKEN
    forward, back = number_text(factor, fields), number_text(1 / factor, fields)
    return 0, f"\t* {forward}\n\t/ {back}\n".encode(), b""


# Runs


def build(folder):
    """Builds words_by_clap and returns its path."""
    if not any(REGISTRY.glob("clap-4*")):
        sys.exit(f"there is no clap in {REGISTRY}; on Debian: apt-get install librust-clap-dev")
    (folder / "Cargo.toml").write_text(MANIFEST)
    (folder / "words_by_clap.rs").write_text(Path(__file__).with_name("words_by_clap.rs").read_text())
    (folder / ".cargo").mkdir()
    (folder / ".cargo/config.toml").write_text(SOURCE)
    subprocess.run(["cargo", "build", "--quiet", "--release", "--offline"], cwd=folder, check=True)
    return folder / "target/release/words_by_clap"


def by_clap(reader, lists):
    lines = "".join(" ".join("x" + word.hex() for word in words) + "\n" for words in lists)
    process = subprocess.run([reader], input=lines.encode(), stdout=subprocess.PIPE, check=True)
    return process.stdout.decode().split("\n")[:-1]


def by_program(program, folder, words):
    input_bytes = "".join(",".join(record) + "\n" for record in INPUT).encode()
    options = {"cwd": folder, "input": input_bytes, "capture_output": True}
    process = subprocess.run([os.fsencode(program), *words], check=False, **options)
    return process.returncode, process.stdout, process.stderr


def agree(expected, result):
    return result[0] in [0, 1, 3, 4] if expected == TAKEN else expected == result


def main():
    count = int(sys.argv[1]) if len(sys.argv) > 1 else 20_000
    r = random.Random(sys.argv[2] if len(sys.argv) > 2 else "1")
    output = subprocess.run([TOOLS / "built.sh", "units"], stdout=subprocess.PIPE, check=True)
    program = output.stdout.decode().strip()
    lists = [word_list(r) for _ in range(count)]
    with tempfile.TemporaryDirectory() as room:
        folder = Path(room)
        (folder / "first.units").write_bytes((TOOLS.parent / "examples/first.units").read_bytes())
        expected = [expected_ending(line) for line in by_clap(build(folder), lists)]
        with ThreadPoolExecutor(os.cpu_count()) as pool:
            results = list(pool.map(lambda words: by_program(program, folder, words), lists))
    rows = list(zip(lists, expected, results))
    different = [row for row in rows if not agree(row[1], row[2])]
    endings = Counter("taken" if outcome == TAKEN else f"with status {outcome[0]}" for _, outcome, _ in rows)
    tally = ", ".join(f"{endings[expected_ending]} {expected_ending}" for expected_ending in sorted(endings))
    print(f"{len(rows)} lists, {len(different)} differences: {tally}")
    for words, outcome, result in different[:SHOWN]:
        print(f"    {words}: {result}, not {outcome}")
    sys.exit(1 if different else 0)


if __name__ == "__main__":
    main()
