"""Cases for the page: conversions, some with faults, sessions, and a definition file with faults."""

from __future__ import annotations

import random
from pathlib import Path

OWN_FILE = "my.units"
OWN_TEXT = "# Your own definitions, after those of the library.\n!include all.units\n\n"
FAULTY_TEXT = OWN_TEXT + "loopa 2 loopb\nloopb 3 loopa\nsmoot 67 in\nbroken 2 +\n"

# Settings of the options, as values of the controls.
OPTIONS: list[dict[str, str | bool]] = [
    {}, {"digits": "20"}, {"digits": "3"}, {"exact": True}, {"strict": True}, {"round": True}, {"locale": "en_GB"},
    {"root": "all.units"}, {"root": ""},
]

SPECIAL = [
    ("10 m", ""), ("m", "s"), ("foo", "m"), ("2 +", "m"), ("sqrt(2)", ""), ("1e400", ""), ("1/0", ""), ("m", "bar"),
    ("tempF", ""), ("tempF(50)", "tempC"), ("1.4 m", "ft;in"), ("10 m", "?"), ("((((", ""), ('"m', "m"), ("m'", "ft"),
    ("µm", "m"), ("½ inch", "mm"), ("m;ft", ""), ("-3 ft", "m"), ("  10   m ", " ft "), ("1e30 m", "1e-30 m"),
    ("sin(1)", ""), ("m^60", ""), ("m^0.5", ""), ("kkm", ""), ("5/8 in", "mm"), ("s", "Hz"), ("ft;in", "m"),
    ("1 m", "ft;;in"), ("\t", "m"), ("<b>m</b>", ""), ("日本", "m"),
]

SESSIONS = [
    ["10 meters", "feet", "m", "", "foo", "search yard", ":define smoot 67 in", "smoot", "m", ":undo", "smoot", ":redo",
     "smoot", "m", "?"],
    [":watch 1 ft ; m", ":define ft 1|3 yd", ":define ft 2 m", ":undo", ":undo", ":redo", ":unwatch", ":stats",
     ":nonsense", ":drop ft", "1 ft", "m"],
    [":locale en_GB", "1 gallon", "l", ":locale en_US", "1 gallon", "l", ":set UNITS_ENGLISH GB", "1 gallon", "l",
     ":undo", "1 gallon", "l"],
    [":define aa bb", ":define bb aa", "aa", ":define bb 3 m", "aa", "cm", ":save s.units", ":drop aa", ":load s.units",
     "aa", "m", "quit"],
    [":define smoot 67 in", f":save {OWN_FILE}", "2 smoot", "in", ":define smoot 68 in", f":save {OWN_FILE}",
     "2 smoot", "in"],
    [":save s.units", ":define bb 3 m", ":save s.units", ":drop bb", ":load s.units", "bb", "cm", ":save /proc/self/fd"],
]


def arguments(options: dict[str, str | bool]) -> list[str]:
    """The program's arguments for these values of the controls."""
    root = options.get("root", OWN_FILE)
    words = ["-f", str(root)] if root else []
    if "locale" in options:
        words += ["-l", str(options["locale"])]
    if options.get("exact"):
        words.append("--exact")
    elif "digits" in options:
        words += ["-d", str(options["digits"])]
    return words + ["-s"] * bool(options.get("strict")) + ["-r"] * bool(options.get("round"))


def defined_names(library: Path) -> list[str]:
    """The plain units of the library: no functions and no prefixes."""
    lines = [line.split() for file in sorted(library.glob("*.units")) for line in file.read_text().splitlines() if line]
    names = {words[0] for words in lines if words and words[0][0].isalpha()}
    return sorted(name for name in names if "(" not in name and not name.endswith("-"))


def questions(count: int, library: Path) -> list[tuple[str, str]]:
    """FROM and TO of each question. The same count gives the same questions."""
    rng = random.Random(20)
    names = defined_names(library)
    pairs = list(SPECIAL[:count])
    while len(pairs) < count:
        number = rng.choice(["", "2 ", "1|3 ", "0.125 ", "1e5 ", "-7 ", "12345.678 "])
        one, other = rng.choice(names), rng.choice(names)
        pairs.append(rng.choice([
            (f"{number}{one}", ""), (f"{number}{one}", other), (f"{number}{one} + 2 {one}", one),
            (f"{number}{one} / {other}", ""), (f"{number}k{one}", f"m{one}"), (f"{number}{one}^2", f"{one}^2"),
            (f"{number}{one}", f"{one};1|7 {one}"), (f"{one} {other}", f"{other} {one}"), (f"1/{one}", one),
        ]))
    return pairs
