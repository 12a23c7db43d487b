"""The answer as a person writes it, its copies, a swap, and the line for a terminal, which has to work in one."""

from __future__ import annotations

import os
import re
import subprocess
from pathlib import Path
from typing import Any

import cases
from page import Page

ROOT = Path(__file__).resolve().parents[2]
# The question, and the answer as it is to be seen.
WRITTEN = [
    (("60 mph", "km/h"), "96.56064 km/h"), (("1 au", "km"), "1.4959787 × 10⁸ km"), (("1e30 m", "km"), "10²⁷ km"),
    (("µm", "m"), "10⁻⁶ m"), (("1 ft^2", "m^2"), "0.09290304 m²"), (("V", ""), "1 kg·m²/(A·s³)"),
    (("60 mph", ""), "26.8224 m/s"), (("mpg", ""), "425143.71/m²"), (("10 N", "kg*m/s^2"), "10 kg·m/s²"),
    (("9 J/kg", "m/s*m/s"), "9 m/s*m/s"), (("tempF(72)", "tempC"), "22.222222 °C"),
    (("1.4 m", "ft;in"), "4 ft + 7.1181102 in"), (("1/3 cup", "tbsp"), "48 tbsp"), (("-40 m", "m"), "-40 m"),
]
# A fraction only where it is short and says more than the decimal.
FRACTIONS = [(("10 m", "ft"), "12500/381"), (("60 mph", "km/h"), None), (("1 electron_mass", "kg"), None),
             (("180 degrees", "rad"), None), (("1 ft", "yd"), "1/3")]
SWAPS = [
    (("60 mph", "km/h"), ["96.56064 km/h", "mph"]), (("tempF(72)", "tempC"), ["tempC(22.222222)", "tempF"]),
    (("1 au", "km"), ["1.4959787e+08 km", "au"]), (("m", "ft"), ["3.2808399 ft", "m"]),
    (("1.4 m", "ft;in"), ["4 ft + 7.1181102 in", "m"]), (("5 gallons", "miles"), ["miles", "5 gallons"]),
]
TERMINAL = [
    ("60 mph", "km/h"), ("1.4 m", "ft;in"), ("1/3 cup", "tbsp"), ("10 in", "cm"), ("-3 ft", "m"), ("sqrt(4) m", "ft"),
    ("it's", "m"), ("tempF(72)", "tempC"), ("1 smoots", "m"), ("1 kilosmoot", "m"), ("1 puppies", "m"), ("1 toise", "m"),
    ("60 mph", ""), ("10 \"in", "cm"), ("$HOME", "`id`"), ("5 in to cm", ""),
]
COPY = """(() => {
  globalThis.copies = [];
  Object.defineProperty(navigator, 'clipboard', {value: {writeText: async text => { copies.push(text); }},
    configurable: true});
})()"""
SUPERSCRIPTS = str.maketrans("⁻⁰¹²³⁴⁵⁶⁷⁸⁹", "-0123456789")
NUMBER = re.compile(r"-?\d+(?:\.\d+)?(?:e[+-]\d+)?(?:\|\d+)?")


def number_of(text: str) -> str:
    """A number as the program prints it, from one as the page writes it."""
    def powers(match: re.Match[str]) -> str:
        sign, mantissa, exponent = match.groups()
        return f"{sign}{mantissa or '1'}e{int(exponent.translate(SUPERSCRIPTS)):+03d}"
    text = re.sub(r"(-?)(?:(\d+(?:\.\d+)?) × )?10([⁻⁰¹²³⁴⁵⁶⁷⁸⁹]+)", powers, text)
    return re.sub(r"^(-?\d+)/(\d+)$", r"\1|\2", text)


def is_number_of(written: str, reply: str) -> bool:
    """Whether the program prints all numbers of an answer, digit by digit."""
    printed = set(NUMBER.findall(reply))
    return all(number in printed for number in NUMBER.findall(number_of(written)))


def large(page: Page) -> str:
    return page.browser.value("document.querySelector('#answer .large').textContent")


def check_written(name: str, page: Page, equal: Any) -> None:
    for question, expected in WRITTEN:
        page.ask([question])
        equal(f"{name}: {question} as a person writes it", large(page), expected)
        equal(f"{name}: {question} without a quotient", "(1 /" in page.text("answer"), False)
    for question, expected in FRACTIONS:
        page.ask([question])
        shown = page.browser.value("document.querySelector('#answer .fraction bdi')?.textContent ?? null")
        equal(f"{name}: the fraction of {question}", shown, expected)
        equal(f"{name}: what is claimed of {question}", "exactly" in page.text("answer"), False)
    page.print_as_program(True)
    page.ask([("60 mph", "km/h")])
    equal(f"{name}: the text of the program", page.text("answer"), "60 mph = 96.56064 km/h60 mph = (1 / 0.010356187) km/h")
    page.print_as_program(False)


def check_copies(name: str, page: Page, equal: Any) -> None:
    """In Chromium. A script of the test cannot replace the clipboard of a page in Firefox."""
    page.browser.value(COPY)
    page.ask([("60 mph", "km/h")])
    page.click("copy-answer")
    page.print_as_program(True)
    page.click("copy-answer")
    page.print_as_program(False)
    page.wait(50)
    copies = page.browser.value("globalThis.copies")
    printed = "\t60 mph = 96.56064 km/h\n\t60 mph = (1 / 0.010356187) km/h"
    equal(f"{name}: copies of what is seen", copies, ["96.56064 km/h", printed])


def check_swaps(name: str, page: Page, equal: Any) -> None:
    for question, expected in SWAPS:
        page.ask([question])
        page.click("swap")
        equal(f"{name}: {question} turned round", [page.property("from", "value"), page.property("to", "value")], expected)
    page.ask([("60 mph", "km/h")])
    page.click("swap")
    equal(f"{name}: the answer turned round", large(page), "60 mph")


def run_in_shell(command: str, folder: str) -> str:
    """Both streams of a line in a shell whose commands are those of the repository and whose home is empty."""
    environment = {"PATH": f"{ROOT / 'bin'}:{os.environ['PATH']}", "HOME": folder, "XDG_CONFIG_HOME": folder}
    process = subprocess.run(["bash", "-c", command], cwd=folder, env=environment, stdin=subprocess.DEVNULL, timeout=60,
                             capture_output=True, encoding="utf-8", check=False)
    return process.stdout + process.stderr


def check_terminal(name: str, page: Page, native: Any, equal: Any) -> None:
    own = cases.OWN_TEXT + "smoot 67 in\npuppy 2 smoot\n"
    page.click("tab-definitions")
    page.replace_text(own)
    page.click("tab-convert")
    for options in ({}, {"locale": "en_GB", "digits": "20"}):
        page.set_options(options)
        for question in TERMINAL:
            reply = page.ask([question])[0][0]
            command = page.text("command")
            if command.startswith("There is no line"):
                equal(f"{name}: {question} without a line", "\t" in reply, False)
                continue
            printed = run_in_shell(command, str(native.folder))
            equal(f"{name}: {question} {options} in a terminal: {command}", printed, reply)
    page.set_options({})
    page.click("tab-definitions")
    page.click("restore")
    page.click("tab-convert")


def check(name: str, page: Page, native: Any, tally: Any) -> None:
    page.forget()
    check_written(name, page, tally.equal)
    if name == "Chromium":
        check_copies(name, page, tally.equal)
    else:
        tally.skip(f"{name}: copies of the answer")
    check_swaps(name, page, tally.equal)
    check_terminal(name, page, native, tally.equal)
