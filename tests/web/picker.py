"""The list of names: the units that people want first, and what a phone shows while it is open."""

from __future__ import annotations

from typing import Any

from page import Page

FIRST = {
    "5 miles": ["km", "m", "cm", "mm", "mi", "ft", "in"], "10 kg": ["kg", "g", "mg", "lb", "oz"],
    "60 mph": ["km/h", "mph", "m/s"], "tempF(72)": ["tempC", "tempF", "K"], "3 degC": ["degC", "degF", "K"],
    "2 cups": ["L", "mL"], "100 kWh": ["kWh", "J", "kJ"], "30 psi": ["bar", "kPa", "psi"], "1 acre": ["m^2", "km^2"],
}
PHONE = (360, 740)
# The parts of the page that the open list covers.
COVERED = """(() => {
  const box = id => document.querySelector(id).getBoundingClientRect();
  const list = box('.names:not([hidden])');
  return ['#from', '#to', '#answer'].filter(id => {
    const {top, bottom, height} = box(id);
    return height === 0 || top < list.bottom && bottom > list.top;
  });
})()"""


def open_units(page: Page, from_: str) -> list[str]:
    """The names in the list for To, after FROM was typed and To was chosen."""
    page.ask([(from_, "")])
    page.focus("to")
    page.browser.value("document.getElementById('to').dispatchEvent(new MouseEvent('click'))")
    page.wait_for("!document.getElementById('to-names').hidden")
    return page.options_of("to-names")


def check_order(name: str, page: Page, equal: Any) -> None:
    for from_, expected in FIRST.items():
        equal(f"{name}: the first units for {from_}", open_units(page, from_)[: len(expected)], expected)
    page.ask([("5 miles", "furlong")])
    page.rest()
    equal(f"{name}: the unit that was used last", open_units(page, "7 yards")[:3], ["furlong", "km", "m"])
    equal(f"{name}: and not for another quantity", "furlong" in open_units(page, "10 kg"), False)
    page.ask([("", "")])
    for typed, first in (("10 kilo", ["km", "kg"]), ("3 yar", ["yd", "yard"])):
        page.browser.value("document.getElementById('from').value = ''")
        page.focus("from")
        page.browser.type(typed)
        page.wait_for("!document.getElementById('from-names').hidden")
        equal(f"{name}: the first names for {typed}", page.options_of("from-names")[:2], first)
        page.browser.press("Escape")


def check_units(name: str, page: Page, native: Any, equal: Any) -> None:
    """Each unit of the lists is one of its quantity."""
    lists = page.lists()
    equal(f"{name}: at least 25 quantities", len(lists) >= 25, True)
    for quantity, units in lists:
        first = {"scale": "tempC(20)", "K": "3 degC"}.get(quantity, units[0])
        wrong = [unit for unit in units if native.run(["-f", "all.units", "--", first, unit]).returncode != 0]
        equal(f"{name}: units that do not fit {quantity}", wrong, [])
        printed = native.run(["-f", "all.units", "--", first]).stdout.split("\n", 1)[0].split(" = ")[-1]
        key = "K" if quantity == "scale" else quantity
        equal(f"{name}: the quantity of {first}", printed.endswith(f" {key}".rstrip()), True)


def check_phone(name: str, page: Page, equal: Any) -> None:
    page.browser.resize(*PHONE, False)
    open_units(page, "5 miles")
    equal(f"{name}: what the list covers on a phone", page.browser.value(COVERED), [])
    page.focus("from")
    page.browser.type(" + 3 yar")
    page.wait_for("!document.getElementById('from-names').hidden")
    equal(f"{name}: what the list covers on a phone while FROM is typed", page.browser.value(COVERED), [])
    page.browser.resize(1100, 900, False)


def check(name: str, page: Page, native: Any, tally: Any) -> None:
    page.forget()
    check_order(name, page, tally.equal)
    check_units(name, page, native, tally.equal)
    check_phone(name, page, tally.equal)
    page.forget()
