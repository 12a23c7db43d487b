"""Checks the accessibility of the page in a browser: names, contrast, widths, headings, roles, use by keyboard alone,
and the announcements to a screen reader. Debian has no checker for this. The rules are those of WCAG 2.2 AA that a
program can test.
"""

from __future__ import annotations

from collections.abc import Callable
from pathlib import Path
from typing import Any

import cases
from page import Page
from pictures import REFUSED

RULES = Path(__file__).with_name("accessibility.js").read_text()
VIEWS = ("convert", "session", "definitions")
NARROW, WIDE = (320, 800), (1100, 900)  # at 320 pixels, WCAG forbids horizontal scrolling
NAMED_ROLES = {"button", "textbox", "searchbox", "combobox", "spinbutton", "checkbox", "tab", "tabpanel", "listbox",
               "log", "option", "form", "region", "heading", "tablist", "menuitem", "link", "DisclosureTriangle"}
Equal = Callable[[str, Any, Any], None]


def ask(browser: Any, rule: str) -> Any:
    """The result of a function of accessibility.js in the page."""
    return browser.value(f"(globalThis.accessibility ?? {RULES.strip()}, accessibility.{rule}())")


def show(page: Page, view: str) -> None:
    """Opens a view with all that it can show: details, a refused conversion, replies and faults of a session, and a
    check with faults."""
    page.open(f"#from=5+gallons&to=miles&view={view}")
    page.browser.value("document.querySelectorAll('details').forEach(e => e.open = true)")
    if view == "session":
        page.enter_lines(["10 m", "ft", "nosuch", ":define smoot 67 in", ":load gone.units"])
    if view == "definitions":
        page.replace_text(cases.FAULTY_TEXT)
        page.click("new-file")
    page.wait_for(REFUSED)
    page.wait(250)


def set_screen(page: Page, size: tuple[int, int], is_dark: bool = False) -> None:
    """Sets the size and the theme of the page, and waits until it is drawn."""
    page.browser.resize(*size, is_dark)
    theme = "matchMedia('(prefers-color-scheme: dark)').matches"
    page.wait_for(f"innerWidth === {size[0]} && {theme} === {str(is_dark).lower()}")
    page.browser.value("new Promise(done => requestAnimationFrame(() => requestAnimationFrame(done)))")


def check_looks(page: Page, view: str, equal: Equal) -> None:
    browser = page.browser
    for is_dark in (False, True):
        set_screen(page, WIDE, is_dark)
        for rule in ("lowContrast", "faintFields"):
            equal(f"{rule} of {view}, dark {is_dark}", ask(browser, rule), [])
    set_screen(page, NARROW)
    equal(f"width of {view} beyond {NARROW[0]} pixels", ask(browser, "excessWidth"), 0)
    equal(f"targets of {view} that are too small", ask(browser, "smallTargets"), [])
    with browser.touch():
        equal(f"targets of {view} that are too small for a finger", ask(browser, "smallTouchTargets"), [])
    set_screen(page, (2 * NARROW[0], 800))
    browser.value("document.documentElement.style.fontSize = '200%'")
    equal(f"width of {view} with text of twice the size", ask(browser, "excessWidth"), 0)
    browser.value("document.documentElement.style.fontSize = ''")


def check_structure(page: Page, view: str, equal: Equal) -> None:
    for rule in ("structure", "wrongRoles", "brokenReferences", "duplicateIds", "mixedDirections"):
        equal(f"{rule} of {view}", ask(page.browser, rule), [])
    equal(f"nodes of {view} without a name", page.browser.unnamed_nodes(NAMED_ROLES), [])


def check_stops(page: Page, view: str, equal: Equal) -> None:
    """The tab key reaches each control once, in the order of the page, both ways, and the focus is visible."""
    browser = page.browser
    if browser.name == "Firefox":  # where a list that scrolls is a stop of its own
        browser.value("document.getElementById('conforming').open = false")
    for is_dark in (False, True):
        set_screen(page, WIDE, is_dark)
        ask(browser, "focusFirst")
        stops = ask(browser, "stops")
        indexes, faint = [ask(browser, "stopIndex")], ask(browser, "faintFocus")
        for _ in stops[1:]:
            browser.press("Tab")
            indexes.append(ask(browser, "stopIndex"))
            faint += ask(browser, "faintFocus")
        equal(f"stops of the tab key in {view}", indexes, list(range(len(stops))))
        equal(f"focus that is not seen in {view}, dark {is_dark}", faint, [])
    for expected in reversed(range(len(stops) - 1)) if browser.name == "Chromium" else ():
        browser.press("Tab", is_shifted=True)
        equal(f"a stop backwards in {view}", ask(browser, "stopIndex"), expected)
    equal(f"stops of {view} against the order of reading", ask(browser, "stopsAgainstReading"), [])


def check_lists(page: Page, equal: Equal) -> None:
    """Checks the list of names while it is open, in both themes."""
    page.open()
    page.focus("from")
    page.browser.type("3 yar")
    page.wait_for("!document.getElementById('from-names').hidden")
    page.browser.press("ArrowDown")
    for is_dark in (False, True):
        set_screen(page, WIDE, is_dark)
        equal(f"contrast with names listed, dark {is_dark}", ask(page.browser, "lowContrast"), [])
    equal("roles with names listed", ask(page.browser, "wrongRoles"), [])
    equal("the field says that its list is open", page.property("from", "ariaExpanded"), "true")
    page.browser.press("Escape")
    equal("the field says that its list is closed", page.property("from", "ariaExpanded"), "false")


def check_announcements(page: Page, equal: Equal) -> None:
    """Checks the announcements that a screen reader makes while the focus does not move."""
    page.open()
    for from_, to, part in (("10 m", "ft", "32.808399"), ("m", "s", "conformability"), ("nosuch", "m", "nosuch")):
        page.ask([(from_, to)])
        is_announced = f"document.getElementById('announcement').textContent.includes({part!r})"
        equal(f"the answer to {from_} in {to} is announced", page.wait_for(is_announced), True)
    page.browser.value("""(() => {
      const status = document.getElementById('announcement');
      new MutationObserver(() => { status.dataset.count = Number(status.dataset.count ?? 0) + 1; })
        .observe(status, {childList: true});
    })()""")
    for question in (("10 m", "ft"), ("10 m", "ft")):
        page.ask([question])
        page.rest()
    count = page.browser.value("document.getElementById('announcement').dataset.count")
    equal("how often the same answer is announced", count, "1")
    page.click("tab-session")
    page.enter_lines(["1 yd", "m"])
    equal("a reply in the log", "0.9144" in page.text("transcript"), True)
    page.click("tab-definitions")
    page.replace_text(cases.FAULTY_TEXT)
    equal("the result of the check is announced", page.text("check-summary") != "", True)
    page.click("restore")


def check_keyboard_alone(page: Page, equal: Equal) -> None:
    """Tries a conversion, a swap, the tabs and a session without a pointer."""
    browser = page.browser
    page.open()
    page.focus("from")
    browser.type("10 m")
    for key in ("Escape", "Tab", "Tab"):
        browser.press(key)
    browser.type("ft")
    page.wait_for("document.getElementById('answer').textContent.includes('32.808399')")
    browser.press("Escape")
    browser.press("Tab", is_shifted=True)
    browser.press("Enter")
    equal("swapped by the keyboard", [page.property("from", "value"), page.property("to", "value")], ["32.808399 ft", "m"])
    page.focus("tab-convert")
    browser.press("ArrowRight")
    equal("the right arrow in the tabs", browser.value("document.activeElement.id"), "tab-session")
    browser.press("ArrowLeft")
    browser.press("ArrowLeft")
    equal("the left arrow goes round", browser.value("document.activeElement.id"), "tab-definitions")
    browser.press("ArrowRight")
    browser.press("ArrowRight")
    page.focus("line")
    for line in ("3 ft", "yd"):
        browser.type(line)
        browser.press("Enter")
    equal("a session by the keyboard", page.session_output()[0].endswith("* 1\n\t/ 1\nYou have: "), True)
    page.click("restart")


def check(page: Page, equal: Equal) -> None:
    for view in VIEWS:
        show(page, view)
        check_looks(page, view, equal)
        check_structure(page, view, equal)
        check_stops(page, view, equal)
    page.forget()
    check_lists(page, equal)
    check_announcements(page, equal)
    if page.browser.name == "Chromium":
        check_keyboard_alone(page, equal)
    page.browser.value("localStorage.clear()")
