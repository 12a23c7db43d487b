"""Screenshots of the page for the documents: light, dark, and on a small screen."""

from __future__ import annotations

from pathlib import Path

import cases
from page import Page

# A refusal is marked as one when typing stops.
REFUSED = "document.getElementById('answer').className === 'refused'"
WIDE, PHONE = (1000, 780), (390, 844)
SESSION = ["10 meters", "feet", ":define smoot 67 in", "1 smoot", "m", ":watch 1 smoot ; cm", ":define smoot 68 in",
           ":undo", "search smoot"]


def take(page: Page, folder: Path) -> None:
    folder.mkdir(parents=True, exist_ok=True)
    page.open()
    page.browser.value("localStorage.clear()")
    take_conversions(page, folder)
    take_session(page, folder)
    take_definitions(page, folder)
    page.browser.value("localStorage.clear()")


def take_conversions(page: Page, folder: Path) -> None:
    for name, size, is_dark in (("light", WIDE, False), ("dark", WIDE, True), ("phone", PHONE, False)):
        page.browser.resize(*size, is_dark)
        page.open("#from=10+meters&to=feet")
        page.browser.picture(folder / f"convert-{name}.png")
    page.browser.resize(*WIDE, False)
    page.open("#from=5+gallons&to=miles")
    page.ask([("5 gallons", "miles")])
    page.wait_for(REFUSED)
    page.browser.picture(folder / "refused-light.png")
    page.browser.resize(*WIDE, True)
    page.open()
    page.focus("from")
    page.browser.type("3 yar")
    page.wait_for("!document.getElementById('from-names').hidden")
    page.browser.press("ArrowDown")
    page.browser.picture(folder / "names-dark.png")


def take_session(page: Page, folder: Path) -> None:
    page.click("tab-session")
    page.enter_lines(SESSION)
    page.browser.picture(folder / "session-dark.png")
    page.browser.resize(*PHONE, True)
    page.browser.picture(folder / "session-phone.png")


def take_definitions(page: Page, folder: Path) -> None:
    page.browser.resize(*WIDE, False)
    page.click("tab-definitions")
    page.replace_text(cases.FAULTY_TEXT)
    page.browser.picture(folder / "definitions-light.png")
