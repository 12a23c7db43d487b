"""Links, the history of the browser, and the questions that the page keeps."""

from __future__ import annotations

from typing import Any

import cases
from page import Page

OWN = cases.OWN_TEXT + "smoot 67 in\ngallon 5 l\nfoot 2 m\nunused 3 m\n"
LARGE = "document.querySelector('#answer .large').textContent"
OPTIONS: list[dict[str, Any]] = [{}, {"digits": "20", "locale": "en_GB"}, {"exact": True, "strict": True}]
QUESTIONS = [("1 gallon", "l"), ("3 kilosmoots", "m"), ("1/3 cup", "tbsp")]


def keep(page: Page, text: str | None, options: dict[str, Any]) -> None:
    """Makes a visitor who has these definitions and options."""
    page.forget()
    if text is not None:
        page.click("tab-definitions")
        page.replace_text(text)
        page.click("tab-convert")
    for id_, value in options.items():
        property_ = "checked" if isinstance(value, bool) else "value"
        page.browser.value(f"""(field => {{
          field.{property_} = {str(value).lower() if isinstance(value, bool) else repr(value)};
          field.dispatchEvent(new Event('change'));
        }})(document.getElementById({id_!r}))""")


def note(page: Page) -> str:
    return "" if page.property("link-note", "hidden") else page.text("link-note-text")


def check_answers(name: str, page: Page, equal: Any) -> None:
    """The answer of the sender is the answer of each reader, whatever the reader has chosen."""
    sent = []
    for options in OPTIONS:
        keep(page, OWN, options)
        for question in QUESTIONS:
            page.ask([question])
            sent.append((question, page.browser.value("location.hash"), page.browser.value(LARGE)))
    for text, options in ((None, {}), ("!include all.units\nsmoot 1 m\ngallon 9 l\n", {"locale": "en_GB", "digits": "3"})):
        keep(page, text, options)
        for question, link, answer in sent:
            page.open(link)
            equal(f"{name}: {question} of a link for a reader with {options}", page.browser.value(LARGE), answer)


def check_notes(name: str, page: Page, native: Any, equal: Any) -> None:
    keep(page, None, {"locale": "en_GB"})
    page.open("#from=1+gallon&to=l&locale=en_US&digits=8")
    equal(f"{name}: a note of another locale", "locale: en_US (yours: en_GB)" in note(page), True)
    equal(f"{name}: the answer of a link", page.browser.value(LARGE), "3.7854118 l")
    page.click("use-mine")
    equal(f"{name}: my own answer", (page.browser.value(LARGE), note(page)), ("4.54609 l", ""))
    page.open("#from=60+mph&to=km/h&locale=en_US")
    equal(f"{name}: no note where nothing differs", note(page), "")
    page.open("#from=1+gallon&to=l&locale=xx_XX")
    equal(f"{name}: a locale that the page does not have", "locale xx_XX" in note(page), True)
    page.open("#from=60+mph&to=km/h&edition=0.0.1-00000000")
    equal(f"{name}: another edition", "another edition" in note(page), True)
    page.open("#from=1+ft&to=m&own=ft+2+m")
    equal(f"{name}: definitions of a stranger are shown", "definitions of its own: ft 2 m" in note(page), True)
    equal(f"{name}: and not kept", "ft 2 m" in page.browser.value("JSON.stringify(localStorage)"), False)
    page.open("#from=1+ft&to=m&own=" + "ft+2+m%0A" * 2000)
    equal(f"{name}: definitions that are too long", "too long" in note(page), True)
    page.open("#from=1+ft&to=m&incomplete=true")
    equal(f"{name}: definitions that the link lacks", "does not have" in note(page), True)
    for evil in ("<img src=x onerror=alert(1)>", "'\";\u202e", "!include my.units", "%00", "a" * 3000):
        page.open(f"#from=1+ft&to={evil}&own={evil}&locale={evil}&edition={evil}&digits={evil}&view={evil}")
        equal(f"{name}: elements made by a link", page.browser.value("document.querySelectorAll('img').length"), 0)
    page.open("#from=1+mile&to=km&digits=20&strict=true")
    page.ask([("1 mile", "km")])
    expected = native.streams(["-f", cases.OWN_FILE, "-d", "20", "-s", "--", "1 mile", "km"])
    equal(f"{name}: a link with options", page.text("reply"), expected)
    page.browser.value("location.hash = '#from=1+mile&to=km'")
    page.rest()
    equal(f"{name}: a second link does not keep the options of the first", page.property("strict", "checked"), False)


def check_definitions(name: str, page: Page, equal: Any) -> None:
    """A link has the definitions that the answer uses, and no others."""
    keep(page, cases.OWN_TEXT + "blorp 67 in\ngallon 5 l\nunused 3 blorp\n", {})
    page.ask([("3 kiloblorps", "m")])
    link = page.browser.value("new URLSearchParams(location.hash.slice(1)).get('own')")
    equal(f"{name}: the definitions in a link", link, "blorp 67 in")
    page.ask([("10 kg", "lb")])
    equal(f"{name}: no definitions in a link", "own=" in page.browser.value("location.hash"), False)


def check_back(name: str, page: Page, equal: Any) -> None:
    """In a tab of its own, since a browser keeps only some entries of each."""
    first = page.browser.tab
    page.browser.new_tab()
    page.forget()
    questions = [("10 m", "ft"), ("60 mph", "km/h"), ("1 acre", "m^2")]
    for question in questions:
        page.ask([question])
        page.rest()
    page.click("tab-session")
    shown = []
    for step in ("back", "back", "back", "forward"):
        page.browser.value(f"setTimeout(() => history.{step}(), 0), 0")
        page.rest()
        shown.append((page.property("from", "value"), page.property("to", "value")))
    equal(f"{name}: Back and Forward", shown, [questions[2], questions[1], questions[0], questions[1]])
    page.browser.open("about:blank")
    page.browser.use_tab(first)


def check_asked(name: str, page: Page, equal: Any) -> None:
    listed = "[...document.querySelectorAll('#asked-list button')].map(button => button.textContent)"
    page.forget()
    equal(f"{name}: no questions on a first visit", page.property("asked", "hidden"), True)
    for question in (("10 m", "ft"), ("60 mph", "km/h"), ("nosuch", "m"), ("10 m", "ft")):
        page.ask([question])
        page.rest()
    page.open()
    page.browser.value("document.getElementById('asked').open = true")
    page.wait(100)
    equal(f"{name}: the questions that were answered", page.browser.value(listed), ["10 m → ft", "60 mph → km/h"])
    page.browser.value("document.querySelectorAll('#asked-list button')[1].click()")
    equal(f"{name}: a question asked again", page.browser.value(LARGE), "96.56064 km/h")
    page.click("forget")
    equal(f"{name}: the questions are forgotten", page.property("asked", "hidden"), True)
    equal(f"{name}: in storage too", "units:asked" in page.browser.value("JSON.stringify(localStorage)"), False)


def check(name: str, page: Page, native: Any, tally: Any) -> None:
    check_answers(name, page, tally.equal)
    check_notes(name, page, native, tally.equal)
    check_definitions(name, page, tally.equal)
    check_back(name, page, tally.equal)
    check_asked(name, page, tally.equal)
    page.forget()
