"""A session answers each line by itself, and the page has help for it."""

from __future__ import annotations

from typing import Any

from page import Page

# Counts the instances of the module that the page makes, each of which runs lines.
COUNT = """(() => {
  globalThis.instances = 0;
  const Instance = WebAssembly.Instance;
  WebAssembly.Instance = function (...given) { globalThis.instances++; return new Instance(...given); };
})()"""


def check(name: str, page: Page, native: Any, tally: Any) -> None:
    page.forget()
    page.click("tab-session")
    page.enter_lines(["10 m", "ft"])
    if name == "Chromium":
        page.browser.value(COUNT)
        page.enter_lines(["3 m", "ft"] * 5)
        tally.equal(f"{name}: lines that were run again", page.browser.value("globalThis.instances"), 0)
    else:
        tally.skip(f"{name}: the number of runs of a session, which a script in Chromium counts")
    before = page.session_output()
    for word in ("?", ":help"):
        page.enter_lines([word])
        shown = page.browser.value("document.querySelector('#transcript .help-text:last-child')?.textContent ?? ''")
        tally.equal(f"{name}: {word} at the first prompt", ":define smoot 67 in" in shown, True)
    page.enter_lines(["10 m", "?"])
    tally.equal(f"{name}: ? at the second prompt", "\tsurvey_foot\t" in page.text("transcript"), True)
    page.open("#view=session")
    page.wait(500)
    tally.equal(f"{name}: help is no line of the session", page.session_output()[0].startswith(before[0]), True)
    page.click("restart")
