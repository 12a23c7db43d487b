"""Two tabs that edit the same files: no edit of either may be lost, from storage or from the other tab."""

from __future__ import annotations

import json
from typing import Any

import cases
from page import Page

ROUNDS = 12
# Puts a line at the end of the shown file, as if it were typed: at once, or at a time that both tabs share.
APPEND = """((line, time) => setTimeout(() => {
  const text = document.getElementById('text');
  text.value += line;
  text.dispatchEvent(new Event('input'));
}, time - Date.now()))"""
REPLACE = """((before, after, time) => setTimeout(() => {
  const text = document.getElementById('text');
  window.isReplaced = text.value.includes(before);
  text.value = text.value.replace(before, after);
  text.dispatchEvent(new Event('input'));
}, time - Date.now()))"""
CLICK = """((id, time) => setTimeout(() => document.getElementById(id).click(), time - Date.now()))"""
KEPT = "JSON.stringify(localStorage)"


class Tabs:
    """The page in two tabs of one browser, each with its Definitions view."""

    def __init__(self, page: Page) -> None:
        self.page = page
        self.all = [page.browser.tab, page.browser.new_tab()]
        for tab in reversed(self.all):
            self.use(tab)
            page.open("#view=definitions")

    def use(self, tab: str) -> None:
        self.page.browser.use_tab(tab)

    def call(self, tab: str, function: str, *arguments: object) -> None:
        self.use(tab)
        self.page.browser.value(f"{function}({', '.join(map(json.dumps, arguments))})")

    def append(self, tab: str, line: str) -> None:
        self.call(tab, APPEND, line, 0)
        self.page.wait(700)

    def soon(self) -> int:
        """A time in half a second, by the clock that both tabs have."""
        return self.page.browser.value("Date.now() + 500")

    def texts(self) -> list[str]:
        """The text that each tab shows."""
        texts = []
        for tab in self.all:
            self.use(tab)
            self.page.wait(300)
            texts.append(self.page.property("text", "value"))
        return texts


def lost_lines(tabs: Tabs, lines: list[str]) -> list[str]:
    """The lines that one of the tabs or the storage lacks."""
    one, other = tabs.texts()
    kept = tabs.page.browser.value(KEPT)
    return [line for line in lines if line not in one or line not in other or line not in kept]


def check_edits(name: str, tabs: Tabs, equal: Any) -> None:
    one, other = tabs.all
    tabs.append(other, "second_tab 2 m\n")
    tabs.append(one, "first_tab 3 m\n")
    tabs.append(other, "second_again 4 m\n")
    lines = ["second_tab 2 m", "first_tab 3 m", "second_again 4 m"]
    equal(f"{name}: lines lost by two tabs that take turns", lost_lines(tabs, lines), [])
    for i in range(ROUNDS):
        time = tabs.soon()
        for tab, word in zip(tabs.all, ("left", "right")):
            tabs.call(tab, APPEND, f"{word}{i} 2 m\n", time)
            lines.append(f"{word}{i} 2 m")
        tabs.page.wait(900)
    equal(f"{name}: lines lost by two tabs at the same moment", lost_lines(tabs, lines), [])
    check_same_line(name, tabs, equal)
    tabs.call(one, REPLACE, "second_tab 2 m\n", "", 0)
    tabs.page.wait(700)
    equal(f"{name}: a line that one tab deleted", ["second_tab 2 m" in text for text in tabs.texts()], [False, False])


def check_same_line(name: str, tabs: Tabs, equal: Any) -> None:
    """Both tabs change the same line. Sometimes one of them has heard of the other before, which is no case."""
    lines = []
    for i in range(ROUNDS):
        tabs.append(tabs.all[0], f"both{i} 4 m\n")
        time, is_case = tabs.soon() if i % 2 else 0, []
        for tab, factor in zip(tabs.all, ("5", "6")):
            tabs.call(tab, REPLACE, f"both{i} 4 m", f"both{i} {factor} m", time)
        tabs.page.wait(1700)
        for tab in tabs.all:
            tabs.use(tab)
            is_case.append(tabs.page.browser.value("window.isReplaced"))
        lines += [f"both{i} {factor} m" for factor in "56"] if all(is_case) else []
        if len(lines) >= 4:
            break
    equal(f"{name}: both tabs changed the same line", lines != [], True)
    equal(f"{name}: lines lost by two tabs that change the same line", lost_lines(tabs, lines), [])


def check_closing(name: str, tabs: Tabs, equal: Any) -> None:
    """A tab that is left while the other has unsaved text, and a file that one tab deletes while the other edits it."""
    one, other = tabs.all
    tabs.call(one, APPEND, "typed_before 2 m\n", 0)
    tabs.call(other, APPEND, "typed_and_left 3 m\n", 0)
    tabs.page.browser.open("about:blank")
    tabs.use(one)
    tabs.page.wait(700)
    tabs.use(other)
    tabs.page.open("#view=definitions")
    lines = ["typed_before 2 m", "typed_and_left 3 m"]
    equal(f"{name}: lines lost by a tab that was left", lost_lines(tabs, lines), [])
    time = tabs.soon()
    tabs.call(one, APPEND, "kept_from_deletion 2 m\n", time)
    tabs.call(other, CLICK, "restore", time + 50)
    tabs.page.wait(1200)
    equal(f"{name}: an edit of a file that the other tab deletes", lost_lines(tabs, ["kept_from_deletion 2 m"]), [])


def check_sessions(name: str, tabs: Tabs, equal: Any) -> None:
    page = tabs.page
    lines = ("11 m", "22 m")
    for tab, line in zip(tabs.all, lines):
        tabs.use(tab)
        page.open("#view=session")
        if not page.property("restart", "disabled"):
            page.click("restart")
        page.enter_lines([line, "ft"])
    for tab, line in zip(tabs.all, lines):
        tabs.use(tab)
        page.open("#view=session")
        page.wait(300)
        shown = [line for line in lines if line in page.text("transcript")]
        equal(f"{name}: the session of a tab after a reload", shown, [line])


def check_saves(name: str, tabs: Tabs, equal: Any) -> None:
    """A session that saves the file does not lose a line that was added since the session began."""
    page = tabs.page
    one, other = tabs.all
    tabs.use(one)
    page.open("#view=session")
    page.click("restart")
    page.enter_lines([":define from_session 2 m"])
    tabs.use(other)
    page.open("#view=definitions")
    tabs.append(other, "added_meanwhile 3 m\n")
    tabs.use(one)
    page.enter_lines([f":save {cases.OWN_FILE}"])
    page.click("tab-definitions")
    equal(f"{name}: lines lost by a session that saves", lost_lines(tabs, ["from_session", "added_meanwhile"]), [])


def check(name: str, page: Page, equal: Any) -> None:
    """Leaves the page in its first tab, with an empty storage."""
    tabs = Tabs(page)
    for part in (check_edits, check_closing, check_sessions, check_saves):
        part(name, tabs, equal)
    for tab in tabs.all:
        tabs.use(tab)
        page.browser.open("about:blank")
    tabs.use(tabs.all[0])
    page.forget()
