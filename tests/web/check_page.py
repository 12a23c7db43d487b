#!/usr/bin/env python3
"""Drives the page in headless browsers and compares every reply with the native program.

    tests/web/check_page.py PAGE PROGRAM [--questions N] [--module64 FILE] [--pictures FOLDER] [--seed N] [--runs N]

PAGE is the page as one file, and PROGRAM the native program of the same sources. The library is the one in the page.
The page's module also answers random runs in Node: 2,000, or as many as --runs, made from a seed that is printed.
A browser that is not installed is skipped, and so is Node. The last line is `N passed, M failed, K skipped`, and the
status is 0 if nothing failed, and else 1.
"""

from __future__ import annotations

import argparse
import json
import random
import re
import shutil
import subprocess
import sys
import tempfile
import threading
import traceback
from concurrent.futures import ThreadPoolExecutor
from functools import partial
from http.server import SimpleHTTPRequestHandler, ThreadingHTTPServer
from pathlib import Path
from typing import Any

import accessibility
import answers
import cases
import links
import modules
import pictures
import picker
import random_runs
import served
import sessions
import tabs
from chromium import Chromium
from firefox import Firefox
from page import Page

SHOWN_FAILURES = 12
# Firefox gets a third of the questions.
FIREFOX_SHARE = 3


class Tally:
    """Counts cases that passed, failed and were skipped, and shows the first failures."""

    def __init__(self) -> None:
        self.passed = self.failed = self.skipped = 0
        self._lock = threading.Lock()

    def equal(self, name: str, actual: Any, expected: Any) -> None:
        with self._lock:
            if actual == expected:
                self.passed += 1
                return
            self.failed += 1
            if self.failed <= SHOWN_FAILURES:
                print(f"{name}:\n  page     {actual!r}\n  expected {expected!r}", flush=True)

    def skip(self, name: str) -> None:
        with self._lock:
            self.skipped += 1
            print(f"skipped: {name}", flush=True)


class QuietHandler(SimpleHTTPRequestHandler):
    def log_message(self, *_: object) -> None:
        pass


class Native:
    """The native program, in its own folder with the files of the page's library."""

    def __init__(self, program: Path, library: dict[str, str], folder: Path) -> None:
        self.program, self.folder = program, folder
        for name, text in library.items():
            (folder / name).write_text(text)
        self.write(cases.OWN_FILE, cases.OWN_TEXT)

    def write(self, name: str, text: str) -> None:
        (self.folder / name).write_text(text)

    def take(self, name: str) -> str | None:
        """The text of a file, which is removed, or None."""
        file = self.folder / name
        text = file.read_text() if file.exists() else None
        file.unlink(missing_ok=True)
        return text

    def run(self, words: list[str], text: str | None = None) -> subprocess.CompletedProcess[str]:
        return subprocess.run([self.program, *words], cwd=self.folder, input=text, capture_output=True,
                              encoding="utf-8", errors="replace", check=False)

    def streams(self, words: list[str], text: str | None = None) -> str:
        process = self.run(words, text)
        return process.stdout + process.stderr


def operands(from_: str, to: str) -> list[str]:
    return ["--", from_, *([to] if to.strip() else [])]


def without_blanks(text: str) -> str:
    return "".join(text.split())


def check_questions(name: str, page: Page, native: Native, tally: Tally, count: int) -> None:
    questions = cases.questions(count, native.folder)
    times: list[float] = []
    for i, options in enumerate(cases.OPTIONS):
        page.set_options(options)
        pairs = [question for question in questions[i :: len(cases.OPTIONS)] if question[0].strip()]
        words = cases.arguments(options)
        page.print_as_program(False)
        written = [(parts, time) for _, _, parts, time in page.ask(pairs)]
        page.print_as_program(True)
        for (from_, to), (parts, time), (reply, answer, _, _) in zip(pairs, written, page.ask(pairs)):
            times.append(time)
            case = f"{name}: {options} {from_!r} {to!r}"
            tally.equal(case, reply, native.streams([*words, *operands(from_, to)]))
            verbose = native.run([*words, "-v", *operands(from_, to)])
            reply_text = without_blanks(verbose.stdout or verbose.stderr)
            tally.equal(f"{case}: the printed answer is the verbose reply", without_blanks(answer), reply_text)
            if parts:
                tally.equal(f"{case}: the number as written", answers.is_number_of(parts[0], verbose.stdout), True)
    page.print_as_program(False)
    page.set_options({})
    times.sort()
    print(f"{name}: {len(times)} questions, {times[len(times) // 2]:.0f} ms from typing to the answer in the middle, "
          f"{times[-1]:.0f} ms at most", flush=True)


def check_sessions(name: str, page: Page, native: Native, tally: Tally) -> None:
    page.click("tab-session")
    for lines in cases.SESSIONS:
        page.click("restart")
        page.enter_lines(lines)
        process = native.run(["-f", cases.OWN_FILE], "".join(f"{line}\n" for line in lines))
        tally.equal(f"{name}: session from {lines[0]!r}", page.session_output(), (process.stdout, process.stderr))
        for file, text in ((cases.OWN_FILE, cases.OWN_TEXT), ("s.units", None)):
            kept, saved = page.take_file(file), native.take(file)
            tally.equal(f"{name}: {file} after the session from {lines[0]!r}", kept, saved if saved != text else None)
        native.write(cases.OWN_FILE, cases.OWN_TEXT)
    page.click("restart")
    page.enter_lines(["10 m", "ft", "2 m"])
    output = page.session_output()
    page.open("#view=session")
    page.wait_for("document.getElementById('transcript').textContent.includes('2 m')")
    tally.equal(f"{name}: a session after a reload", page.session_output(), output)
    page.focus("line")
    for key, line in (("ArrowUp", "2 m"), ("ArrowUp", "ft"), ("ArrowDown", "2 m"), ("ArrowDown", "")):
        page.browser.press(key)
        tally.equal(f"{name}: {key} in a session", page.property("line", "value"), line)
    page.click("remove-line")
    native_out = native.run(["-f", cases.OWN_FILE], "10 m\nft\n").stdout
    tally.equal(f"{name}: a session without its last line", page.session_output(), (native_out, ""))
    page.click("restart")


def check_definitions(name: str, page: Page, native: Native, tally: Tally) -> None:
    page.click("tab-definitions")
    page.replace_text(cases.FAULTY_TEXT)
    native.write(cases.OWN_FILE, cases.FAULTY_TEXT)
    report = native.run(["-f", cases.OWN_FILE, "--check"])
    rows = list(dict.fromkeys(row for row in (report.stderr + report.stdout).split("\n") if row))
    tally.equal(f"{name}: the check of a file with a cycle", page.report(), rows)
    page.browser.value(
        "[...document.querySelectorAll('#check button')].find(row => row.textContent.startsWith('loopb:')).click()")
    selection = page.browser.value(
        "(t => t.value.slice(t.selectionStart, t.selectionEnd))(document.getElementById('text'))")
    tally.equal(f"{name}: the definition of a row of the check", selection, "loopb 3 loopa")
    page.open("#from=smoot&to=m")
    pairs = [("3 loopa", "m"), ("smoot", "m"), ("broken", "")]
    for (from_, to), (reply, _, _, _) in zip(pairs, page.ask(pairs)):
        expected = native.streams(["-f", cases.OWN_FILE, *operands(from_, to)])
        tally.equal(f"{name}: {from_} after a reload", reply, expected)
    page.click("tab-definitions")
    page.click("restore")
    tally.equal(f"{name}: the restored file", page.property("text", "value"), cases.OWN_TEXT)
    page.click("undo-restore")
    tally.equal(f"{name}: the file after undo", page.property("text", "value"), cases.FAULTY_TEXT)
    page.type_text(cases.FAULTY_TEXT + "x 2 m\n")
    page.show_file("all.units")
    page.show_file(cases.OWN_FILE)
    tally.equal(f"{name}: a file left while typing", page.property("text", "value"), cases.FAULTY_TEXT + "x 2 m\n")
    page.click("restore")
    native.write(cases.OWN_FILE, cases.OWN_TEXT)


def check_names(name: str, page: Page, native: Native, tally: Tally) -> None:
    page.open()
    page.focus("from")
    page.browser.type("3 yar")
    page.wait_for("!document.getElementById('from-names').hidden")
    lines = native.run(["-q", "-f", cases.OWN_FILE], "search yar\n").stdout.split("\n")
    expected = {line.split("\t")[1] for line in lines if line.startswith("\t")}
    tally.equal(f"{name}: the names with yar", expected < set(page.options_of("from-names")), True)
    page.browser.press("ArrowDown")
    tally.equal(f"{name}: the active name", bool(page.browser.value(
        "document.getElementById(document.activeElement.getAttribute('aria-activedescendant')) !== null")), True)
    page.browser.press("Enter")
    tally.equal(f"{name}: the chosen name", page.property("from", "value"), "3 yd")
    page.focus("to")
    page.browser.press("ArrowDown")
    page.wait_for("!document.getElementById('to-names').hidden")
    options = page.options_of("to-names")
    wrong = [unit for unit in options if native.run(["-f", cases.OWN_FILE, "-s", "--", "3 yd", unit]).returncode != 0]
    tally.equal(f"{name}: the units for 3 yd", (len(options) > 30, wrong), (True, []))
    page.browser.press("Escape")
    tally.equal(f"{name}: escape closes the list", page.property("to-names", "hidden"), True)


def check_server(page_file: Path, browser: Chromium, tally: Tally) -> None:
    """The page makes a single request to a static server."""
    handler = partial(QuietHandler, directory=str(page_file.parent))
    with ThreadingHTTPServer(("127.0.0.1", 0), handler) as server:
        threading.Thread(target=server.serve_forever, daemon=True).start()
        page = Page(browser, f"http://127.0.0.1:{server.server_port}/{page_file.name}")
        browser.events.clear()
        page.open("#from=1+ft&to=in")
        server.shutdown()
    tally.equal("an answer after the server has stopped", page.ask([("2 ft", "in")])[0][0], "\t* 24\n\t/ 0.041666667\n")
    urls = [url for url in browser.requests() if url.startswith("http")]
    tally.equal("requests", urls, [f"{page.url}#from=1+ft&to=in".split("#")[0]])


def check_storage(page: Page, tally: Tally) -> None:
    """If the browser refuses to store a change, the page says so and still works."""
    page.open("#view=definitions")
    page.browser.value("Storage.prototype.setItem = () => { throw new Error('full'); }, 0")
    page.replace_text(cases.OWN_TEXT + "smoot 67 in\n")
    tally.equal("a notice that changes are not kept", page.property("storage-fault", "hidden"), False)
    page.click("tab-convert")
    tally.equal("a change that is not kept", page.ask([("smoot", "in")])[0][0], "\t* 67\n\t/ 0.014925373\n")


def ask_chromium(arguments: argparse.Namespace, native: Native, tally: Tally) -> None:
    browser = Chromium()
    try:
        page = Page(browser, arguments.page.resolve().as_uri())
        page.open()
        check_questions(browser.name, page, native, tally, arguments.questions)
        tally.equal("faults of the page", browser.faults(), [])
    finally:
        browser.close()


def check_chromium(arguments: argparse.Namespace, native: Native, tally: Tally) -> None:
    browser = Chromium()
    try:
        page = Page(browser, arguments.page.resolve().as_uri())
        browser.call("Log.enable")
        check_views(page, native, tally)
        accessibility.check(page, tally.equal)
        check_server(arguments.page.resolve(), browser, tally)
        served.check(arguments.page.resolve(), browser, tally.equal)
        check_storage(page, tally)
        modules.check_memory(page, native, tally)
        if arguments.module64:
            modules.check_module64(page, arguments.module64, native, tally)
        else:
            tally.skip("the 64-bit module: tools/web.sh builds it")
        tally.equal("faults of the page", browser.faults(), [])
        if arguments.pictures:
            pictures.take(page, arguments.pictures)
    finally:
        browser.close()


def check_firefox(arguments: argparse.Namespace, native: Native, tally: Tally) -> None:
    browser = Firefox()
    try:
        page = Page(browser, arguments.page.resolve().as_uri())
        check_views(page, native, tally)
        page.open()
        check_questions(browser.name, page, native, tally, arguments.questions // FIREFOX_SHARE)
        accessibility.check(page, tally.equal)
    finally:
        browser.close()


def check_module(arguments: argparse.Namespace, native: Native, tally: Tally) -> None:
    random_runs.check(arguments.page, native.program, arguments.seed, arguments.runs, tally.equal)


def check_views(page: Page, native: Native, tally: Tally) -> None:
    name = page.browser.name
    page.open()
    tally.equal(f"{name}: the page starts", page.property("failure", "hidden"), True)
    milliseconds = page.browser.value("document.documentElement.dataset.started")
    print(f"{name}: ready {milliseconds} ms after the page was opened", flush=True)
    for check in (check_names, answers.check, picker.check, links.check, check_sessions, sessions.check, check_definitions):
        check(name, page, native, tally)
    tabs.check(name, page, tally.equal)


def library_of(page: Path) -> dict[str, str]:
    data = re.search(r'<script type="application/json" id="data">(.*?)</script>', page.read_text(), re.S)
    if data is None:
        sys.exit(f"check_page: {page} has no library")
    return json.loads(data.group(1))["library"]


def main() -> None:
    parser = argparse.ArgumentParser(description=__doc__, formatter_class=argparse.RawDescriptionHelpFormatter)
    parser.add_argument("page", type=Path)
    parser.add_argument("program", type=lambda name: Path(name).resolve())
    parser.add_argument("--questions", type=int, default=60)
    parser.add_argument("--module64", type=Path)
    parser.add_argument("--pictures", type=Path)
    parser.add_argument("--seed", type=int, default=random.randrange(10**6))
    parser.add_argument("--runs", type=int, default=2000)
    arguments = parser.parse_args()
    library, tally = library_of(arguments.page), Tally()
    checks = [
        (Chromium.command, check_chromium), (Chromium.command, ask_chromium), (Firefox.command, check_firefox),
        ("node", check_module),
    ]
    with tempfile.TemporaryDirectory() as temporary, ThreadPoolExecutor(len(checks)) as pool:
        futures = []
        for command, check in checks:
            if not shutil.which(command):
                tally.skip(f"{check.__name__}: {command} is not installed")
                continue
            folder = Path(temporary, check.__name__)
            folder.mkdir()
            futures.append(pool.submit(check, arguments, Native(arguments.program, library, folder), tally))
        for future in futures:
            fault = future.exception()
            if fault is not None:
                traceback.print_exception(fault)
            tally.equal("a check that ended early", repr(fault), "None")
    print(f"{tally.passed} passed, {tally.failed} failed, {tally.skipped} skipped")
    sys.exit(tally.failed > 0)


if __name__ == "__main__":
    main()
