"""The page in a browser, with the actions and the outputs that the tests use."""

from __future__ import annotations

import json
import subprocess
from pathlib import Path
from typing import Any

QUANTITIES = Path(__file__).resolve().parents[2] / "web/quantities.js"

# Enters each question as if it were typed, waits until the page is settled, and returns [the reply as in a terminal,
# the text of the answer, the number and the unit in it or null, the time to the answer in milliseconds].
ASK = """(async (questions) => {
  const get = id => document.getElementById(id);
  get('printed').open = true;
  const answers = [];
  for (const [from, to] of questions) {
    get('from').value = from;
    get('to').value = to;
    delete document.documentElement.dataset.settled;
    const begin = performance.now();
    get('to').dispatchEvent(new Event('input'));
    const time = performance.now() - begin;
    while (document.documentElement.dataset.settled !== `${from}\\n${to}`) {
      if (performance.now() - begin > 60_000) throw new Error(`no answer to ${from} in ${to} within a minute`);
      await new Promise(done => setTimeout(done, 2));
    }
    const parts = [...get('answer').querySelectorAll('.large > bdi')].map(part => part.textContent);
    answers.push([get('reply').textContent, get('answer').textContent, parts.length > 0 ? parts : null, time]);
  }
  return answers;
})"""

SET_OPTIONS = """((options) => {
  const get = id => document.getElementById(id);
  for (const id of ['exact', 'strict', 'round']) get(id).checked = options[id] ?? false;
  get('digits').value = options.digits ?? '8';
  get('locale').value = options.locale ?? 'en_US';
  get('root').value = options.root ?? 'my.units';
  get('root').dispatchEvent(new Event('change'));
})"""

SETTLED = """(async () => {
  for (let i = 0; i < 6000 && document.documentElement.dataset.settled === undefined; i++) {
    await new Promise(done => setTimeout(done, 5));
  }
  return document.documentElement.dataset.settled;
})()"""

# Both streams of the session, from the transcript.
TRANSCRIPT = """(() => {
  const nodes = [...document.getElementById('transcript').childNodes];
  const text = nodes => nodes.map(node => node.textContent).join('');
  return [text(nodes.filter(n => n.className !== 'entered' && n.className !== 'fault')),
    text(nodes.filter(n => n.className === 'fault'))];
})()"""


class Page:
    def __init__(self, browser: Any, url: str) -> None:
        self.browser, self.url = browser, url

    def open(self, link: str = "") -> None:
        self.browser.open(self.url + link)
        self.wait_for("document.documentElement.dataset.started")
        if "view=" not in link:
            self.browser.value(SETTLED)

    def forget(self) -> None:
        """Opens the page as on a first visit."""
        self.open()
        self.browser.value("localStorage.clear(), sessionStorage.clear()")
        self.open()

    def text(self, id_: str) -> str:
        return self.browser.value(f"document.getElementById({json.dumps(id_)}).textContent")

    def property(self, id_: str, name: str) -> Any:
        return self.browser.value(f"document.getElementById({json.dumps(id_)}).{name}")

    def click(self, id_: str) -> None:
        self.browser.value(f"document.getElementById({json.dumps(id_)}).click()")

    def focus(self, id_: str) -> None:
        self.browser.value(f"document.getElementById({json.dumps(id_)}).focus()")

    def wait(self, milliseconds: int) -> None:
        self.browser.value(f"new Promise(done => setTimeout(done, {milliseconds}))")

    def wait_for(self, expression: str) -> bool:
        """Waits until an expression is true, for at most 10 seconds."""
        return self.browser.value(f"""(async () => {{
          for (let i = 0; i < 1000 && !({expression}); i++) await new Promise(done => setTimeout(done, 10));
          return Boolean({expression});
        }})()""")

    def ask(self, questions: list[tuple[str, str]]) -> list[tuple[str, str, list[str] | None, float]]:
        return self.browser.value(f"{ASK}({json.dumps(questions)})")

    def print_as_program(self, is_wanted: bool) -> None:
        """Chooses whether the answer is the program's text."""
        if (self.browser.value("document.getElementById('as-printed').ariaPressed") == "true") != is_wanted:
            self.click("as-printed")

    def rest(self) -> None:
        """Waits as long as the page does until it takes a question as whole."""
        self.wait(900)

    def set_options(self, options: dict[str, str | bool]) -> None:
        self.browser.value(f"{SET_OPTIONS}({json.dumps(options)})")

    def enter_lines(self, lines: list[str]) -> None:
        for line in lines:
            self.focus("line")
            self.browser.type(line)
            self.browser.press("Enter")

    def session_output(self) -> tuple[str, str]:
        """The output of the session, with the prompt for the next line, and its faults."""
        out, err = self.browser.value(TRANSCRIPT)
        prompt = self.text("prompt")
        return out + (f"{prompt} " if prompt.startswith("You ") else ""), err

    def type_text(self, text: str) -> None:
        """Replaces the shown file with a typed text."""
        self.browser.value("(() => { const t = document.getElementById('text'); t.focus(); t.select(); })()")
        self.browser.type(text)

    def replace_text(self, text: str) -> None:
        """Replaces the shown file with a typed text, and waits for its check."""
        self.type_text(text)
        self.wait(500)

    def show_file(self, name: str) -> None:
        self.browser.value(f"""(() => {{
          const file = document.getElementById('file');
          file.value = {json.dumps(name)};
          file.dispatchEvent(new Event('change'));
        }})()""")

    def take_file(self, name: str) -> str | None:
        """The text of a file that the page keeps, or None. Removes it, as another tab would."""
        return self.browser.value(f"""(key => {{
          const {{id, text}} = JSON.parse(localStorage.getItem(key)) ?? {{id: '', text: null}};
          localStorage.setItem(key, JSON.stringify({{id: `${{id}} removed`, text: null, from: [id]}}));
          dispatchEvent(new StorageEvent('storage', {{key}}));
          return text;
        }})({json.dumps(f"units:file:{name}")})""")

    def lists(self) -> list[tuple[str, list[str]]]:
        """The units that the page prefers for each quantity, as Node reads them."""
        script = "const q = require(process.argv[1]); " \
            "console.log(JSON.stringify(q.keys.map(key => [key, q.listOf(key).map(unit => unit.name)])))"
        process = subprocess.run(["node", "-e", script, QUANTITIES], capture_output=True, encoding="utf-8", check=True)
        return json.loads(process.stdout)

    def report(self) -> list[str]:
        return self.browser.value("[...document.querySelectorAll('#check li')].map(item => item.textContent)")

    def options_of(self, id_: str) -> list[str]:
        return self.browser.value(
            f"[...document.querySelectorAll('#{id_}:not([hidden]) [role=option] .name')].map(item => item.textContent)")
