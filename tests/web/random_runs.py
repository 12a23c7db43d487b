"""Random runs of the page's module in Node, compared with the native program: single conversions, checks, columns, and
sessions that define, drop, load, save, undo and query, over files with odd names. Each run has its own random numbers,
so that one of them can be made again."""

from __future__ import annotations

import base64
import json
import random
import subprocess
import sys
import tempfile
from collections.abc import Callable, Iterator
from dataclasses import asdict, dataclass
from pathlib import Path
from typing import Any


ROOT = Path(__file__).resolve().parents[2]
sys.path.insert(0, str(ROOT / "tools/models"))
import decks_at_random  # noqa: E402
import tables_at_random  # noqa: E402

FOLDER = "sub"
STREAMS = "/proc/self/fd"
NAMES = [
    "my.units", "a.units", "b.units", "leaf.units", f"{FOLDER}/c.units", "two words.units", "it's.units", 'a"b.units',
    "back`tick`.units", "$HOME.units", "-e", "日本.units", "\ufeffmark.units", "back\\slash.units", "%41.units", "*",
    "...", ".units-save-0", "\u202etxt", "&amp;.units", STREAMS,
]
OPTIONS = [
    ["-d", "1"], ["-d", "17"], ["-d", "36"], ["--exact"], ["-1"], ["--compact"], ["-t"], ["-q"], ["-s"], ["-r"], ["-v"],
    ["-l", "en_GB"], ["-l", ""],
]
WRONG_OPTIONS = [["-d", "0"], ["--nosuch"], ["-f", "none.units", "-f", NAMES[0]], ["--check", "a"], ["--column", "0"]]
ODD_TEXTS = [
    "", "?", "#", "(" * 70, "1e400", "1/0", "2 +", "\ufeffa", "½ a", "a;b", "a;;b", '"a', "日本", "\u2028", "a\tb", "\x7f",
    "9" * 60, "__proto__", "constructor", "\U0001f600", ":", ": define a 2", "a\0b",
]
CELLS = ["1", "-2.5", "", " 3 ", "1e3", "1,000", '"7"', '"a,b"', "x", "1|3", "\ufeff4", "9" * 45, '"', "é"]
SETTINGS = [":set V x", ":set V y", ":set W y", ":locale en_GB", ":locale en_US", ":locale ", ":set V", ":set A B c"]
OTHER_LINES = [":undo"] * 6 + [":redo"] * 4 + [":unwatch", ":stats", ":nonsense", "quit", "exit now"]


@dataclass(frozen=True)
class Run:
    """A run as program.js takes it."""

    words: list[str]
    variables: list[str]
    files: list[tuple[str, str]]
    input: list[str]


class Maker:
    """Makes one run from random numbers."""

    def __init__(self, r: random.Random) -> None:
        self.r, self.table = r, tables_at_random.Made(r)
        self.names = r.sample(NAMES[1:], 4)

    def text(self) -> str:
        """An expression, or seldom a text that is none."""
        if self.r.randrange(12) == 0:
            return self.r.choice(ODD_TEXTS)
        return self.table.sum(self.table.keys, 2)

    def target(self) -> str:
        kind = self.r.randrange(8)
        if kind < 4:
            return self.table.unit(self.table.keys)
        return [self.text(), "", "?", f"{self.table.unit(self.table.keys)};{self.text()}"][kind - 4]

    def definition(self) -> str:
        if self.r.randrange(2):
            return self.table.line(self.r.randrange(len(self.table.keys)))
        return decks_at_random.random_line(self.r, [])

    def file(self, name: str) -> str:
        """A definition file. Its includes stay in the folder of the run."""
        return decks_at_random.random_file(self.r, name).replace("../", "")

    def files(self) -> list[tuple[str, str]]:
        root = "\n".join(self.table.lines) + "\n" + (self.file(NAMES[0]) if self.r.randrange(2) else "")
        others = [name for name in self.names if name != STREAMS and self.r.randrange(3)]
        return [(NAMES[0], root), *((name, self.file(name)) for name in others)]

    def session_lines(self) -> list[str]:
        kind = self.r.randrange(20)
        if kind < 7:
            return [self.text(), self.target()]
        if kind < 10:
            return [f":define {self.definition()}"]
        if kind < 11:
            return [f":drop {self.r.choice([*decks_at_random.KEYS, *(name for _, name in self.table.keys)])}"]
        if kind < 14:
            return [f":{self.r.choice(['save', 'save', 'load'])} {self.r.choice([NAMES[0], *self.names])}"]
        if kind < 15:
            return [f":watch {self.text()} ; {self.target()}"]
        if kind < 16:
            return [self.r.choice(SETTINGS)]
        return [self.r.choice([f"search {self.r.choice('abdmf')}", self.text(), *OTHER_LINES])]

    def pieces(self, lines: list[str]) -> list[str]:
        """The input as one read returns it: a line at a time, or all at once. The last line may lack its end."""
        lines = [line + "\n" for line in lines]
        if lines and self.r.randrange(6) == 0:
            lines[-1] = lines[-1][:-1]
        return [line for line in lines if line] if self.r.randrange(2) else ["".join(lines)]

    def rows(self) -> list[str]:
        return [",".join(self.r.choices(CELLS, k=self.r.randrange(1, 4))) for _ in range(self.r.randrange(8))]

    def operands(self) -> list[str]:
        words = ["--", self.text(), *([self.target()] if self.r.randrange(4) else [])]
        return [word.replace("\0", "") for word in words]

    def run(self) -> Run:
        words = ["-f", self.r.choice([NAMES[0]] * 8 + self.names)] if self.r.randrange(20) else []
        options = self.r.sample(OPTIONS, self.r.choice([0, 0, 1, 1, 2]))
        options += [self.r.choice(WRONG_OPTIONS)] if self.r.randrange(20) == 0 else []
        words += [word for option in options for word in option]
        kind, lines = self.r.randrange(10), []
        if kind < 2:
            words += self.operands()
        elif kind == 2:
            words.append("--check")
        elif kind == 3:
            words += ["--column", str(self.r.randrange(1, 4)), *["--header"] * self.r.randrange(2), *self.operands()]
            lines = self.rows()
        else:
            lines = [line for _ in range(self.r.randrange(1, 16)) for line in self.session_lines()]
        variables = [f"{name}={self.r.choice('xy')}" for name in "VW" if self.r.randrange(2)]
        return Run(words, variables, self.files(), self.pieces(lines))


def runs_of(seed: int, count: int) -> Iterator[Run]:
    for i in range(count):
        yield Maker(random.Random(f"{seed} {i}")).run()


def native_result(program: Path, run: Run, folder: Path) -> dict[str, Any]:
    """What the native program answers in a fresh folder, in the form of run_module.js."""
    folder.mkdir()
    (folder / FOLDER).mkdir()
    for name, text in run.files:
        (folder / name).write_text(text, newline="")
    process = subprocess.run([program, *run.words], cwd=folder, input="".join(run.input).encode(), capture_output=True,
                             env=dict(variable.split("=") for variable in run.variables), check=False)
    files = {str(path.relative_to(folder)): path.read_bytes() for path in folder.rglob("*") if path.is_file()}
    return {"status": process.returncode, "out": process.stdout.decode(errors="replace"),
            "err": process.stderr.decode(errors="replace"), "trap": None, "files": files}


def module_results(page: Path, runs: list[Run]) -> list[dict[str, Any]]:
    """What the module in the page answers in Node."""
    with tempfile.TemporaryDirectory() as temporary:
        module = Path(temporary, "module.wasm")
        subprocess.run([sys.executable, ROOT / "tools/web/module_of.py", page, module], check=True)
        process = subprocess.run(["node", ROOT / "tests/web/run_module.js", module, ROOT / "web/program.js"],
                                 input="".join(json.dumps(asdict(run)) + "\n" for run in runs), encoding="utf-8",
                                 stdout=subprocess.PIPE, check=True)
    results = [json.loads(line) for line in process.stdout.split("\n") if line]
    for result in results:
        result["files"] = {name: base64.b64decode(content) for name, content in result["files"]}
    return results


def check(page: Path, program: Path, seed: int, count: int, equal: Callable[[str, Any, Any], None]) -> None:
    print(f"Node: {count} random runs with --seed {seed}", flush=True)
    runs = list(runs_of(seed, count))
    results = module_results(page, runs)
    equal("the number of results", len(results), count)
    with tempfile.TemporaryDirectory() as temporary:
        for i, (run, result) in enumerate(zip(runs, results)):
            native = native_result(program, run, Path(temporary, str(i)))
            parts = [part for part in native if result[part] != native[part]]
            equal(f"run {i} of --seed {seed}: {json.dumps(asdict(run))}", *({part: answer[part] for part in parts}
                                                                            for answer in (result, native)))
