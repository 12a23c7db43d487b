"""Tests of both back ends in forks, threads and interrupts, and over hostile definition files."""

import contextlib
import os
import random
import resource
import signal
import subprocess
import sys
import tempfile
import threading
import time
import unittest
import warnings
from fractions import Fraction
from pathlib import Path
from typing import Callable, Dict, List

import exact_units
from exact_units import Units

LIBRARY = os.environ.get("EXACT_UNITS_LIBRARY")
PROGRAM = os.environ.get("EXACT_UNITS_PROGRAM")
TEXT = "m !\nkg !\ninch 254|10000 m\nft 12 inch\n"


class Interrupt(BaseException):
    """Raised by a signal handler, like KeyboardInterrupt."""


def fork_child(work: Callable[[], bool]) -> int:
    """Fork a child that ends with status 0 if the work is right, and return its process number."""
    child = os.fork()
    if child == 0:
        signal.alarm(60)
        status = 1
        with contextlib.suppress(BaseException):
            status = 0 if work() else 2
        os._exit(status)
    return child


def statuses_of(children: List[int]) -> List[int]:
    return [os.waitstatus_to_exitcode(os.waitpid(child, 0)[1]) for child in children]


def handle_alarm(test: unittest.TestCase, handler: Callable[..., None]) -> None:
    """Let a handler run at each alarm up to the end of a test."""
    test.addCleanup(signal.signal, signal.SIGALRM, signal.signal(signal.SIGALRM, handler))
    test.addCleanup(signal.setitimer, signal.ITIMER_REAL, 0)


def interrupt(*_: object) -> None:
    raise Interrupt


def repeat_up_to_interrupt(delay: float, act: Callable[[], None]) -> None:
    """Repeat an act until an alarm interrupts it. Python ignores an exception in `__del__`, so the alarm recurs."""
    with contextlib.suppress(Interrupt):
        try:
            signal.setitimer(signal.ITIMER_REAL, delay, 0.05)
            while True:
                act()
        finally:
            signal.setitimer(signal.ITIMER_REAL, 0)


class HostileTests:
    """Tests for both back ends."""

    backend = ""

    def setUp(self) -> None:
        folder = tempfile.TemporaryDirectory()
        self.addCleanup(folder.cleanup)
        self.folder = Path(folder.name)

    def open(self, path: object = None, **options: object) -> Units:
        instance = Units(path, backend=self.backend, **options)  # type: ignore[arg-type]
        self.addCleanup(instance.close)
        return instance

    def write(self, files: Dict[str, bytes]) -> Path:
        """Write files, and return the path of the first one."""
        for name, text in files.items():
            path = self.folder / name
            path.parent.mkdir(parents=True, exist_ok=True)
            path.write_bytes(text)
        return self.folder / next(iter(files))

    def is_right(self, units: Units, numbers: range) -> bool:
        return all(units.convert(f"{n} span", "inch") == 9 * n for n in numbers)

    def test_forks(self) -> None:
        units = self.open(text=TEXT)
        units.define("span 9 inch")
        units.define("span 8 inch")
        units.undo()
        children = [
            fork_child(lambda: self.is_right(units, range(k * 1000, k * 1000 + 300))) for k in range(1, 5)
        ]
        self.assertTrue(self.is_right(units, range(300)))
        self.assertEqual(statuses_of(children), [0, 0, 0, 0])

        def edit_and_redo() -> bool:
            units.redo()
            units.define("span 7 inch")
            return units.convert("span", "inch") == 7

        self.assertEqual(statuses_of([fork_child(edit_and_redo)]), [0])
        self.assertEqual(units.convert("span", "inch"), 9)
        sleeper = fork_child(lambda: time.sleep(30) is None)
        units.close()
        os.kill(sleeper, signal.SIGKILL)
        self.assertEqual(statuses_of([sleeper]), [-signal.SIGKILL])

    def test_forks_during_calls(self) -> None:
        units = self.open(text=TEXT)
        units.define("span 9 inch")
        is_over = threading.Event()

        def ask() -> None:
            while not is_over.is_set():
                units.convert("span", "inch")

        def is_right_or_refused() -> bool:
            try:
                return self.is_right(units, range(20))
            except exact_units.BackEndError as fault:
                return "another thread used the table when this process was forked" in str(fault)

        threads = [threading.Thread(target=ask) for _ in range(3)]
        for thread in threads:
            thread.start()
        with warnings.catch_warnings():
            warnings.simplefilter("ignore", DeprecationWarning)
            statuses = statuses_of([fork_child(is_right_or_refused) for _ in range(10)])
        is_over.set()
        for thread in threads:
            thread.join()
        self.assertEqual(statuses, [0] * 10)

    def test_threads(self) -> None:
        units = self.open(text=TEXT)
        units.define("span 9 inch")
        right = []

        def work(k: int) -> None:
            right.append(self.is_right(units, range(k * 1000, k * 1000 + 400)))

        threads = [threading.Thread(target=work, args=(k,)) for k in range(8)]
        for thread in threads:
            thread.start()
        for thread in threads:
            thread.join()
        self.assertEqual(right, [True] * 8)

    def test_interrupts(self) -> None:
        units = self.open(text=TEXT)
        units.define("span 9 inch")
        rng = random.Random(5)
        asked, wrong = 0, []

        def ask() -> None:
            nonlocal asked
            asked += 1
            answer = units.convert(f"{asked} span", "inch")
            if answer != 9 * asked:
                wrong.append((asked, answer))

        handle_alarm(self, interrupt)
        for turn in range(1000):
            repeat_up_to_interrupt(rng.uniform(1e-5, 1e-2 if turn % 2 else 5e-4), ask)
        self.assertEqual(wrong, [])
        self.assertTrue(self.is_right(units, range(10)))
        units.undo()
        with self.assertRaises(exact_units.NothingToUndo):
            units.undo()
        units.redo()
        self.assertTrue(self.is_right(units, range(10)))

    def test_interrupted_edits(self) -> None:
        units = self.open(text=TEXT)
        rng = random.Random(6)

        def edit() -> None:
            units.define(f"span {rng.randrange(200)} inch")
            units.undo()

        handle_alarm(self, interrupt)
        for _ in range(200):
            repeat_up_to_interrupt(rng.uniform(1e-5, 1e-2), edit)
        edits = 0
        with contextlib.suppress(exact_units.NothingToUndo):
            while True:
                units.undo()
                edits += 1
        with self.assertRaises(exact_units.UnknownUnit):
            units.convert("span", "inch")
        for _ in range(edits):
            units.redo()
        if edits:
            self.assertIn(units.convert("span", "inch"), range(200))

    def test_questions_of_a_signal_handler(self) -> None:
        units = self.open(text=TEXT)
        units.define("span 9 inch")
        inner = []

        def ask(*_: object) -> None:
            inner.append(units.convert("7 span", "inch"))

        handle_alarm(self, ask)
        for n in range(100):
            signal.setitimer(signal.ITIMER_REAL, (n + 1) * 1e-5)
            self.assertTrue(self.is_right(units, range(20)))
        self.assertEqual(set(inner), {Fraction(63)})

    def test_texts_that_have_no_bytes(self) -> None:
        units = self.open(text=TEXT)
        for _ in range(2):
            with self.assertRaises(exact_units.NotAnExpression):
                units.convert("m", "\ud800")
            self.assertEqual(units.convert("3 ft", "inch"), 36)

    def test_files_that_are_not_regular(self) -> None:
        os.mkfifo(self.folder / "fifo")
        (self.folder / "zero").symlink_to("/dev/zero")
        for name in ("fifo", "zero", "/dev/zero", str(self.folder)):
            main = self.write({"main.units": b"m !\n!include " + name.encode() + b"\n"})
            for path in (self.folder / name, main):
                with self.subTest(path=str(path)), self.assertRaises(exact_units.DefinitionFault) as context:
                    self.open(path)
                self.assertIn("not a regular file: ", str(context.exception))

    def test_includes_that_cannot_be_read(self) -> None:
        for name in (b"a\0b", b"main.units/b", b"n" * 300):
            main = self.write({"main.units": b"m !\n!include " + name + b"\n"})
            with self.subTest(name=name), self.assertRaisesRegex(exact_units.DefinitionFault, "^cannot read "):
                self.open(main)

    def test_memory_of_endless_includes(self) -> None:
        lines = (b"!include //%bdev/zero\n" % (b"../" * n) for n in range(60))
        main = self.write({"main.units": b"m !\n" + b"".join(lines)})
        (self.folder / "long.units").write_bytes(b"\n" * 16_777_217)
        links = self.write({"links.units": b"m !\n" + b"".join(b"!include l%d\n" % n for n in range(60))})
        for n in range(60):
            (self.folder / f"l{n}").symlink_to("long.units")
        program = (
            "import sys, warnings\nfrom exact_units import DefinitionFault, Units\nwarnings.simplefilter('ignore')\n"
            "try:\n    print(Units(sys.argv[1], backend=sys.argv[2]).convert('2 m', 'm'))\n"
            "except DefinitionFault as fault:\n    print(type(fault).__name__)\n"
        )

        def limit() -> None:
            resource.setrlimit(resource.RLIMIT_AS, (256 << 20, 256 << 20))

        # Another process finds the package only if it is named.
        environment = {**os.environ, "PYTHONPATH": str(Path(exact_units.__file__).resolve().parents[1])}
        for path, answer in ((main, "DefinitionFault\n"), (links, "2\n")):
            result = subprocess.run([sys.executable, "-c", program, str(path), self.backend], preexec_fn=limit,
                                    stdin=subprocess.DEVNULL, capture_output=True, text=True, check=False,
                                    env=environment)
            self.assertEqual((result.stdout, result.stderr[-300:]), (answer, ""))

    def test_sizes(self) -> None:
        names = [f"a{chr(97 + n)}" for n in range(5)]
        main = self.write({"main.units": b"m !\n" + b"".join(b"!include %b\n" % name.encode() for name in names)})
        for name in names:
            with open(self.folder / name, "wb") as file:
                file.write(b"\n")
                file.truncate(16_000_000)
        with self.assertRaises(exact_units.DeckFull):
            self.open(main)

    def test_rules_of_include_lines(self) -> None:
        lines = {
            "blanks": b"! \t include own.units", "comment": b"!include\town.units# x", "crlf": b"!include own.units\r",
            "continued": b"!include \\\r\nown.units", "comment_in_between": b"!include \\ # x\n  own.units",
            "blank_after": b"!\\ \n\\\t\ninclude \\ \t\nown.units", "at_the_end": b"x 3 m\n!include own.units \\",
        }
        for title, line in lines.items():
            main = self.write({"main.units": b"m !\nft 3 m\n" + line, "own.units": b"ft 3048|10000 m\n"})
            with self.subTest(title=title):
                self.assertEqual(self.open(main).convert("ft", "m"), Fraction(381, 1250))
        for line in (b"x !include own.units", b"!include own.units x", b"# !include own.units", b"!includes own.units",
                     b"x \\\n!include own.units", b"!include own\xff.units", b"!include own.units\r\r"):
            main = self.write({"main.units": b"m !\nft 3 m\n" + line + b"\n", "own.units": b"ft 3048|10000 m\n"})
            (self.folder / os.fsdecode(b"own\xff.units")).write_bytes(b"ft 4 m\n")
            with self.subTest(line=line), warnings.catch_warnings():
                warnings.simplefilter("ignore")
                self.assertEqual(self.open(main).convert("ft", "m"), 3)

    def test_warnings_of_includes(self) -> None:
        main = self.write({"main.units": b"m !\n\n!include gone.units\n!include long.units\n", "long.units": b""})
        os.truncate(self.folder / "long.units", 16_777_217)
        with warnings.catch_warnings(record=True) as caught:
            warnings.simplefilter("always")
            self.assertEqual(self.open(main).convert("2 m", "m"), 2)
        self.assertEqual([str(warning.message).replace(f"{self.folder}/", "") for warning in caught],
                         ["main.units:3: no file: gone.units", "main.units:4: file too long: long.units"])

    def test_includes_of_a_text(self) -> None:
        own = self.write({"own.units": b"ft 3048|10000 m\n"})
        self.assertEqual(self.open(text=f"m !\n!include {own}\n").convert("ft", "m"), Fraction(381, 1250))
        with self.assertRaisesRegex(exact_units.DefinitionFault, "absolute name: own.units"):
            self.open(text="m !\n!include own.units\n")

    def test_a_folder_that_is_left(self) -> None:
        self.write({"main.units": b"m !\n!include own.units\n", "own.units": b"span 9 m\n"})
        former = os.getcwd()
        os.chdir(self.folder)
        try:
            units = self.open("main.units")
        finally:
            os.chdir(former)
        self.assertEqual(statuses_of([fork_child(lambda: units.convert("span", "m") == 9)]), [0])

    def test_comments(self) -> None:
        units = self.open(text=TEXT)
        units.define(" span 9 inch # note")
        self.assertEqual(units.search("span # x"), [("span", "9 inch")])
        units.drop("span # x")
        for call in (units.define, units.drop, units.search):
            with self.assertRaises(exact_units.NotAnExpression):
                call(" # x")

    def test_a_bad_key(self) -> None:
        units = self.open(text=TEXT)
        for key in ("-", "2 span", "()"):
            with self.assertRaises(exact_units.BadKey) as context:
                units.drop(key)
            self.assertEqual(str(context.exception), f"bad key: {key}")

    def test_names_with_line_separators(self) -> None:
        names = ["a\u2028b", "a\u2029b", "a\u0085b", "a\u00a0b"]
        units = self.open(text="m !\n" + "".join(f"{name} 2 m\n" for name in names))
        self.assertEqual(sorted(units.search("b")), sorted((name, "2 m") for name in names))
        for name in names:
            self.assertEqual(units.convert(name, "m"), 2)

    def test_names_that_are_not_utf8(self) -> None:
        main = self.write({"main.units": b"m !\nbad\xff 2 m\n"})
        units = self.open(main)
        ((name, _),) = units.search("bad")
        self.assertEqual(units.convert(name, "m"), 2)

    def test_a_limit_in_bytes(self) -> None:
        units = self.open(text=TEXT)
        for text, kind in (("ä" * 30_001, exact_units.NotAnExpression), ("ä" * 30_000, exact_units.SyntaxFault)):
            for call in (lambda: units.convert(text, "m"), lambda: units.define(f"x {text}"[: len(text)])):
                with self.assertRaises(exact_units.UnitsError):
                    call()
            with self.assertRaises(kind):
                units.convert(text, "m")
        with self.assertRaises(exact_units.NumeralTooLong):
            self.open().convert_column([Fraction(1, 10**3000)], "tempF", "tempC")

    def test_texts_that_look_like_prompts(self) -> None:
        lines = ["m !", "You 1", "have: 2", "want: 3", "x You have: m"]
        lines += [f"!message {'y' * k}" + "\n!message You have: z\n!message You want: z" for k in range(65_400, 65_536)]
        units = self.open(text="\n".join(lines))
        for _ in range(3):
            self.assertEqual(units.convert("x", "m"), 2)
            self.assertEqual(units.search("x"), [("x", "You have: m")])


@unittest.skipUnless(LIBRARY, "EXACT_UNITS_LIBRARY is not set")
class LibraryTests(HostileTests, unittest.TestCase):
    backend = "library"


@unittest.skipUnless(PROGRAM, "EXACT_UNITS_PROGRAM is not set")
class SessionTests(HostileTests, unittest.TestCase):
    backend = "session"

    def test_definitions_that_change(self) -> None:
        units = self.open(self.write({"main.units": b"m !\nspan 9 m\n"}))
        self.write({"main.units": b"m !\nspan 8 m\n"})
        self.assertEqual(units.convert("span", "m"), 9)

        def is_refused() -> bool:
            try:
                units.convert("span", "m")
            except exact_units.BackEndError as fault:
                return str(fault) == "the definition files have changed since they were read"
            return False

        self.assertEqual(statuses_of([fork_child(is_refused)]), [0])

    def test_a_session_that_is_killed(self) -> None:
        units = self.open(text=TEXT)
        units.define("span 9 inch")
        process = units._back_end._session._process  # type: ignore[attr-defined]
        process.kill()
        process.wait()
        with self.assertRaises(exact_units.BackEndError):
            units.convert("span", "inch")
        self.assertEqual(units.convert("span", "inch"), 9)


if __name__ == "__main__":
    unittest.main()
