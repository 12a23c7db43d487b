"""The measurements of bench/c_library.sh."""

from __future__ import annotations

import os
import random
import resource
import subprocess
import sys
import tempfile
import time
from typing import Callable

PAIRS, COLUMN, DEFINITIONS, ROUNDS = *sys.argv[1:4], int(sys.argv[4])
PROGRAM = os.environ["EXACT_UNITS_PROGRAM"]
IMPORT_EXACT = f"""from exact_units import Units
Units({DEFINITIONS!r}, backend='library').convert('60 mile/hr', 'km/hr')"""
IMPORT_PINT = "import pint; pint.UnitRegistry()('60 mile/hr').to('km/hr')"


def process_seconds(command: list[str], **options: object) -> float:
    """Return the processor time of a process and its children."""

    def busy() -> float:
        usage = resource.getrusage(resource.RUSAGE_CHILDREN)
        return usage.ru_utime + usage.ru_stime

    start = busy()
    subprocess.run(command, check=True, **options)  # type: ignore[call-overload]
    return busy() - start


def own_seconds(act: Callable[[], object]) -> float:
    """Return the processor time that a call takes in this process."""
    start = time.process_time()
    act()
    return time.process_time() - start


def clock_seconds(act: Callable[[], object]) -> float:
    """Return the time that a call takes by the clock."""
    start = time.perf_counter()
    act()
    return time.perf_counter() - start


def each(act: Callable[[int], object], count: int) -> float:
    """Return the mean microseconds of many calls, by the clock, since a session is another process."""

    def act_often() -> None:
        for i in range(count):
            act(i)

    return 1e6 * clock_seconds(act_often) / count


def least(*acts: Callable[[], float], rounds: int = ROUNDS) -> list[float]:
    """Return the least of several rounds for each of these measurements, which run in turns."""
    times = [[act() for act in acts] for _ in range(rounds)]
    return [min(column) for column in zip(*times)]


def report(title: str, ours: float, theirs: float, aim: str = "", most: float = 0) -> None:
    """Print a line with the ratio, and with the aim if there is one."""
    ratio = ours / theirs
    verdict = f" {aim}: {'met' if ratio <= most else 'MISSED'}" if aim else ""
    print(f"{title:74} {ours:10.4f} {theirs:10.4f} {ratio:8.4f}{verdict}", flush=True)


def report_starts() -> None:
    """Compare a Python process that imports the package and converts once with one that uses pint."""
    ours, theirs = least(
        lambda: process_seconds([sys.executable, "-c", IMPORT_EXACT]),
        lambda: process_seconds([sys.executable, "-c", IMPORT_PINT]),
    )
    report("import and first conversion, processor s, beside pint", ours, theirs, "at most 1/4", 1 / 4)


def report_pairs() -> None:
    """Compare conversions of new pairs."""
    import pint
    from exact_units import Units

    library = Units(DEFINITIONS, backend="library")
    session = Units(DEFINITIONS, backend="session")
    registry = pint.UnitRegistry()

    def ask(units: Units) -> Callable[[int], object]:
        return lambda i: units.convert(f"{i + 1} mile/hour", f"{i % 97 + 1} m/s")

    ask(library)(0), ask(session)(0)
    # Many short rounds, so that some find the processor free.
    round_trip, from_c, from_python, by_pint = least(
        lambda: each(ask(session), 500),
        lambda: float(subprocess.run([PAIRS, DEFINITIONS, "2000"], capture_output=True, check=True).stdout),
        lambda: each(ask(library), 500),
        # pint takes no number in the target, so its pairs differ in the source alone.
        lambda: each(lambda i: registry(f"{i + 1} mile/hour").to("m/s"), 50),
        rounds=20 * ROUNDS,
    )
    report("a new pair from C, µs, beside a round trip", from_c, round_trip, "at most 1/5", 1 / 5)
    report("a new pair from Python, µs, beside a round trip", from_python, round_trip, "at most 1/2", 1 / 2)
    report("a new pair from Python, µs, beside pint", from_python, by_pint, "at most 1/3", 1 / 3)
    library.close(), session.close()


def report_columns(count: int, pair: list[str], has_aim: bool) -> None:
    """Compare columns of numbers with the program, which reads a file of lines and writes one."""
    from exact_units import Units

    rng = random.Random(3)
    numbers = [round(rng.uniform(1, 1e6), 6) for _ in range(count)]
    with tempfile.NamedTemporaryFile("w") as lines, Units(DEFINITIONS, backend="library") as library:
        lines.writelines(f"{x!r}\n" for x in numbers)
        lines.flush()

        def by_program() -> float:
            command = [PROGRAM, "--file", DEFINITIONS, "--column", "1", *pair]
            with open(lines.name, "rb") as source, tempfile.TemporaryFile() as out:
                return process_seconds(command, stdin=source, stdout=out, stderr=subprocess.DEVNULL)

        def by_c() -> float:
            command = [COLUMN, "--seconds", "0", "0", "0", "0", "1", *pair, DEFINITIONS]
            with open(lines.name, "rb") as source:
                return float(subprocess.run(command, stdin=source, capture_output=True, check=True).stdout)

        def convert() -> object:
            return library.convert_column(numbers, *pair)

        program, c, python, program_clock, python_clock = least(
            by_program,
            by_c,
            lambda: own_seconds(convert),
            lambda: clock_seconds(by_program),
            lambda: clock_seconds(convert),
        )
    title = f"{count:,} numbers, {pair[0]} to {pair[1]},"
    aim = "at most 1" if has_aim else ""
    report(f"{title} convert_column, s, beside --column", python, program, aim, 1)
    report(f"{title} the same by the clock", python_clock, program_clock, aim, 1)
    report(f"{title} units_convert_column, s", c, program)


def main() -> None:
    print(f"{'':74} {'ours':>10} {'the other':>10} {'ratio':>8}")
    report_starts()
    report_pairs()
    report_columns(1_000_000, ["mile/hour", "m/s"], has_aim=True)
    report_columns(100_000, ["tempF", "tempC"], has_aim=False)


main()
