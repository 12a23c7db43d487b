"""The measurements of bench/python.sh."""

from __future__ import annotations

import operator
import resource
import subprocess
import sys
import time
from typing import Callable

import numpy
import pint  # type: ignore[import]
from exact_units import Units

OURS = "from exact_units import Units; Units().convert('60 mph', 'km/h')"
THEIRS = "import pint; pint.UnitRegistry()('60 mph').to('km/h')"


def process_seconds(code: str) -> float:
    before = resource.getrusage(resource.RUSAGE_CHILDREN)
    subprocess.run([sys.executable, "-c", code], check=True, stdin=subprocess.DEVNULL)
    after = resource.getrusage(resource.RUSAGE_CHILDREN)
    return after.ru_utime + after.ru_stime - before.ru_utime - before.ru_stime


def seconds(act: Callable[[], object], count: int = 1) -> float:
    start = time.process_time()
    for _ in range(count):
        act()
    return (time.process_time() - start) / count


def report(title: str, ours: Callable[[], float], theirs: Callable[[], float], most: float, rounds: int = 7) -> None:
    times = [(ours(), theirs()) for _ in range(rounds)]
    one, other = (min(column) for column in zip(*times))
    verdict = "met" if one <= most * other else "MISSED"
    print(f"{title:40} {one * 1e6:14.2f} {other * 1e6:14.2f} {one / other:8.3f} at most {most}: {verdict}", flush=True)


def main() -> None:
    units, registry = Units(), pint.UnitRegistry()
    numbers = numpy.random.default_rng(1).uniform(-400, 1e3, 10**6)
    print(f"{'microseconds of the processor':40} {'exact_units':>14} {'pint':>14} {'ratio':>8}")
    report("import and first conversion", lambda: process_seconds(OURS), lambda: process_seconds(THEIRS), 0.1, 3)
    one, other = 37 * units["ft"] / 10, 5 * units["in"] / 2
    first, second = registry.Quantity(3.7, "ft"), registry.Quantity(2.5, "in")
    for name in ("add", "sub", "mul", "truediv", "lt", "eq"):
        act = getattr(operator, name)
        report(name, lambda: seconds(lambda: act(one, other), 5000), lambda: seconds(lambda: act(first, second), 5000), 0.5)
    for source, target, fast in (("ft", "m", False), ("ft", "m", True), ("ft", "inch", False), ("tempF", "tempC", False)):
        ours = units.measured(numbers, source)
        theirs = registry.Quantity(numbers, {"tempF": "degF"}.get(source, source))
        wanted = {"tempC": "degC"}.get(target, target)
        report(f"10^6 floats, {source} to {target}{', fast' if fast else ''}",
               lambda: seconds(lambda: ours.to(target, nearest=not fast)), lambda: seconds(lambda: theirs.to(wanted)), 1.0)


if __name__ == "__main__":
    main()
