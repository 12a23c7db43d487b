"""startup.py ROOT PROGRAM ROUNDS STATIC: the measurements of startup.sh."""

from __future__ import annotations

import os
import resource
import shutil
import sys
import time
from dataclasses import dataclass, field
from pathlib import Path
from statistics import median

RUNS = 20
GNU_FILE = Path("/usr/share/units/definitions.units")
DEVICES = [(os.POSIX_SPAWN_OPEN, fd, os.devnull, os.O_RDWR, 0) for fd in (0, 1, 2)]


@dataclass
class Measurement:
    """A command and its milliseconds in each round: the mean by the processor, and the lowest by the clock."""

    name: str
    command: list[str]
    processor: list[float] = field(default_factory=list)
    elapsed: list[float] = field(default_factory=list)

    def run_round(self) -> None:
        start_busy, fastest = busy(), float("inf")
        for _ in range(RUNS):
            start = time.perf_counter()
            pid = os.posix_spawn(self.command[0], self.command, os.environ, file_actions=DEVICES)
            os.waitpid(pid, 0)
            fastest = min(fastest, time.perf_counter() - start)
        self.processor.append((busy() - start_busy) / RUNS * 1e3)
        self.elapsed.append(fastest * 1e3)


def busy() -> float:
    usage = resource.getrusage(resource.RUSAGE_CHILDREN)
    return usage.ru_utime + usage.ru_stime


def commands(root: str, program: str, static: str, file: Path) -> list[Measurement]:
    words = ["-f", str(file), "yd", "m"]
    measurements = [Measurement("/bin/true", ["/bin/true"]), Measurement("units", [program, *words])]
    if os.path.exists(static):
        measurements.append(Measurement("units, static", [static, *words]))
    measurements.append(Measurement("bin/units", [f"{root}/bin/units", *words]))
    if gnu := shutil.which("units", path="/usr/bin"):
        measurements.append(Measurement("GNU units", [gnu, *words]))
    return measurements


def ratios(one: Measurement, peer: Measurement) -> str:
    """The ratios of the lowest times and of the medians to those of the peer."""
    lowest = f"{min(one.processor) / min(peer.processor):5.2f} {min(one.elapsed) / min(peer.elapsed):5.2f} of GNU units"
    middle = f"{median(one.processor) / median(peer.processor):5.2f} {median(one.elapsed) / median(peer.elapsed):5.2f}"
    return f"  {lowest}, medians {middle}"


def main() -> None:
    root, program, rounds, static = sys.argv[1], sys.argv[2], int(sys.argv[3]), sys.argv[4]
    files = [Path(root, "examples/first.units"), Path(root, "share/units/built_in.units"), GNU_FILE]
    for file in files:
        if not file.exists():
            print(f"{file}: absent")
            continue
        measurements = commands(root, program, static, file)
        for _ in range(rounds):
            for measurement in measurements:
                measurement.run_round()
        print(f"{file}: {len(file.read_text().splitlines())} lines")
        peer = measurements[-1] if measurements[-1].name == "GNU units" else None
        for measurement in measurements:
            busy_time, clock_time = min(measurement.processor), min(measurement.elapsed)
            print(f"  {measurement.name:14} {busy_time:6.2f} ms of the processor {clock_time:6.2f} ms passed"
                  + (ratios(measurement, peer) if peer else ""))


if __name__ == "__main__":
    main()
