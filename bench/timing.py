"""Times runs of a program that answers one call in each line."""

import re
import shutil
import subprocess
import sys
import tempfile
from typing import NamedTuple

# Runs a program from a small process, so that the peak memory is the program's, and prints its status, its seconds by
# the clock and by the processor, and its peak memory in KiB.
TIMER = """
import os, sys, time
start = time.perf_counter()
pid = os.posix_spawn(sys.argv[1], sys.argv[1:], os.environ)
_, status, usage = os.wait4(pid, 0)
print(status, time.perf_counter() - start, usage.ru_utime + usage.ru_stime, usage.ru_maxrss, file=sys.stderr)
"""


class Cost(NamedTuple):
    clock: float
    processor: float
    memory: int = 0

    def less(self, other, parts=1):
        return Cost((self.clock - other.clock) / parts, (self.processor - other.processor) / parts)


def timed(command, calls, wanted, runs=5):
    """The lowest times of some runs, and the peak memory in bytes. The last answer has to contain `wanted`."""
    costs = []
    for _ in range(runs):
        with tempfile.TemporaryFile() as given:
            given.write("".join(call + "\n" for call in calls).encode())
            given.seek(0)
            run = subprocess.run([sys.executable, "-I", "-S", "-c", TIMER, *command], stdin=given, capture_output=True)
        status, clock, processor, memory = run.stderr.split()
        last = run.stdout.decode().splitlines()[-1]
        if status != b"0" or wanted not in last:
            sys.exit(f"{calls[-1]}: status {status}, {last!r} instead of {wanted!r}")
        costs.append(Cost(float(clock), float(processor), int(memory) << 10))
    return Cost(*(min(times) for times in list(zip(*costs))[:2]), max(cost.memory for cost in costs))


# The same caches on every machine; the largest has 1 MB.
CACHES = ["--cache-sim=yes", "--I1=32768,8,64", "--D1=32768,8,64", "--LL=1048576,16,64"]
COUNTER = ["valgrind", "--tool=cachegrind", *CACHES, "--cachegrind-out-file=/dev/null"]


def counted(command, calls):
    """The instructions of a run and its misses of a cache of 1 MB, which do not depend on the load of the machine, or
    None if valgrind is not installed."""
    if shutil.which("valgrind") is None:
        return None
    with tempfile.TemporaryFile() as given:
        given.write("".join(call + "\n" for call in calls).encode())
        given.seek(0)
        run = subprocess.run([*COUNTER, *command], stdin=given, capture_output=True, text=True)
    counts = [re.search(rf"{name}:\s+([\d,]+)", run.stderr) for name in ("I\\s+refs", "LL misses")]
    return [int(count.group(1).replace(",", "")) for count in counts] if all(counts) else None


def say(title, cost, rest=""):
    print(f"{title:44} {cost.clock * 1e3:8.1f} ms, {cost.processor * 1e3:8.1f} of the processor{rest}", flush=True)
