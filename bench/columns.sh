#!/usr/bin/env bash
# Compares `units --column` over rows of two fields with awk, which multiplies the same column. Prints the seconds of
# the processor, the lowest of some runs.
#   bench/columns.sh [ROWS]
# ROWS is 1,000,000 unless it is given; a run takes at most 16,777,216 bytes.
set -u
root=$(cd "$(dirname "${BASH_SOURCE[0]}")/.." && pwd)
program=$("$root/tools/built.sh" units) || exit
exec python3 - "$program" "${1:-1000000}" <<'PYTHON'
import os
import subprocess
import sys
import tempfile

program, count = sys.argv[1], int(sys.argv[2])
AWK = "BEGIN { FS = OFS = \",\" } { $2 = $2 * 0.3048; print }"


def processor_seconds(command, path, runs=5):
    """The lowest processor time of some runs."""
    costs = []
    for _ in range(runs):
        with open(path, "rb") as source, open(os.devnull, "wb") as sink:
            process = subprocess.Popen(command, stdin=source, stdout=sink)
            _, status, usage = os.wait4(process.pid, 0)
        if status:
            sys.exit(f"{command[0]}: status {status}")
        costs.append(usage.ru_utime + usage.ru_stime)
    return min(costs)


with tempfile.NamedTemporaryFile("w", suffix=".csv") as file:
    file.write("".join(f"{i},{i % 997 / 4}\n" for i in range(count)))
    file.flush()
    for name, command in ("units", [program, "--column", "2", "feet", "m"]), ("awk", ["awk", AWK]):
        print(f"{name:6} {processor_seconds(command, file.name):6.2f} s of the processor", flush=True)
    print(f"{count} rows, {os.stat(file.name).st_size / 1e6:.1f} MB")
PYTHON
