#!/usr/bin/env bash
# Times input with faults: the check of chains whose last name is unknown, and sessions of unknown words. Prints the
# seconds of the processor, the lowest of some runs.
#   bench/faults.sh
set -u
root=$(cd "$(dirname "${BASH_SOURCE[0]}")/.." && pwd)
program=$("$root/tools/built.sh" units) || exit
exec python3 - "$program" <<'PYTHON'
import os
import subprocess
import sys
import tempfile

program = sys.argv[1]


def processor_seconds(words, text="", runs=3):
    """The lowest processor time of some runs."""
    costs = []
    for _ in range(runs):
        with tempfile.TemporaryFile("w+") as file, open(os.devnull, "wb") as sink:
            file.write(text)
            file.seek(0)
            process = subprocess.Popen([program, *words], stdin=file, stdout=sink)
            _, _, usage = os.wait4(process.pid, 0)
        costs.append(usage.ru_utime + usage.ru_stime)
    return min(costs)


def say(title, cost):
    print(f"{title:52} {cost:7.3f} s", flush=True)


with tempfile.TemporaryDirectory() as folder:
    for count in (1000, 2000, 4000, 8000):
        path = os.path.join(folder, f"{count}.units")
        with open(path, "w") as file:
            file.write("u_0 gone\n" + "".join(f"u_{i} 2 u_{i - 1}\n" for i in range(1, count)))
        say(f"the check of {count} names over an unknown one", processor_seconds(["--check", "-f", path]))
for count in (1000, 5000):
    words = "".join(f"{'a' * 249}{i:06}\n" for i in range(count))
    say(f"a session of {count} unknown words of 255 bytes", processor_seconds(["-q"], words))
PYTHON
