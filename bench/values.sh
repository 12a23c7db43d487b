#!/usr/bin/env bash
# Times the evaluation of expressions of 9,000 numerals and names in a session: products and sums of plain numbers, of a
# name with one dimension, and of a name with three. Prints the milliseconds of one evaluation: the time of 50 lines,
# less the time of the same lines with an unknown last word, which are parsed and looked up but not evaluated.
set -u
root=$(cd "$(dirname "${BASH_SOURCE[0]}")/.." && pwd)
program=$("$root/tools/built.sh" units) || exit
python3 - "$program" <<'PYTHON'
import resource
import subprocess
import sys
import tempfile
import time

LINES, RUNS, MEMBERS = 50, 5, 9_000
DEFINITIONS = b"kg !\nm !\ns !\nnewton 1|3 kg m / s^2\n"


def seconds(expression):
    text = f"{expression}\n\n".encode() * LINES
    best = float("inf")
    for _ in range(RUNS):
        start = time.perf_counter()
        process = subprocess.run(
            [sys.argv[1], "-q", "-t", "--exact", "-f", file.name],
            input=text, stdout=subprocess.PIPE, stderr=subprocess.STDOUT, check=True,
        )
        best = min(best, time.perf_counter() - start)
    return best, process.stdout.split(b"\n")[0].decode()


file = tempfile.NamedTemporaryFile()
file.write(DEFINITIONS)
file.flush()
for name, product in [("numbers", "2 / 2 * 3 / 3"), ("m", "2 m / m / 2"), ("newton", "2 newton / newton / 2")]:
    expression = " * ".join([product] * (MEMBERS // 4))
    full_time, answer = seconds(expression)
    parse_time, refusal = seconds(f"{expression} * nothing")
    print(f"product of {name:8} {1000 * (full_time - parse_time) / LINES:6.2f} ms  ({answer}; {refusal})")
for name, sum in [("numbers", "2 - 1"), ("m", "2 m - m"), ("newton", "2 newton - newton")]:
    expression = " + ".join([sum] * (MEMBERS // (len(sum.split()) - 1)))
    full_time, answer = seconds(expression)
    parse_time, refusal = seconds(f"{expression} + nothing")
    print(f"sum of {name:12} {1000 * (full_time - parse_time) / LINES:6.2f} ms  ({answer}; {refusal})")
print(f"{resource.getrusage(resource.RUSAGE_CHILDREN).ru_maxrss >> 10} MiB of memory")
PYTHON
