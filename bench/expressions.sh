#!/usr/bin/env bash
# Times the program of crates/test_calls on long texts of 4, 8 and 16 MiB. It parses a text and prints `tree` or the
# fault. Prints the seconds, the lower of two runs, the peak memory, and the answer.
set -u
root=$(cd "$(dirname "${BASH_SOURCE[0]}")/.." && pwd)
program=$("$root/tools/built.sh" test_calls) || exit
folder=$(mktemp -d)
trap 'rm -rf "$folder"' EXIT

# text PATTERN MEBIBYTES: the pattern over and over, up to so many bytes, as a line of the program.
text() {
    python3 -c 'import sys
pattern, size = sys.argv[1], int(sys.argv[2]) << 20
print("parse " + (pattern * (size // len(pattern) + 1))[:size - 1] + "1")' "$1" "$2"
}

for pattern in '1 ' 'a' '(' '1+' '1*' 'm2 ' '1^' ' '; do
    for size in 4 8 16; do
        text "$pattern" $size > "$folder/text"
        python3 - "$program" "$folder/text" "$pattern" $size <<'PYTHON'
import resource
import subprocess
import sys
import time

program, text, pattern, size = sys.argv[1:]
best, answer = float("inf"), ""
for _ in range(2):
    with open(text, "rb") as given:
        start = time.perf_counter()
        run = subprocess.run([program, "texts"], stdin=given, stdout=subprocess.PIPE, check=True)
        best, answer = min(best, time.perf_counter() - start), run.stdout.decode().strip()
memory = resource.getrusage(resource.RUSAGE_CHILDREN).ru_maxrss >> 10
print(f"{pattern * 3!r:14} {size:2} MiB  {best:6.2f} s  {memory:5} MiB of memory, {answer}")
PYTHON
    done
done
