#!/usr/bin/env bash
# Times a process that makes one conversion, over the example of four lines, the built-in definitions, and the
# definitions of GNU units. Compares the released programs, dynamic and static, and bin/units with GNU units over the
# same file, in turns. Prints the lowest of ROUNDS rounds of 20 runs by the processor and by the clock, with their
# ratios to GNU's, and the ratios of the medians, which other work of the machine changes less.
#   bench/startup.sh [ROUNDS [STATIC]]    20 rounds and the released static program, unless others are given
set -u
root=$(cd "$(dirname "${BASH_SOURCE[0]}")/.." && pwd)
program=$("$root/tools/built.sh" units) || exit
exec python3 "$root/bench/startup.py" "$root" "$program" "${1:-20}" "${2:-$root/release/units-x86_64-linux-static}"
