#!/usr/bin/env bash
# Compares the library, from C and from Python, with a session of the program, with its --column, and with pint
# (Debian's python3-pint), over GNU units' definitions. Prints microseconds and seconds, each the lowest of several
# rounds in which the measurements take turns, and the ratios. Pairs are timed by the clock, since a session is another
# process. For columns, `ours` is a call with the numbers and answers in memory, and `the other` is a whole process that
# reads a file of lines and writes a file.
#   bench/c_library.sh [ROUNDS]
# Needs what tools/c_library.sh needs, and Debian's units and python3-pint.
set -eu
root=$(cd "$(dirname "${BASH_SOURCE[0]}")/.." && pwd)
rounds=${1:-5}
definitions=/usr/share/units/definitions.units
[ -e "$definitions" ] || { echo "bench/c_library.sh: $definitions is missing: install Debian's units" >&2; exit 1; }
/usr/bin/python3 -c 'import pint' || { echo "bench/c_library.sh: install Debian's python3-pint" >&2; exit 1; }
work=$(mktemp -d)
trap 'rm -rf "$work"' EXIT
"$root/tools/c_library.sh" "$work/units"
build() { gcc -O2 -I"$work/units/include" -o "$work/$1" "$root/$2" "$work/units/lib/libunits.a"; }
build pairs bench/c_library_pairs.c
build column tests/c/column.c
program=$("$root/tools/built.sh" units)
export EXACT_UNITS_LIBRARY=$work/units/lib/libunits.so.1 EXACT_UNITS_PROGRAM=$program PYTHONPATH=$root/lib/python
/usr/bin/python3 "$root/bench/c_library.py" "$work/pairs" "$work/column" "$definitions" "$rounds"
