#!/usr/bin/env bash
# Compares the Python package with pint (Debian's python3-pint) in one run: import and first conversion, arithmetic of
# quantities, and the conversion of arrays of 10^6 floats. Prints times by the processor, the lowest of several rounds in
# turns, and their ratios. Arrays of exact_units have the nearest double; `fast` multiplies once, as pint does.
#   bench/python.sh
set -u
root=$(cd "$(dirname "${BASH_SOURCE[0]}")/.." && pwd)
export PYTHONPATH=$root/lib/python EXACT_UNITS_LIBRARY=${EXACT_UNITS_LIBRARY:-$root/release/libunits.so.1}
exec /usr/bin/python3 "$root/bench/python_package.py"
