#!/bin/sh
# Measures how time and memory grow with the input, at three sizes for each row. The exponents compare the two larger
# sizes: 1 is linear, 2 quadratic. See bench/scaling.py.
#   bench/scaling.sh [--program PROGRAM] [--static PROGRAM] [ROW..]
script=$(readlink -f "$0") || exit
exec python3 "${script%/*}/scaling.py" "$@"
