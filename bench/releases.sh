#!/bin/sh
# Compares the static program with an earlier release: conversions, sessions, columns and drops, which both programs run in turns.
# Prints the milliseconds of the processor, the lowest of 21 turns, their ratio, and the ratio of the instructions if
# valgrind is installed. See bench/releases.py.
#   bench/releases.sh [COMMIT]
script=$(readlink -f "$0") || exit
exec python3 "${script%/*}/releases.py" "$@"
