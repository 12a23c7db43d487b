#!/bin/sh
# Compares the processor time that the proofs of this commit and of an earlier one take, proved side by side from nothing.
# A crate that both have is proved once, and counts for both. See bench/gates.py.
#   bench/gates.sh COMMIT [SAMPLES]
script=$(readlink -f "$0") || exit
exec python3 "${script%/*}/gates.py" "$@"
