#!/usr/bin/env bash
# Compares units-why on the last name of a chain of 60,000 definitions with the conversion by units, and its --lint with
# --check of units over the definitions of GNU units, in turns. Prints the seconds of the processor, the medians
# of ROUNDS rounds (30, or the first argument). UNITS_WHY and UNITS name other programs.
set -u
root=$(cd "$(dirname "${BASH_SOURCE[0]}")/.." && pwd)
program=${UNITS:-$("$root/tools/built.sh" units)} || exit
why=${UNITS_WHY:-$("$root/tools/built.sh" units_why)} || exit
exec python3 -B "$root/bench/why.py" "$program" "$why" "${1:-30}"
