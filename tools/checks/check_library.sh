#!/usr/bin/env bash
# Checks the library of definitions in share/units.
#   tools/checks/check_library.sh [--program UNITS] [--library FOLDER]
# The program's own report is empty in three locales and with odd variables. The linter finds nothing in the library,
# and each of the planted traps in tests/library. Each definition has a status, each unit the dimensions of its
# comment. Functions and tables invert exactly on a grid. Conversion factors, constants and symbols with their
# prefixes agree with the tables in tests/library, which were typed from printed sources or hold the values of GNU
# units, pint and qalc, and the constants agree with each other. A comparison notices each numeral that is made 1 %
# larger, but for those of the definitions in unwitnessed.tsv. A unit of GNU units, pint or qalc that the library
# reads as a prefix and a unit has its value there, or a row in decided_readings.tsv; one that differs from a unit
# here in underscores or case only is defined, or in omitted_names.tsv. No constant is called more exact than it is
# published, and corrected statuses stay. Each source names a document of docs/SOURCES.md, common use or trade use.
# The library exported as CSV and JSON has each definition, as its schema says. built_in.units is the built-in text,
# constants.units what tools/write_constants.py writes. Each failure is one line; the definitions are counted by
# status, kind and file; the last line is `N passed, M failed, K skipped`, and the status is 0 if nothing failed.
set -u
root=$(cd "$(dirname "${BASH_SOURCE[0]}")/../.." && pwd) || exit
exec python3 "$root/tools/checks/check_library.py" "$@"
