#!/usr/bin/env bash
# Converts a column in blocks with GNU parallel, as docs/COLUMNS.md shows, and compares the bytes with those of one run.
#
#     tools/comparisons/compare_parallel.sh [ROWS]
#
# The files are one of ROWS rows (300,000 by default) with a header, one that is too large for one run, one with cells
# that are not numbers, and one with line feeds inside quotes, if Perl has Text::CSV. Run it by hand; it needs parallel.
# The last line is `N passed, M failed`.
set -u
script=$(readlink -f "${BASH_SOURCE[0]}") || exit
root=${script%/*/*/*}
rows=${1:-300000}
if ! command -v parallel > /dev/null; then
    echo 'compare_parallel: there is no command parallel'
    echo '0 passed, 1 failed'
    exit 1
fi
if ! program=$("$root/tools/built.sh" units); then
    echo '0 passed, 1 failed'
    exit 1
fi

folder=$(mktemp -d)
trap 'rm -rf "$folder"' EXIT
cd "$folder" || exit 1
ln -s "$program" units
export HOME=$folder PATH=$folder:$PATH
passed=0 failed=0

# The line of docs/COLUMNS.md, with options of parallel.
in_blocks() {
    sed -u 1q | units --header --column 2 feet m
    parallel "$@" --pipe --keep-order units --column 2 feet m
}

# table FIELD: prints rows with this last field, which is an awk string.
table() {
    awk -v rows="$rows" -v last="$1" \
        'BEGIN { print "id,len,note"; for (i = 0; i < rows; i++) print i "," i % 997 / 4 "," last }'
}

# expect NAME STATUS FILE GOT: a run in blocks ended with status GOT, which has to be STATUS, and wrote FILE.
expect() {
    if [ "$2" = "$4" ] && cmp "$3" got.csv; then
        passed=$((passed + 1))
    else
        failed=$((failed + 1))
        echo "compare_parallel: $1: status $4 instead of $2, or other bytes"
    fi
}

table 'a note' > rows.csv
units --header --column 2 feet m < rows.csv > one.csv
in_blocks < rows.csv > got.csv
expect 'the file' 0 one.csv $?
# shellcheck disable=SC2002 # from a pipe
cat rows.csv | in_blocks > got.csv
expect 'from a pipe' 0 one.csv $?

# Enough copies to exceed the limit of one run.
copies=$((16777216 / $(stat -c %s rows.csv) + 2))
{ head -n 1 rows.csv; for ((i = 0; i < copies; i++)); do tail -n +2 rows.csv; done; } > large.csv
{ head -n 1 one.csv; for ((i = 0; i < copies; i++)); do tail -n +2 one.csv; done; } > expected.csv
in_blocks < large.csv > got.csv
expect 'more than one run takes' 0 expected.csv $?

# The status is the number of blocks that have such a cell, here the first and the last.
{ head -n 1 large.csv; echo 'first,x,'; tail -n +2 large.csv; echo 'last,y,'; } > faulty.csv
{
    head -n 1 expected.csv
    echo 'first,error: not a number,'
    tail -n +2 expected.csv
    echo 'last,error: not a number,'
} > expected.csv.new
mv expected.csv.new expected.csv
in_blocks < faulty.csv > got.csv
expect 'cells that are not numbers' 2 expected.csv $?

if perl -MText::CSV -e 1 2> /dev/null; then
    table '"a\n""b"", c\nd"' > quoted.csv
    units --header --column 2 feet m < quoted.csv > one.csv
    in_blocks --csv < quoted.csv > got.csv
    expect 'line feeds inside of quotes' 0 one.csv $?
else
    echo 'compare_parallel: Perl has no Text::CSV, so line feeds inside of quotes are not tested'
fi

echo "$passed passed, $failed failed"
[ "$failed" = 0 ]
