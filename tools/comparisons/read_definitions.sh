#!/usr/bin/env bash
# Reads the definitions of GNU units with the program of crates/test_calls, and prints each line that it refuses.
#   tools/comparisons/read_definitions.sh [FILE]
# FILE is that of Debian's package units by default. For the definitions of GNU units 2.22, the status is 1 if the
# refused lines are not those below; with any other file the script only prints them.
set -u
root=$(cd "$(dirname "${BASH_SOURCE[0]}")/../.." && pwd)
file=${1:-/usr/share/units/definitions.units}
if [ ! -r "$file" ]; then
    echo "read_definitions: no file $file; on Debian: apt-get install units" >&2
    exit 1
fi
program=$("$root/tools/built.sh" test_calls) || exit
folder=$(mktemp -d)
trap 'rm -rf "$folder"' EXIT

# refused FAULT NAME..: prints the names of lines that are refused for this fault.
refused() {
    local fault=$1
    shift
    printf "%s\t$fault\n" "$@"
}

# The refused lines in the definitions of GNU units 2.22.
known_refusals() {
    # Bodies that begin with `/` or `per`.
    refused 'syntax error at 0' hertz diopter sturgeon mired pfu rhe statmho abmho count FIT becquerel percapita
    # Names that end in a digit, and bodies that are such names.
    for name in K_apex1961 K_apex1971 C_apex1961 C_apex1971 bronzeyard11; do
        refused "bad name: $name" "$name"
    done
    refused 'syntax error at 0' K_lum C_illum
    # A range up to 2^128, and a byte order mark in line 1.
    refused 'bad definition' ipv6subnetsize 'byte order mark'
}

"$program" entries < "$file" > "$folder/report" || exit 1
# Each refused line of the report, with the name at its beginning.
sed -n 's/^\([0-9]*\): refused: /\1\t/p' "$folder/report" > "$folder/refused"
LC_ALL=C awk -F '\t' '
    NR == FNR { fault[$1] = $2; next }
    FNR in fault {
        name = $0
        sub(/[ \t#(].*/, "", name)
        sub(/^\357\273\277$/, "byte order mark", name)
        print FNR "\t" name "\t" fault[FNR]
    }
' "$folder/refused" "$file" > "$folder/rows"
cat "$folder/rows"
tail -n 1 "$folder/report"

if ! grep -q '^# September 2022 Version 3\.15$' "$file"; then
    echo "read_definitions: these are not the definitions of GNU units 2.22, so there is nothing to compare with"
    exit 0
fi
if [ "$(tail -n 1 "$folder/report")" = '3720 lines, 21 refused' ] \
    && diff <(known_refusals | sort) <(cut -f 2- "$folder/rows" | sort); then
    echo "read_definitions: the refused lines are the known ones"
    exit 0
fi
echo "read_definitions: the refused lines are not the known ones"
exit 1
