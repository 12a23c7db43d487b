#!/usr/bin/env bash
# Times a conversion of the last name of a chain, in which each line uses the name of the line before. The longest chain
# is as long as a first file may be. Prints the seconds, the lowest of five runs.
set -u
root=$(cd "$(dirname "${BASH_SOURCE[0]}")/.." && pwd)
program=$("$root/tools/built.sh" units) || exit
folder=$(mktemp -d)
trap 'rm -rf "$folder"' EXIT

# chain LINES: prints such a file. A name is x and the number of its line in the letters a to j.
chain() {
    awk -v lines="$1" 'function name(i, digits) {
        digits = i ""
        gsub(/0/, "a", digits); gsub(/1/, "b", digits); gsub(/2/, "c", digits); gsub(/3/, "d", digits); gsub(/4/, "e", digits)
        gsub(/5/, "f", digits); gsub(/6/, "g", digits); gsub(/7/, "h", digits); gsub(/8/, "i", digits); gsub(/9/, "j", digits)
        return "x" digits
    }
    BEGIN {
        print "first !"
        before = "first"
        for (i = 2; i < lines; i++) { print name(i), (i % 2 ? "2|3" : "3|2"), before; before = name(i) }
        print "last", "7|5", before
    }'
}

for lines in 12500 25000 50000 100000; do
    chain $lines > "$folder/chain.units"
    best=999999999999
    for _ in 1 2 3 4 5; do
        from=$(date +%s%N)
        "$program" --exact -f "$folder/chain.units" last first > "$folder/out.txt" || exit 1
        to=$(date +%s%N)
        [ $((to - from)) -lt $best ] && best=$((to - from))
    done
    awk -v lines=$lines -v total=$best 'BEGIN { printf "%6d lines  %.3f s\n", lines, total / 1e9 }'
done
