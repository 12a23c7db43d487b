#!/usr/bin/env bash
# Finds the least stack with which the built programs evaluate the deepest expressions that they accept, and checks that
# it is below the bound that docs/DECISIONS.md states: 16 functions that call one another, each with an expression of 63
# levels, in a query of 63 levels. A case is a kind of level in a program; the last line is `N passed, M failed`.
set -u
bound=1024 # KiB
script=$(readlink -f "${BASH_SOURCE[0]}") || exit
root=${script%/*/*/*}
programs=()
for choice in units "--static units"; do
    # shellcheck disable=SC2086 # an option and a name
    program=$("$root/tools/built.sh" $choice) || { echo "0 passed, 1 failed"; exit 1; }
    [[ " ${programs[*]} " = *" $program "* ]] || programs+=("$program")
done
folder=$(mktemp -d)
trap 'rm -rf "$folder"' EXIT
cd "$folder" || exit 1

# nest COUNT OPENING INNER: prints the inner expression in this many levels.
nest() {
    printf "$2%.0s" $(seq "$1")
    printf '%s' "$3"
    printf ')^1%.0s' $(seq "$1")
}

# define_functions COUNT OPENING: prints functions of the ranks 1 to 16, whose expressions have levels that begin so.
define_functions() {
    echo 'u 1'
    echo 'v_1(x) x ; v_1'
    for rank in $(seq 2 16); do echo "v_$rank(x) $(nest "$1" "$2" "v_$((rank - 1))(x)")"; done
}

# answers PROGRAM STACK: whether the program gives the right answer with this stack, in KiB.
answers() {
    (ulimit -s "$2" && exec env -i "$1" -f deep.units "$query") > out.txt 2> err.txt < /dev/null
    grep -q 'Definition: 1$' out.txt
}

# least_stack PROGRAM: prints the least stack with which the program answers, in steps of 16 KiB.
least_stack() {
    local low=0 high=512 middle # a step is 16 KiB, and the usual stack is 8 MiB
    while [ $((high - low)) -gt 1 ]; do
        middle=$(((low + high) / 2))
        if answers "$1" $((16 * middle)); then high=$middle; else low=$middle; fi
    done
    echo $((16 * high))
}

passed=0 failed=0
query=$(nest 63 '0+1*1 u(' 'v_16(1)')
while IFS=: read -r kind count opening; do
    define_functions "$count" "$opening" > deep.units
    for program in "${programs[@]}"; do
        answers "$program" 8192 || echo "check_stack: ${program##*/}: $kind: no answer with 8 MiB"
        least=$(least_stack "$program")
        echo "check_stack: ${program##*/}: $kind: $least KiB"
        if [ "$least" -lt $bound ]; then passed=$((passed + 1)); else failed=$((failed + 1)); fi
    done
done 2> /dev/null <<'KINDS'
roots:63:0+1*1 sqrt(
products with the argument:63:0+1*1 x(
products with a unit:63:0+1*1 u(
exponents:31:0+1*1 1^x(
calls:63:0+1*1 v_1(
inverses:63:0+1*1 ~v_1(
signs:31:0-1*-1 sqrt(
KINDS
echo "$passed passed, $failed failed"
[ "$failed" = 0 ]
