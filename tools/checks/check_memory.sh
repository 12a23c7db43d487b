#!/usr/bin/env bash
# Refuses each allocation of the built program in turn, alone and with all later ones, in command lines and sessions:
# each such run ends with status 6, each stream has a prefix of its usual output, and a saved file is unchanged or
# complete, with no temporary file left. A session with a drop may also end as usual, since a drop does without memory
# for a gap. Needs gcc, for an allocator that takes the place of the C library's. A case is a command line; the last line
# is `N passed, M failed`.
set -u
script=$(readlink -f "${BASH_SOURCE[0]}") || exit
root=${script%/*/*/*}
fail() { echo "check_memory: $*"; echo "0 passed, 1 failed"; exit 1; }
command -v gcc > /dev/null || fail 'there is no command gcc'
program=$("$root/tools/built.sh" units) || fail 'the program is not built'

folder=$(mktemp -d)
trap 'rm -rf "$folder"' EXIT
cd "$folder" || exit 1
cp "$root/examples/first.units" first.units
truncate --size 16777217 long.units
mkdir sub
printf '%s\n' '!include sub/a.units' '!include gone.units' > main.units
printf '%s\n' 'm !' '!include b.units' > sub/a.units
echo 'z 4 m' > sub/b.units
printf '%s\n' 'm !' 'a b' 'b a' 'c 2 a' > cycle.units
printf '%s\n' 'm !' '!endvar' 'bad 2 nosuch' 'p- 2 q' '!unitlist z m;1/m' > faults.units
printf '%s\n' 'm !' 'a 2 m' 'b 3 a' 'c 5 m' > kept.units
printf '%s\n' 'a 3 m' '!nosuch' 'd 7 m' > more.units
: > input.txt

gcc -O1 -shared -fPIC -o refuse.so "$root/tools/checks/refuse.c" || fail 'gcc did not build the allocator'

# run SETTING..: runs the program on the words with these variables; sets the status, the output and the saved file.
run() {
    printf 'old\n' > saved.units
    env -i "$@" "$program" "${words[@]}" > out.txt 2> err.txt 9> refused.txt < input.txt
    status=$?
    IFS= read -r -d '' out < out.txt
    IFS= read -r -d '' err < err.txt
    IFS= read -r -d '' saved < saved.units
}

# does_without: whether the run has a drop and ended as if no allocation was refused.
does_without() {
    [ "$status" = "$expected" ] && [ "$out" = "$full_out" ] && [ "$err" = "$full_err" ] \
        && [ "$saved" = "$full_saved" ] && grep -q '^:drop' input.txt
}

total=0 passed=0 failed=0

# try_all STATUS WORD..: tries a run that ends with this status if no allocation is refused.
try_all() {
    local expected=$1 full_out full_err full_saved i later count=0 wrong=0
    shift
    words=("$@")
    run A=1 B=2
    full_out=$out full_err=$err full_saved=$saved
    [ "$status" = "$expected" ] || wrong=1
    for later in "" LATER=1; do
        for ((i = 1; ; i++)); do
            run A=1 B=2 "LD_PRELOAD=$folder/refuse.so" "REFUSED=$i" ${later:+"$later"}
            [ -s refused.txt ] || break
            count=$((count + 1))
            if ! does_without && { [ "$status" != 6 ] || [[ $full_out != "$out"* ]] || [[ $full_err != "$err"* ]]; }; then
                echo "check_memory: units $*: with allocation $i refused ${later:+and all later ones }it ended with $status"
                wrong=1
            fi
            if { [ "$saved" != $'old\n' ] && [ "$saved" != "$full_saved" ]; } || [ -e .units-save-0 ]; then
                echo "check_memory: units $*: with allocation $i refused ${later:+and all later ones }it saved $saved"
                wrong=1
            fi
        done
    done
    [ $count -gt 1 ] || wrong=1
    total=$((total + count))
    if [ $wrong = 0 ]; then passed=$((passed + 1)); else failed=$((failed + 1)); fi
}

try_all 0 --exact -f first.units yd m
try_all 0 -d 36 -f first.units m yd
try_all 0 '10 meters' feet
try_all 0 'tempF(45)' tempC
try_all 0 '0.028 in' zincgauge
try_all 0 -v '1.4 m' 'ft;in'
try_all 0 'J / mol K'
try_all 0 '2 s' '?'
try_all 0 -f main.units z m
try_all 1 'sqrt(2)'
try_all 1 '2 m + 3 s'
try_all 1 -f cycle.units c
try_all 1 -c -f faults.units
try_all 2 -d 0 m ft
try_all 2 $'\xff'
try_all 3 -f gone.units yd m
try_all 3 -f long.units yd m
try_all 4 -f . yd m
try_all 0 --trial 3

# Sessions: values that are stored, dropped and queried again, and each command.
session() { printf '%s\n' "$@" > input.txt; }
session '1 s' ms ':define ms 7 s' '1 s' ms ':drop ms' '1 s' ms
try_all 0 -q
session b m c m ':define a 7 m' :stats b m :stats
try_all 0 -q -f kept.units
session b m ':load more.units' b m ':set V x' ':locale en_GB' ':load gone.units' ':define a' ':drop zz' 'search a' \
    b '?' '' :stats exit
try_all 0 -f kept.units
session ':define a 7 m' ':drop c' ':locale en_GB' ':load more.units' :undo :undo b m :undo :undo :redo b m ':save saved.units' \
    ':drop b' ':load saved.units' :undo :undo :undo :undo
try_all 0 -q -f kept.units

# Columns, without a header and with one.
session 1,a 2,b x,c
try_all 1 -f main.units --column 1 z m
session n,len a,1 b,2
try_all 0 -f main.units --header --column 2 z m

echo "check_memory: $total runs with an allocation refused"
echo "$passed passed, $failed failed"
[ "$failed" = 0 ]
