#!/usr/bin/env bash
# Tests tools/import_gnu.sh on a small file that has each form that it changes, and on the definitions of Debian's
# package `units`, if that is installed. The copy of these has to give no notice and to define the units that GNU's own
# file loses, and GNU units has to give the same answers with the original and with the copy.
#
#     tools/checks/check_import_gnu.sh
#
# The last line is `N passed, M failed, K skipped`, and the status is 0 if nothing failed and else 1.
set -u
script=$(readlink -f "${BASH_SOURCE[0]}") || exit
root=${script%/*/*/*}
import=$root/tools/import_gnu.sh
gnu_file=/usr/share/units/definitions.units
folder=$(mktemp -d) || exit
trap 'rm -rf "$folder"' EXIT
cd "$folder" || exit
passed=0 failed=0 skipped=0

# expect NAME WANTED GOT
expect() {
    if [ "$2" = "$3" ]; then
        passed=$((passed + 1))
    else
        failed=$((failed + 1))
        printf 'check_import_gnu: %s:\n--- wanted\n%s\n--- got\n%s\n' "$1" "$2" "$3"
    fi
}

# status_of COMMAND WORD..: prints the exit status; both streams go to the file `output`.
status_of() {
    "$@" > output 2>&1
    echo $?
}

convert() { "$root/bin/units" -1 "$@" 2>&1; }

make_small_file() {
    printf '\357\273\277# The licence\r\n'
    printf 's !\nsecond s\nmicro- 1e-6\n\302\265- micro\n\342\205\233- 1|8\nhalf- 1|2\n'
    printf 'hertz\t/s # per s\nshrimp  per s\n!include other.units\n'
    printf 'K_apex1961 11.4 s # K_apex1961\ntwice 2 K_apex1961*K_apex1961x \\\n  /s\n'
    printf 'ok_19 3\npi 3.14159265358979323846 # pi\n'
    printf 'f(x) units=[1;1] range=[1,340282366920938463463374607431768211456] \\\n  x\n'
}

check_small_file() {
    make_small_file > small.units
    printf 'other9 /second\nK_apex1961x 7\n' > other.units
    expect 'the copy is written' 0 "$(status_of "$import" small.units copy.units)"
    expect 'its name is printed' copy.units "$(cat output)"
    expect 'the definitions of the copy' "$(expected_lines)" "$(grep -v '^#' copy.units)"
    expect 'the licence stays' '# The licence' "$(grep licence$ copy.units)"
    expect 'the program has no notice' '' "$(convert -f copy.units --check)"
    expect 'the microsecond' '	* 1e-06' "$(convert -f copy.units $'\302\265s' s)"
    expect 'the renamed name' $'\tDefinition: 2 K_apex_1961*K_apex1961x    /s = 159.6' \
        "$(convert -f copy.units twice)"
    cp copy.units first.units
    expect 'a copy is replaced' 0 "$(status_of "$import" small.units copy.units)"
    expect 'by equal bytes' "$(cat first.units)" "$(cat copy.units)"
    expect 'standard output' "$(cat first.units)" "$("$import" small.units -)"
    cp small.units 'a b\t.units'
    expect 'a file with a blank and a backslash' 0 "$(status_of "$import" 'a b\t.units' 'c d\t.units')"
    expect 'the same definitions' "$(expected_lines)" "$(grep -v '^#' 'c d\t.units')"
    rm 'a b\t.units' 'c d\t.units'
    expect 'nothing else is left' 'copy.units first.units other.units output small.units' "$(echo *)"
}

expected_lines() {
    printf 's !\nsecond s\nmicro- 1e-6\n\302\265- micro\n\342\205\233- 1|8\nhalf- 1|2\n'
    printf 'hertz\t1 /s # per s\nshrimp  1 per s\nother_9 1 /second\nK_apex1961x 7\n'
    printf 'K_apex_1961 11.4 s # K_apex1961\ntwice 2 K_apex_1961*K_apex1961x \\\n  /s\n'
    printf 'ok_19 3\npi                      21053343141|6701487259 # pi\n'
    printf 'f(x) units=[1;1] \\\n  x\n\n'
    printf '\302\265s \302\265 second\n\342\205\233s \342\205\233 second\n'
}

check_line_feeds() {
    local name=$'a\nb !\nc.units'
    mkdir line_feed && cd line_feed || return
    printf 'm !\n!include d.units\n' > "$name"
    echo 'e 2 m' > d.units
    echo 'wrong !' > other.units
    printf 'm !\n' > $'other.units\n'
    expect 'a line feed in the name of the file' 0 "$(status_of "$import" "$name" copy.units)"
    expect '.. makes no line' $'m !\ne 2 m' "$(grep -v '^#' copy.units)"
    expect '.. is shown' 1 "$(grep -cF 'made from '"$PWD"'/a\x0ab !\x0ac.units.' copy.units)"
    expect 'a line feed at the end of a name' 0 "$(status_of "$import" $'other.units\n' copy.units)"
    expect '.. is part of the name' 'm !' "$(grep -v '^#' copy.units)"
    cd .. || exit
}

check_refusals() {
    echo 'my own definitions' > own.units
    expect 'a file of another origin is kept' 1 "$(status_of "$import" small.units own.units)"
    expect 'with its bytes' 'my own definitions' "$(cat own.units)"
    expect 'a folder in its place' 1 "$(status_of "$import" small.units "$folder")"
    expect 'an absent file' 1 "$(status_of "$import" absent.units new.units)"
    expect 'is named' 'import_gnu: cannot read absent.units' "$(cat output)"
    printf 'm !\n!include gone.units\n' > lost.units
    expect 'an absent include' 1 "$(status_of "$import" lost.units new.units)"
    expect 'leaves no copy' 'no' "$([ -e new.units ] && echo yes || echo no)"
    printf 'm !\n!include round.units\n' > round.units
    expect 'a file that includes itself' 1 "$(status_of timeout 600 "$import" round.units new.units)"
    mkfifo pipe
    : > 'long.units' && truncate -s 16777217 long.units
    for name in /dev/zero pipe long.units /dev/stdin . "it's\`touch\${IFS}ran\`"; do
        printf 'm !\n!include %s\n' "$name" > strange.units
        expect "an include of $name" 1 "$(ulimit -v 1000000; status_of timeout 600 "$import" strange.units new.units)"
        case $name in /*) path=$name ;; *) path=$PWD/$name ;; esac
        expect 'is named' "import_gnu: no regular file of at most 16 MiB: $path" "$(head -n 1 output)"
        expect 'leaves no copy' no "$([ -e new.units ] && echo yes || echo no)"
    done
    expect 'no command ran' no "$([ -e ran ] && echo yes || echo no)"
    expect 'a pipe' 1 "$(status_of timeout 600 "$import" pipe new.units)"
    expect 'three words' 2 "$(status_of "$import" a b c)"
    expect 'an unknown option' 2 "$(status_of "$import" --nothing)"
    expect 'help' 0 "$(status_of "$import" --help)"
}

check_gnu_file() {
    expect 'GNU definitions' 0 "$(status_of "$import" "$gnu_file" gnu.units)"
    expect 'no notice' 0 "$("$root/bin/units" -f gnu.units m 2>&1 > /dev/null | wc -l)"
    expect 'Hz' $'\tDefinition: hertz = 1 / s' "$(convert -f gnu.units Hz)"
    expect 'the micro sign' $'\t* 0.005' "$(convert -f gnu.units $'5 \302\265s' ms)"
    expect 'the Greek mu' $'\t* 0.005' "$(convert -f gnu.units $'5 \316\274s' ms)"
    expect 'Darcy-Weisbach' $'\t* 43.533969' \
        "$(convert -f gnu.units '8/pi^2 * lbm/ft^3 * ft * (ft^3/s)^2 /in^5' psi)"
    expect 'Darcy-Weisbach with blanks' $'\t* 43.533969' \
        "$(convert -f gnu.units '(8/pi^2)(lbm/ft^3) ft (ft^3/s)^2 (1/in^5)' psi)"
    expect 'an old name' $'\tDefinition: K_apex_1971 = 12.5 / s' "$(convert -f gnu.units K_lum)"
    sed -n 's/^\([^][ \t#!(+]*[^][ \t#!(+1-9-]\)[ \t].*/\1\n/p' "$gnu_file" > names
    for file in "$gnu_file" gnu.units; do
        units -f "$file" -q -d 12 --compact < names 2>&1 | sed 's/.* = //' > "answers.${file##*/}"
    done
    expect 'more than 3,000 names' yes "$([ "$(grep -c . names)" -gt 3000 ] && echo yes)"
    expect 'GNU units over the original and the copy' '' "$(diff answers.definitions.units answers.gnu.units | head)"
}

check_small_file
check_line_feeds
check_refusals
if [ -r "$gnu_file" ] && command -v units > /dev/null; then
    check_gnu_file
else
    echo "check_import_gnu: there is no $gnu_file (Debian's package units), so GNU's own definitions are not tested"
    skipped=1
fi
echo "$passed passed, $failed failed, $skipped skipped"
[ "$failed" = 0 ]
