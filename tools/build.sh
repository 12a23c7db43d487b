#!/usr/bin/env bash
# Proves and builds a program after the libraries below it. From nothing that takes an hour or more, 4 GB of memory and
# 1.5 GB of disk; after a change, only the changed crates and those above them are proved again.
#   tools/build.sh [NAME]    NAME is a program of crates.txt, `units` by default
# Statuses: 126 if a crate is not proved or the folder cannot be written, 127 if the toolchain is not installed.
set -u
script=$(readlink -f "${BASH_SOURCE[0]}") || exit
root=${script%/*/*}
. "$root/tools/sources.sh" || exit
case "${1-}" in -*) sed -n '2,/^set/s/^# \{0,1\}//p' "$script" | head -n -1 >&2; exit 2 ;; esac
name=${1:-units}
out=$root/crates/$name/out
program=$out/$name
log=$out/build.log

say() { echo "$name: $*" >&2; }

# give_up STATUS WORD..
give_up() {
    local status=$1
    shift
    say "$@"
    exit "$status"
}

# put_back: restores the program that an unfinished build set aside.
put_back() { if [ -e "$program.before" ]; then mv "$program.before" "$program"; fi; }

# prove CRATE: proves and builds a library, or the program. `rt run` also runs the program, whose status does not
# matter: rt leaves a stamp next to a program that it built.
prove() {
    cd "$root/crates/$1" || return
    if [ "$1" != "$name" ]; then rt lib < /dev/null >> "$log" 2>&1; return; fi
    rm -f "$program.stamp"
    rt run < /dev/null >> "$log" 2>&1
    [ -e "$program.stamp" ]
}

build() {
    local crates crate place=0
    mapfile -t crates <<< "$(lines_of "$name" | sed 's/[ :].*//')"
    say "proving and building ${#crates[@]} crates; the log is $log"
    : > "$log"
    if [ -e "$program" ]; then cp -p "$program" "$program.before"; fi
    trap put_back EXIT
    trap 'exit 130' INT
    trap 'exit 143' TERM HUP
    for crate in "${crates[@]}"; do
        place=$((place + 1))
        if ! (prove "$crate"); then
            tail -n 5 "$log" >&2
            give_up 126 "the crate $crate was not proved, so the program was not built; $log has the output of rt"
        fi
        say "$crate is proved ($place of ${#crates[@]}, after $SECONDS s)"
    done
    rm -f "$program.before"
    touch "$program"
}

[ -e "$root/crates/$name/src/main.rt" ] || give_up 2 'crates.txt has no such program'
command -v rt > /dev/null || give_up 127 'there is no command rt to build it with (see CONTRIBUTING.md)'
if ! mkdir -p "$out" 2> /dev/null || ! [ -w "$out" ]; then
    give_up 126 "$out cannot be written: copy the repository to a folder of your own"
fi
if is_built "$name"; then say 'the program is already built from these sources'; exit; fi
put_back
build
