#!/usr/bin/env bash
# Tests the released static program `units`, which is linked from the same object as the dynamic one: the transcripts and the
# statuses in a root folder that has musl and busybox instead of this system's libraries, or directly if there can be no
# such folder; runs in which the system refuses memory; and the code that tools/release/static adds.
#   tools/checks/check_static.sh [PROGRAM [OBJECT]]    tests this static program, and its object, instead of the
#                                                      released one
# Each allocation is refused in turn if the object exists; bin/test leaves it there, unless rt kept the program of an
# earlier run. The last line is `N passed, M failed, K skipped`.
# shellcheck disable=SC2317 # functions are called by expect
set -u
script=$(readlink -f "${BASH_SOURCE[0]}") || exit
root=${script%/*/*/*}
static=$root/release/units-x86_64-linux-static
dynamic=$root/crates/units/out/units
object=$root/crates/units/out/units.o
passed=0 failed=0 skipped=0

# end: prints the last line.
end() {
    echo "$passed passed, $failed failed, $skipped skipped"
    [ "$failed" -eq 0 ]
    exit
}

skip() { echo "check_static: skipped: $1"; skipped=$((skipped + 1)); }

# expect NAME COMMAND WORD..: runs one case, which passes if the command succeeds; otherwise shows its output.
expect() {
    local name=$1
    shift
    if "$@" > "$folder/output" 2>&1 < /dev/null; then
        passed=$((passed + 1))
    else
        failed=$((failed + 1))
        echo "check_static: $name failed:"
        cat "$folder/output"
    fi
}

has() { type -P "$1" > /dev/null; }

# add_last_line: adds the counts in the last line of a check. Shows the whole output if something failed.
add_last_line() {
    local counts new_passed new_failed new_skipped
    counts=$(tail -n 1 "$folder/output" \
        | sed -nE 's/^([0-9]+) passed, ([0-9]+) failed(, ([0-9]+) skipped)?$/\1 \2 \4/p')
    read -r new_passed new_failed new_skipped <<< "${counts:-0 1}"
    if [ "$new_failed" -ne 0 ]; then cat "$folder/output"; fi
    passed=$((passed + new_passed)) failed=$((failed + new_failed)) skipped=$((skipped + ${new_skipped:-0}))
}

# check_with PROGRAM CHECK [COMMAND..]: runs a check of tools/checks on this program, through the command if any.
check_with() {
    local program=$1 check=$2
    shift 2
    printf '#!/bin/sh\n[ "%s" = units ] || exit 126\necho %q\n' "\$1" "$program" > "$folder/checks/tools/built.sh"
    "$@" "$folder/checks/tools/checks/$check" > "$folder/output" 2>&1 < /dev/null
    add_last_line
}

# Copies the checks; check_with makes tools/built.sh of the copy name the tested program.
copy_checks() {
    mkdir "$folder/checks"
    for file in "$root"/*; do ln -s "$file" "$folder/checks/"; done
    rm "$folder/checks/tools" "$folder/checks/tests"
    cp -r "$root/tools" "$root/tests" "$folder/checks"
}

check_parts() {
    if ! has gcc; then skip 'the tests of tools/release/static, which need gcc'; return; fi
    local wrap=-Wl,--wrap=mmap,--wrap=munmap,--wrap=mremap,--wrap=madvise
    local test=$root/tests/static parts=$root/tools/release/static
    gcc -g -O1 -fsanitize=address,undefined "$wrap" -o "$folder/heap" "$test/heap_test.c" "$parts/heap.c" \
        && expect 'the heap' "$folder/heap" "$RANDOM" 200000
    gcc -O2 -fno-builtin -fno-tree-loop-distribute-patterns -Dmemcpy=static_memcpy -Dmemmove=static_memmove \
        -Dmemset=static_memset -D__wrap_main=words_main -D__real_main=main -Drattle_env_at=static_env_at \
        -c "$parts/musl.c" -o "$folder/musl.o" \
        && gcc -O1 -o "$folder/copies" "$test/copies_test.c" "$folder/musl.o" && expect 'the copies' "$folder/copies" \
        && gcc -O1 -o "$folder/variables" "$test/variables_test.c" "$folder/musl.o" \
        && expect 'the variables' "$folder/variables" "$RANDOM"
}

# is_hardened: whether the program is position-independent and, while it runs, can write to its data alone, not to the
# tables that its start fills.
is_hardened() {
    local writable
    [ "$(od -An -tu2 -j16 -N2 "$static" | tr -d ' ')" = 3 ] || { echo 'not position-independent'; return 1; }
    coproc "$static" -q
    printf '1 ft\nin\n' >&"${COPROC[1]}"
    read -r _ <&"${COPROC[0]}"
    writable=$(grep -c "w.*$static" "/proc/$COPROC_PID/maps")
    echo "$writable writable parts of the file"
    [ "$writable" = 1 ]
}

# peak PROGRAM WORD..: prints the peak memory of a run over $folder/input, in KiB.
peak() { command time -q -f %M -o "$folder/peak" "$@" < "$folder/input" > /dev/null 2>&1 && cat "$folder/peak"; }

# takes_memory_as_dynamic WORD..: whether the program takes at most 1.25 times the memory of the dynamic one.
takes_memory_as_dynamic() {
    local ours theirs
    ours=$(peak "$static" "$@") && theirs=$(peak "$dynamic" "$@") || return
    echo "$ours KiB, and $theirs by the dynamic program"
    [ $((ours * 4)) -le $((theirs * 5)) ]
}

# Long blocks that are made and freed in turn, and edits of a deck.
check_memory() {
    if ! has time || ! [ -x "$dynamic" ]; then
        skip 'the memory of both programs, which needs GNU time and a dynamic program that bin/test built'
        return
    fi
    local deck=$folder/deck.units long_from
    { echo 'm !'; seq -f 'v_%ga 2 m' 2000; } > "$deck"
    echo 'w 2 m' > "$folder/line.units"
    long_from=ft$(printf '*1%.0s' {1..1600})
    seq 1000 > "$folder/input"
    expect 'the memory of a column with a list' takes_memory_as_dynamic --column 1 "$long_from" 'ft;in'
    seq -f ':set Y %g' 2000 > "$folder/input"
    expect 'the memory of settings' takes_memory_as_dynamic -q -f "$deck"
    yes ":load $folder/line.units" | head -n 500 > "$folder/input"
    expect 'the memory of loads' takes_memory_as_dynamic -q -f "$deck"
    yes $':locale en_GB\n:undo' | head -n 2000 > "$folder/input"
    expect 'the memory of locales' takes_memory_as_dynamic -q -f "$deck"
}

# refuse_mappings FILE TO: refuses each request for memory of a conversion with this file, alone and with all later
# ones of its kind. Each such run has to end with status 6 and to write nothing to standard output.
refuse_mappings() {
    local definitions=$1 to=$2 call count at later status
    strace -e trace=mmap,mremap,brk -o "$folder/requests" "$static" -f "$definitions" m "$to" > /dev/null 2>&1
    grep -q '^mmap' "$folder/requests" && ! grep -q '^brk' "$folder/requests" || return 1
    for call in mmap mremap; do
        count=$(grep -c "^$call" "$folder/requests")
        for ((at = 1; at <= count; at++)); do
            for later in '' +; do
                strace -e "trace=$call" -e "inject=$call:error=ENOMEM:when=$at$later" -o "$folder/calls" \
                    "$static" -f "$definitions" m "$to" > "$folder/out" 2> /dev/null
                status=$?
                if [ "$status" -ne 6 ] || [ -s "$folder/out" ]; then
                    echo "with $call $at$later of $count refused: status $status, and it wrote:"
                    cat "$folder/out"
                    return 1
                fi
            done
        done
    done
}

check_refusals() {
    if has strace; then
        expect 'a refused mapping, the built-in definitions' refuse_mappings "$root/share/units/built_in.units" ft
        expect 'a refused mapping, the library' refuse_mappings "$root/share/units/standard.units" ft
    else
        skip 'refused mappings, which need strace'
    fi
    if ! [ -e "$object" ]; then
        skip 'each allocation refused in turn: there is no object here; check_memory.sh tries the dynamic program'
    elif "$root/tools/release/static.sh" --refusing "$object" "$folder/refusing"; then
        check_with "$folder/refusing" check_memory.sh
    else
        skip 'each allocation refused in turn: the program cannot be linked here'
    fi
}

# fill_root: makes a root folder with another C library, a shell and the program.
fill_root() {
    local at=$folder/root
    mkdir -p "$at"/{bin,lib,dev,proc,tmp} "$at$root"
    cp /lib/ld-musl-x86_64.so.1 "$at/lib/"
    cp /bin/busybox "$static" "$at/bin/"
    mv "$at/bin/${static##*/}" "$at/bin/units"
    gcc -O1 -static -DROOT="\"$at\"" -o "$folder/in_root" "$root/tests/static/other_root.c"
}

# in_other_root COMMAND..: runs it with the folders of the tests mounted in the root folder.
in_other_root() {
    local as_root=()
    if [ "$(id -u)" != 0 ]; then as_root=(--map-root-user); fi
    # shellcheck disable=SC2016 # expanded by the inner shell
    unshare "${as_root[@]}" --mount bash -c '
        at=$1
        shift
        for one in /dev /proc /tmp "$1"; do mount --rbind "$one" "$at$one" || exit 125; done
        shift
        OTHER_ROOT=$at "$@"' bash "$folder/root" "$root" "$@"
}

# Whether the root folder can be made and programs can run in it; if not, says why.
has_other_root() {
    if ! [ -e /lib/ld-musl-x86_64.so.1 ] || ! [ -x /bin/busybox ] || ! has gcc || ! fill_root; then
        skip 'a root folder with another C library, which needs musl, busybox-static and gcc'
    elif ! in_other_root true 2> /dev/null; then
        skip 'a root folder with another C library, which needs unshare and mount'
    else
        return 0
    fi
    return 1
}

# Whether the C library of the root folder is musl and no other is there.
is_of_musl() {
    in_other_root chroot "$folder/root" /lib/ld-musl-x86_64.so.1 2>&1 | grep -q '^musl libc' \
        && [ -z "$(find "$folder/root/lib" -name 'libc.so*' -o -name 'ld-linux*')" ]
}

# A script of that root runs the program.
runs_in_script() {
    # shellcheck disable=SC2016 # expanded by the inner shell
    in_other_root chroot "$folder/root" /bin/busybox sh -c \
        '[ "$(/bin/units --exact "10 m" cm | /bin/busybox head -n 1)" = "	* 1000" ]'
}

check_runs() {
    if has_other_root; then
        expect 'musl in the root folder' is_of_musl
        expect 'a script in the root folder' runs_in_script
        check_with "$folder/in_root" transcripts.py in_other_root
        check_with "$folder/in_root" check_statuses.sh in_other_root
    else
        check_with "$static" transcripts.py
        check_with "$static" check_statuses.sh
    fi
}

# is_released FILE WORD: whether it is the file of this release whose checksum is after the word in MADE_FROM.
is_released() {
    [ -x "$1" ] && [ "$(sha256sum < "$1" | cut -d ' ' -f 1)" = "$(sed -n "s/^$2 //p" "$root/release/MADE_FROM")" ]
}

check_why() {
    local why=$root/release/units-why-x86_64-linux-static
    if ! is_released "$why" why; then skip 'units-why: there is no static one of this release'; return; fi
    printf '#!/bin/sh\ncase %s in units) echo %q ;; units_why) echo %q ;; *) exit 126 ;; esac\n' "\$1" "$static" "$why" \
        > "$folder/checks/tools/built.sh"
    "$folder/checks/tools/checks/transcripts.py" "$folder"/checks/tests/{why,lint}.t > "$folder/output" 2>&1 < /dev/null
    add_last_line
}

if [ $# -gt 0 ]; then
    static=$(readlink -f "$1") object=$(readlink -f "${2-/nonexistent}")
elif ! is_released "$static" static; then
    skip 'there is no static program of this release: run tools/release/release.sh after bin/test'
    end
fi
folder=$(mktemp -d) || exit
trap 'rm -rf "$folder"' EXIT
copy_checks
check_parts
expect 'the hardening' is_hardened
check_memory
check_refusals
check_runs
if [ $# = 0 ]; then check_why; fi
end
