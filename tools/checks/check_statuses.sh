#!/usr/bin/env bash
# Checks the status and the output on each stream of the built program for each ending that words, files and sinks can
# cause. tools/checks/check_memory.sh checks runs that are out of memory. The last line is `N passed, M failed`, or
# `N passed, M failed, K skipped`.
set -u
script=$(readlink -f "${BASH_SOURCE[0]}") || exit
root=${script%/*/*/*}
if ! program=$("$root/tools/built.sh" units); then
    echo "0 passed, 1 failed"
    exit 1
fi

folder=$(mktemp -d)
trap 'rm -rf "$folder"' EXIT
cd "$folder" || exit 1
cp "$root/examples/first.units" first.units
truncate --size 16777217 long.units
yes 'm !' | head -n 100001 > full.units
printf 'm !\n!endvar\n' > notices.units
printf 'm !\n!include .\n' > includes.units
passed=0 failed=0 skipped=0

units() { "$program" "$@"; }

# expect STATUS OUT ERR COMMAND: a shell command ends with this status and writes these outputs.
expect() {
    local status=$1 out=$2 err=$3 got
    (eval "$4") > out.txt 2> err.txt < /dev/null
    got=$?
    if [ "$got" = "$status" ] && [ "$(cat out.txt; echo x)" = "$out"x ] && [ "$(cat err.txt; echo x)" = "$err"x ]; then
        passed=$((passed + 1))
    else
        failed=$((failed + 1))
        echo "check_statuses: $4 ended with $got instead of $status, and wrote:"
        cat out.txt err.txt
    fi
}

# expect_with_proc: like expect, for a case that needs /proc: a name of a stream, or a save over an existing file.
expect_with_proc() {
    if [ -e /proc/self/mem ]; then
        expect "$@"
    else
        echo "check_statuses: skipped without /proc: $4"
        skipped=$((skipped + 1))
    fi
}

# hear TEXT: the session writes this next.
hear() {
    local heard
    if [ -z "$1" ]; then return; fi
    IFS= read -r -t 5 -N ${#1} heard <&"${COPROC[0]}" && [ "$heard" = "$1" ]
}

# talk [-q] TEXT LINE ..: holds a session over a pipe, which gets each line after it has written the text before it.
talk() {
    local options=(-1 -f first.units) pid
    if [ "$1" = -q ]; then options+=("$1"); shift; fi
    coproc units "${options[@]}"
    pid=$COPROC_PID
    while [ $# != 0 ]; do
        hear "$1" || return 99
        printf '%s\n' "$2" >&"${COPROC[1]}"
        shift 2
    done
    wait "$pid"
}

# cut_off: a session whose standard output is closed after its first answer, while more lines follow.
cut_off() {
    local pid answers
    coproc units -q -f first.units
    pid=$COPROC_PID answers=${COPROC[0]}
    printf '2 yd\nin\n' >&"${COPROC[1]}"
    hear $'\t* 72\n\t/ 0.013888889\n' || return 99
    exec {answers}<&-
    # It may end before it gets the last line.
    trap '' PIPE
    printf '2 yd\nin\nm\n' 1>&"${COPROC[1]}" 2> /dev/null
    wait "$pid"
}

usage=$'units: usage: units [options] [FROM [TO]]\n'
yard='units --exact -f first.units yd m'
expect 0 $'\t* 1143|1250\n\t/ 1250|1143\n' '' "$yard"
expect 0 $'\t* 1143|1250\n\t/ 1250|1143\n' '' 'units --exact yd m'
expect 0 $'\tDefinition: 1 m\n' $'notices.units:2: stray end\n' 'units -f notices.units m'
expect 0 '' '' 'units --check'
expect 1 $'unknown unit: kg\n' '' 'units -f first.units yd kg'
expect 1 $'notices.units:2: stray end\n' '' 'units --check -f notices.units'
expect 2 '' "$usage" 'units -d 0 m ft'
expect 2 '' "$usage" $'units --exact -f \xff yd m'
expect 3 '' $'units: no file: gone.units\n' 'units --exact -f gone.units yd m'
expect 3 '' $'units: file too long: long.units\n' 'units --exact -f long.units yd m'
expect 3 '' $'units: deck full: full.units\n' 'units --exact -f full.units yd m'
expect 4 '' '' 'units --exact -f . yd m'
expect 4 '' '' 'units --exact -f first.units/m yd m'
expect 4 '' '' 'units --exact -f includes.units yd m'
expect 0 $'definitions 4, edits 3, reply bytes 43, settled 3 of 4, reductions 4\n' '' 'units --trial 3'

# Sessions: input that ends at each prompt, a file that fails in the middle, and lines that arrive one by one.
banner=$'4 units, 0 prefixes, 0 nonlinear units\n'
expect 0 "${banner}You have: " '' 'units -f first.units'
expect 0 "${banner}You have: You want: " '' "printf '2 yd' | units -f first.units"
expect 0 "${banner}You have: You want: "$'\t* 72\n\t/ 0.013888889\n'"You have: " '' "printf '2 yd\\nin' | units -f first.units"
expect 0 $'\t* 72\n\t/ 0.013888889\n' '' "printf '2 yd\\nin\\nquit\\nm\\n' | units -q -f first.units"
expect 4 $'\t* 72\n\t/ 0.013888889\n' '' "{ printf '2 yd\\nin\\n'; sleep 0.2; printf ':load .\\nm\\n'; } | units -q -f first.units"
expect 5 '' '' "printf '2 yd\\nin\\n' | units -q -f first.units >&-"
expect 5 '' '' cut_off
have='You have: ' want='You want: '
expect 0 '' '' "talk -q '' '2 yd' '' in \$'\t* 72\n' '2 yd' '' : \$'unknown command: :\n' ft \$'\t* 6\n' quit"
expect 0 '' '' "talk '$banner$have' '2 yd' '$want' in \$'\t* 72\n$have' :stats \$'settled 4 of 4, reductions 4\n$have' \
    'yd # to' '$want' ':define ft 6 in' '$want' '?' \$'\tft\t6 in\n\tin\t254|10000 m\n\tm\t!\n\tyd\t3|1 ft\n$want' '' \
    \$'\tDefinition: 3|1 ft = 0.4572 m\n$have' nosuch \$'unknown unit: nosuch\n$have' exit"

# The longest input that a session takes, and one byte more; then the last line, which has not ended, has no answer.
expect 0 $'line too long\n\t* 12\n\t/ 0.083333333\n' '' \
    "{ head -c 4294967288 /dev/zero; printf '\\n1 ft\\nin'; } | units -q"
expect 7 $'line too long\n' '' "{ head -c 4294967289 /dev/zero; printf '\\n1 ft\\nin'; } | units -q"

# Root may read every file, so a file whose read fails takes the place of an unreadable one.
cp first.units locked.units
chmod 000 locked.units
if [ -r locked.units ]; then locked=/proc/self/mem; else locked=locked.units; fi
expect_with_proc 4 '' '' "units --exact -f $locked yd m"
expect_with_proc 4 $'\t* 72\n\t/ 0.013888889\n' '' \
    "{ printf '2 yd\\nin\\n'; sleep 0.2; printf ':load $locked\\nm\\n\\n'; } | units -q -f first.units"
expect 4 '' '' "units -q -f first.units < ."

# Saves that fail: to a folder, into a missing folder, into one that takes no files, and to a device.
for name in . gone/s.units /proc/s.units /dev/full; do
    if [ "${name#/proc}" = "$name" ]; then try=expect; else try=expect_with_proc; fi
    $try 5 $'\t* 72\n\t/ 0.013888889\n' '' "printf '2 yd\\nin\\n:save $name\\nm\\n\\n' | units -q -f first.units"
done

# Names of files that do not exist, and of a folder and a name below a file, which cannot be read.
mkdir files files/inner
printf 'm !' > files/plain
for name in '' files/none files/none/none; do
    expect 3 '' "units: no file: $name"$'\n' "units -f '$name' m m"
done
for name in files files/plain/none; do expect 4 '' '' "units -f $name m m"; done

# A failed save leaves nothing.
for name in files/inner files/inner/ files/none/new files/plain/new $'files/new\xff' files/; do
    expect 5 $'files\nfiles/inner\nfiles/plain\nm !' '' "printf ':save $name\\n' | units -q -f files/plain
        status=\$?; find files | LC_ALL=C sort; cat files/plain; exit \$status"
done

# A new file is saved, and saved again under another name. A file that another run left there stays.
printf 'left by another run' > files/.units-save-0
expect_with_proc 0 $'m !\ng 3 m\nh 4 m\n.units-save-0\ninner\nnew\nplain\nleft by another run' '' \
    "printf ':define g 3 m\\n:save files/new\\n:define h 4 m\\n:save ./files/new\\n' | units -q -f files/plain \
    && cat files/new && LC_ALL=C ls -A files && cat files/.units-save-0"

# A save through links writes the file that they lead to, and keeps the links.
printf 'm !\n' > kept.units
ln -s kept.units near.units
ln -s near.units nearer.units
expect_with_proc 0 $'m !\ng 3 m\n' '' "printf ':define g 3 m\\n:save nearer.units\\n' | units -q -f kept.units \
    && [ -L nearer.units ] && [ -L near.units ] && cat kept.units"

# A save through links that lead to no file creates that file, and keeps the links. In a folder that does not exist, or
# through a ring of links, it fails and changes nothing.
mkdir far
ln -s far/hop.units dangling.units
ln -s new.units far/hop.units
expect_with_proc 0 $'m !\ng 3 m\n' '' "echo ':save dangling.units' | units -q -f kept.units \
    && [ -L dangling.units ] && [ -L far/hop.units ] && cat far/new.units"
ln -s gone/new.units far/lost.units
ln -s ring.units ring.units
for name in far/lost.units ring.units; do
    expect_with_proc 5 $'far/hop.units\nfar/lost.units\nfar/new.units\n' '' "echo ':save $name' | units -q -f kept.units
        status=\$?; [ -L $name ] && LC_ALL=C ls -d far/*; exit \$status"
done

# A save over a file creates the new one for its owner alone, so that nobody else can open it before it has the
# permissions of the old one.
if command -v strace > /dev/null; then
    chmod 600 kept.units
    expect_with_proc 0 $'0600\n600\n' '' "echo ':save kept.units' | strace -qq -o calls -e trace=open,openat \"\$program\" -q -f kept.units \
        && sed -n 's/.*units-save.*, \\(0[0-7]*\\)).*/\\1/p' calls && stat -c %a kept.units"
else
    echo 'check_statuses: skipped without strace: 1 case'
    skipped=$((skipped + 1))
fi

# A save keeps the permissions of the file, but not the set-user-ID and set-group-ID bits.
chmod 6750 kept.units
expect_with_proc 0 $'750\n' '' "echo ':save kept.units' | units -q -f kept.units && stat -c %a kept.units"

# A save to a stream of the run is refused under each of its names, and its contents are not lost.
ln -s /dev/stdout stream
for name in out.txt ./err.txt /proc/self/fd/1 //dev/stdout stream; do
    expect_with_proc 5 $'\t* 72\n\t/ 0.013888889\n' '' "printf '2 yd\\nin\\n:save $name\\nm\\n' | units -q -f first.units"
done

# A closed stream is not a file.
expect_with_proc 0 '' '' "echo ':save kept.units' | units -q -f kept.units >&-"

# Without /proc, any file may be a stream of the run, so only a new file can be saved. If check_static.sh runs the
# program in another root folder, OTHER_ROOT is that folder, and its /proc is unmounted too.
if unshare -m umount -l /proc 2> /dev/null; then
    alone="unshare -m sh -c 'umount -l ${OTHER_ROOT:+$OTHER_ROOT/proc} /proc; exec \"\$0\" -q -f kept.units' \"$program\""
    expect 5 '' '' "echo ':save kept.units' | $alone"
    expect 0 $'m !\ng 3 m\n' '' "echo ':save fresh.units' | $alone && cat fresh.units"
else
    echo 'check_statuses: skipped without the right to unmount /proc: 2 cases'
    skipped=$((skipped + 2))
fi

# Definitions that arrive through a pipe in several blocks.
expect_with_proc 0 $'\t* 3\n\t/ 0.33333333\n' '' \
    "{ echo 'm !'; seq -f 'u_%.0f 2 m' 30000; echo 'last 3 m'; } | units -f /dev/stdin last m"

# Sinks that are closed, and one that is full.
expect 5 '' '' "$yard >&-"
expect 5 '' '' 'units -d 0 2>&-'
expect 5 '' '' "$yard > /dev/full"
expect 5 '' '' 'units -d 0 2> /dev/full'

if [ "$skipped" = 0 ]; then
    echo "$passed passed, $failed failed"
else
    echo "$passed passed, $failed failed, $skipped skipped"
fi
[ "$failed" = 0 ]
