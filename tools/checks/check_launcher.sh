#!/usr/bin/env bash
# Tries bin/units, tools/build.sh and the comparison of a release in scratch copies of the repository: which program
# runs, which message a user gets if there is none, and what is not compared. The last line is
# `N passed, M failed, K skipped`.
set -u
script=$(readlink -f "${BASH_SOURCE[0]}") || exit
root=${script%/*/*/*}
if ! program=$("$root/tools/built.sh" units); then
    echo '0 passed, 1 failed, 0 skipped'
    exit 1
fi
folder=$(mktemp -d)
trap 'chmod -R u+w "$folder"; rm -rf "$folder"' EXIT
chmod 755 "$folder"
cd "$folder" || exit 1
passed=0 failed=0 skipped=0

# A path without rt.
mkdir path
for tool in awk bash cat cmp cp cut date find grep head mkdir mktemp mv readlink rm sed sh sha256sum sleep sort tail touch xargs; do
    ln -s "$(command -v $tool)" path/
done

# Two copies of the files that bin/units needs, the second with a release.
mkdir -p one/crates
cp -r "$root"/{bin,tools,lib,examples,crates.txt,CHANGELOG.md} one/
(cd "$root/crates" && tar --exclude=out -cf - ./*/src ./*/specs ./*/proofs) | tar -xf - -C one/crates
cp -r one two
mkdir two/release
sum=$(sha256sum < "$program" | cut -d ' ' -f 1)
two/tools/release/release.sh --files > files
while read -r part file; do cp "$program" "two/release/$file" && echo "$part $sum"; done < files > two/release/MADE_FROM
for crate in units units_why units_c; do echo "sources-$crate $(two/tools/release/release.sh --sources $crate)"; done \
    >> two/release/MADE_FROM
echo 'with-zlib another' >> two/release/MADE_FROM

yard='--exact -f two/examples/first.units yd m'
answer=$'\t* 1143|1250\n\t/ 1250|1143\n'

# expect NAME STATUS OUT ERR COMMAND: a shell command ends with this status and writes this output, and its standard
# error matches this pattern.
expect() {
    local name=$1 status=$2 out=$3 err=$4 got
    # shellcheck disable=SC2123 # this very path
    (PATH=$folder/path; eval "$5") > out.txt 2> err.txt < /dev/null
    got=$?
    # shellcheck disable=SC2053 # a pattern
    if [ "$got" = "$status" ] && [ "$(cat out.txt; echo x)" = "$out"x ] && [[ $(cat err.txt) == $err ]]; then
        passed=$((passed + 1))
    else
        failed=$((failed + 1))
        echo "check_launcher: $name: status $got instead of $status, and it wrote:"
        cat out.txt err.txt
    fi
}

# fake_rt LINE..: writes a toolchain of these shell commands, in which $1 is the subcommand of rt.
fake_rt() {
    mkdir -p rt
    printf '%s\n' '#!/bin/sh' "$@" > rt/rt
    chmod +x rt/rt
}

expect 'the release, at first' 0 "$answer" '' "two/bin/units $yard"
# The choice of the program is stored once the sources are some seconds old; then bin/units needs no other script.
sleep 2.1
expect 'the release, again' 0 "$answer" '' "two/bin/units $yard"
mv two/tools/built.sh two/tools/away.sh
expect 'the release, at once' 0 "$answer" '' "two/bin/units $yard"
mv two/tools/away.sh two/tools/built.sh
expect 'the program for users' 0 $'release/units-x86_64-linux-static\n' '' 'cd two && sh crates/units/out/current.sh'
expect 'the program that shows sources' 0 "$answer" '' "two/bin/units-why $yard"
expect '.. is found at once' 0 $'release/units-why-x86_64-linux-static\n' '' \
    "two/bin/units-why $yard > /dev/null; cd two && sh crates/units_why/out/current.sh"
record=crates/units/out/current.sh
expect 'from another folder' 0 "$answer" '' 'cd two/examples && ../bin/units --exact -f first.units yd m'
ln -s two/bin/units link
expect 'by a link' 0 "$answer" '' "./link $yard"
expect 'words as they are' 3 '' 'units: no file: a  \* b' 'two/bin/units -f "a  * b" m m'
# After each change of a source or of the program, the record names no program.
source=two/crates/units_run/src/run.rt
for change in "sed -n p $source > copy && touch -r $source copy && cp -p copy $source" "touch $source.new && rm $source.new" \
    "mv $source $source.old && mv $source.old $source" 'touch two/crates/units_run/specs/Work.antt' 'touch two/crates.txt' \
    'touch two/release/units-x86_64-linux-static' 'mv two/release/MADE_FROM copy && mv copy two/release/MADE_FROM'; do
    expect "before: $change" 0 "$answer" '' "two/bin/units $yard"
    # The time after all changes until now, so that the record holds at once.
    sed -i "s/@[0-9]*/@$(date +%s.%N)/" two/$record
    sleep 0.1
    expect "a record before: $change" 0 $'release/units-x86_64-linux-static\n' '' "cd two && sh $record"
    expect "no record after: $change" 0 '' '' "$change && cd two && sh $record"
done
# A damaged record is written anew.
for text in '' '((' 'echo release' 'exit 3'; do
    echo "$text" > two/$record
    expect "a record of: $text" 0 "$answer" '' "two/bin/units $yard && grep -q '^exec find crates.txt' two/$record"
done
if command -v strace > /dev/null; then
    sed -i "s/@[0-9]*/@$(date +%s.%N)/" two/$record
    strace -f -o calls two/bin/units m > /dev/null
    expect 'a system call for each source, and 250 others' 0 '' '' \
        "[ $(wc -l < calls) -lt $(($(tr ' ' '\n' < two/$record | grep -c '^crates\|^release') + 250)) ]"
else
    echo 'check_launcher: skipped: the number of system calls, since there is no strace'
    skipped=1
fi
# A name that the shell would read as several is not recorded.
cp -r two blank
rm blank/$record
touch 'blank/crates/units_run/src/two words'
grep -v '^sources-units ' two/release/MADE_FROM > blank/release/MADE_FROM
echo "sources-units $(blank/tools/release/release.sh --sources units)" >> blank/release/MADE_FROM
expect 'a source with a blank in its name' 0 "$answer" '' "blank/bin/units $yard && ! [ -e blank/$record ]"
rm -r blank
cp -r two three
expect 'a copy with new times' 0 "$answer" '' "three/bin/units $yard"
chmod -R a-w three
as_other=
if [ "$(id -u)" = 0 ]; then as_other="$(command -v setpriv) --reuid=65534 --regid=65534 --clear-groups"; fi
# hide_proc: a command that runs a shell command in a system without /proc, and so without /dev/fd.
hide_proc="$(command -v unshare) -m $(command -v sh) -c"
if [ "$(id -u)" != 0 ]; then hide_proc="${hide_proc/ -m / -rm }"; fi
if $hide_proc "$(command -v mount) -t tmpfs none /proc && ! [ -e /dev/fd/0 ]" 2> /dev/null < /dev/null; then
    rm two/$record
    expect 'without /proc' 0 "$answer" '' "$hide_proc '$(command -v mount) -t tmpfs none /proc; two/bin/units $yard'"
else
    echo 'check_launcher: skipped: a system without /proc, since unshare may not make one'
    skipped=$((skipped + 1))
fi
rm -rf three/crates/units/out
expect 'a release that nobody may write beside' 0 "$answer" '' "$as_other three/bin/units $yard"

expect 'the C library of the present sources' 0 $'release: the files are whole and of the present sources\n' '' \
    'two/tools/release/release.sh --check units_c'
for file in units.h units.c; do
    expect "a C library of another $file" 1 $'release: the release is of other sources of units_c\n' '' \
        "cp two/lib/$file kept; echo >> two/lib/$file; two/tools/release/release.sh --check units_c; s=\$?
         cp kept two/lib/$file; (exit \$s)"
done

# compare: prints the status of a comparison, the names of what is not compared, and its last line.
compare() {
    two/tools/release/release.sh --compare > log 2> /dev/null
    echo $?
    sed -n 's/ is not compared:.*//p; $p' log
}
all_skipped=$(cut -d ' ' -f 2- files | sed 's/^/release: /'; echo 'release: the page')
none_compared=$'0\n'"$all_skipped"$'\n0 passed, 0 failed, 6 skipped\n'
expect 'a release without what is proved' 0 "$none_compared" '' compare
mkdir -p two/crates/units/out && : > two/crates/units/out/units.o
echo 'toolchain another' >> two/release/MADE_FROM
expect 'a release of another kit' 0 "$none_compared" '' compare
echo '// an edit' >> two/crates/units_run/src/run.rt
expect 'a release of other sources' 0 "$none_compared" '' compare

one_line='units: *tools/build.sh*'
expect 'other sources and no toolchain' 127 '' "$one_line needs the toolchain*CONTRIBUTING.md*" "two/bin/units $yard"
fake_rt 'echo started >> '"$folder"'/started'
expect 'other sources: no build starts' 126 '' "$one_line*an hour or more*" "PATH=\$PATH:$folder/rt two/bin/units $yard"
printf '  $ units yd m\n' > case.t
transcripts="$(python3 -c 'import sys; print(sys.executable)') -B two/tools/checks/transcripts.py case.t"
expect 'transcripts without a program fail' 0 $'0 passed, 1 failed, 1 skipped\n' '' "$transcripts | tail -n 1"
expect 'rt was not called' 1 '' '' '[ -e started ]'
expect 'one line on standard error' 0 $'1\n' '' "{ PATH=\$PATH:$folder/rt two/bin/units $yard || :; } 2>&1 | sed -n '\$='"
sed -i '$d' two/crates/units_run/src/run.rt
expect 'the sources as before' 0 "$answer" '' "two/bin/units $yard"
echo 'more' >> two/release/units-x86_64-linux-static
expect 'a release that was changed' 127 '' "$one_line" "two/bin/units $yard"
expect '.. is not skipped' 0 $'1\n'"$(sed 1d <<< "$all_skipped")"$'\n0 passed, 1 failed, 5 skipped\n' '' compare
rm -r two/release
expect 'no release' 126 '' 'units: no program is built from these sources; tools/build.sh*' "PATH=\$PATH:$folder/rt two/bin/units $yard"

expect 'a build without a toolchain' 127 '' '*no command rt*' 'one/tools/build.sh'
expect 'a build of no program' 2 '' '*no such program*' 'one/tools/build.sh frac128'
fake_rt 'exit 1'
expect 'a proof that fails' 126 '' '*general_lemmas was not proved*build.log*' "PATH=\$PATH:$folder/rt one/tools/build.sh"
fake_rt "if [ \$1 = run ]; then cp $program out/units; : > out/units.stamp; fi"
expect 'a build' 0 '' '*general_lemmas is proved (1 of *units is proved*' "PATH=\$PATH:$folder/rt one/tools/build.sh"
expect 'the built program' 0 "$answer" '' "one/bin/units $yard"
expect 'a build of what is built' 0 '' '*already built*' "PATH=\$PATH:$folder/rt one/tools/build.sh"
echo '// an edit' >> one/crates/units_run/src/run.rt
expect 'a built program that is older than its sources' 127 '' "$one_line" "one/bin/units $yard"
chmod -R a-w one
expect 'a build that cannot be written' 126 '' '*cannot be written*' "PATH=\$PATH:$folder/rt $as_other one/tools/build.sh"
chmod -R u+w one
fake_rt "if [ \$1 = run ]; then echo half > out/units; kill -INT -- -\$(cut -d ' ' -f 5 /proc/\$PPID/stat); sleep 5; fi"
# shellcheck disable=SC2086,SC2123
(PATH=$folder/path:$folder/rt; set -m; one/tools/build.sh) > /dev/null 2>&1 < /dev/null
expect 'an interrupted build' 0 '' '' "cmp $program one/crates/units/out/units"

echo "$passed passed, $failed failed, $skipped skipped"
[ "$failed" = 0 ]
