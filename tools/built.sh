#!/usr/bin/env bash
# Prints the path of a proved program of the present sources: the one that was built here, or else, for `units` and
# `units_why`, the released static one. If there is neither, it prints one line on standard error that names the command
# to build one. It never builds anything.
#   tools/built.sh NAME            for checks, which preload code into a program that was built here
#   tools/built.sh --static NAME   for users: the released program, which starts faster, if it is of the present sources.
#                                  bin/units and bin/units-why run this program
# Statuses: 126 if the program has to be built, 127 if the toolchain for that is not installed either.
set -u
script=$(readlink -f "${BASH_SOURCE[0]}") || exit
root=${script%/*/*}
. "$root/tools/sources.sh" || exit
for_users=no
if [ "$1" = --static ]; then for_users=yes && shift; fi
name=$1
out=$root/crates/$name/out
released=release/${name//_/-}-x86_64-linux-static
# One second before the first read, so that every later change has a later time.
since=$(($(date +%s) - 1))

has_release() { [ -x "$root/$released" ] && "$root/tools/release/release.sh" --check "$name" > /dev/null; }

# find_program: prints the program, relative to the top of the repository.
find_program() {
    if [ "$for_users" = yes ] && has_release; then
        echo "$released"
    elif is_built "$name"; then
        echo "crates/$name/out/$name"
    elif [ "$for_users" = no ] && has_release; then
        echo "$released"
    else
        return 1
    fi
}

# record PROGRAM: lets the command run this program at once, as long as its code and its statements do not change. Proofs
# are left out: they are two thirds of the files, and affect neither the program nor the statements proved of it. Only the
# status of a file shows that it was edited, so each is looked at; a list of them costs find half as many system calls as
# their folders. If there is no record, the command calls this script each time.
record() {
    local LC_ALL=C folder folders list sources=(crates.txt)
    if [ -d "$root/release" ]; then sources+=(release); fi
    mapfile -t folders <<< "$(folders_of "$name")"
    for folder in "${folders[@]}"; do
        if [[ $folder != */proofs ]]; then sources+=("$folder"); fi
    done
    list=$(cd "$root" && find "${sources[@]}" ! -path "$1") || return 0
    # A shell would read other characters in a name as more than the name.
    if [[ $list = *[!a-zA-Z0-9_./$'\n'-]* ]] || ! mkdir -p "$out" 2> /dev/null; then return 0; fi
    {
        printf 'export LC_ALL=C\nexec find %s %s -prune ' "${list//$'\n'/ }" "$1"
        printf '\\( -newerct @%s -quit -o -path %s -print \\)\n' "$since" "$1"
    } 2> /dev/null > "$out/current.$$" && mv "$out/current.$$" "$out/current.sh"
}

if program=$(find_program); then
    if [ "$for_users" = yes ]; then record "$program"; fi
    echo "$root/$program"
    exit
fi
why='no program is built from these sources'
if [ -e "$root/$released" ]; then why='the released program is not of these sources'; fi
build=tools/build.sh
if [ "$name" != units ]; then build+=" $name"; fi
if command -v rt > /dev/null; then
    echo "$name: $why; $build proves and builds one (an hour or more from nothing)" >&2
    exit 126
fi
echo "$name: $why, and $build needs the toolchain: no command rt (see CONTRIBUTING.md)" >&2
exit 127
