#!/usr/bin/env bash
# Makes and checks the files of release/, for Linux on x86-64. The programs need no library of the system, and the C
# library and the Python package need glibc 2.14:
#   units-x86_64-linux-static, units-why-x86_64-linux-static   by tools/release/static.sh
#   libunits.so.1, libunits.a                                  by tools/c_library.sh
#   exact_units-VERSION-TAG.whl                                by tools/release/wheel.py, with libunits.so.1 in it
#   units.html                                                 by tools/web.sh
# release/MADE_FROM has the version, the toolchain, the checksums of each file, of the sources and of the program `units`
# that `rt ci` proved, and the versions of the system's packages that the files were made with.
#   tools/release/release.sh                    makes all of them from what `rt ci` proved and built, twice, and compares
#   tools/release/release.sh --check [CRATE]    succeeds if the files that are made of this crate, or all, are unchanged
#                                               and of the present sources; it builds nothing
#   tools/release/release.sh --compare          after `rt ci`: makes each file again and compares it byte for byte. What
#                                               cannot be made again is named and counted as skipped: two kits may compile
#                                               the same sources differently, and two systems have different packages
#   tools/release/release.sh --files            prints the word of each file in MADE_FROM, and its name
#   tools/release/release.sh --sources CRATE    prints the checksum of the present sources
set -u
script=$(readlink -f "${BASH_SOURCE[0]}") || exit
root=${script%/*/*/*}
. "$root/tools/sources.sh" || exit
release=$root/release
made_from=$release/MADE_FROM

# version: prints the newest version number of CHANGELOG.md.
version() { sed -n 's/^## \[\{0,1\}\([0-9][0-9.]*\).*/\1/p' "$root/CHANGELOG.md" | head -n 1; }

# The files that are made here, by their words in MADE_FROM, and the crates that they are made of.
parts=(static why shared archive wheel)
declare -A file_of=(
    [static]=units-x86_64-linux-static
    [why]=units-why-x86_64-linux-static
    [shared]=libunits.so.1
    [archive]=libunits.a
    [wheel]=exact_units-$(version)-py3-none-manylinux_2_14_x86_64.manylinux2014_x86_64.whl
)
declare -A crate_of=([static]=units [why]=units_why [shared]=units_c [archive]=units_c [wheel]=units_c)
# The packages of the system that they are made with.
declare -A package_of=([static]=musl [why]=musl [shared]=binutils [archive]=binutils [wheel]=zlib)

# sum_of_crate CRATE: prints the checksum of the sources of the files that are made of it. The C library has calls in C.
sum_of_crate() {
    if [ "$1" != units_c ]; then
        sum_of_sources "$1"
        return
    fi
    { sum_of_sources "$1" && cat "$root/lib/units.c" "$root/lib/units.h"; } | sha256sum | cut -d ' ' -f 1
}

sum_of() { sha256sum "$1" | cut -d ' ' -f 1; }

# field WORD: prints the text after this word in MADE_FROM.
field() { sed -n "s/^$1 //p" "$made_from" 2> /dev/null; }

# version_of PACKAGE: prints the version or the checksum of what is used of it.
version_of() {
    case $1 in
        musl) "$root/tools/release/static.sh" --parts ;;
        binutils) "$root/tools/c_library.sh" --parts ;;
        zlib) python3 -c 'import zlib; print(zlib.ZLIB_RUNTIME_VERSION)' ;;
    esac 2> /dev/null
}

# is_whole PART: whether the file has the checksum in MADE_FROM.
is_whole() { [ -r "$release/${file_of[$1]}" ] && [ "$(sum_of "$release/${file_of[$1]}")" = "$(field "$1")" ]; }

# is_proved CRATE: whether its out/ has the results of `rt ci`: the program from two compilers, and its output.
is_proved() {
    local out=$root/crates/$1/out
    [ -x "$out/$1" ] && [ -x "$out/$1.by-rattle" ] && cmp -s "$out/stdout" "$root/crates/$1/stdout" \
        && ! [ "$out/$1" -nt "$out/stdout" ] && ! is_outdated "$out/$1" "$1"
}

# make_part PART FOLDER: makes a file; the wheel has the shared library in the folder, or else that of the release.
make_part() {
    local crate=${crate_of[$1]} to=$2/${file_of[$1]} library=$2/${file_of[shared]}
    case $1 in
        static | why) "$root/tools/release/static.sh" "$root/crates/$crate/out/$crate.o" "$to" ;;
        shared | archive)
            "$root/tools/c_library.sh" "$2/c" && install -m 644 "$2/c/lib/${file_of[$1]}" "$to" && rm -r "$2/c" ;;
        wheel)
            if ! [ -e "$library" ]; then library=$release/${file_of[shared]}; fi
            "$root/tools/release/wheel.py" "$2" --library "$library" > /dev/null ;;
    esac
}

make_all() {
    local part
    mkdir "$1"
    for part in "${parts[@]}"; do make_part "$part" "$1" || return; done
}

print_made_from() {
    local part crate package
    echo "version $(version)"
    echo "toolchain $toolchain"
    echo "program $(sum_of "$root/crates/units/out/units")"
    for crate in units units_why units_c; do echo "sources-$crate $(sum_of_crate "$crate")"; done
    for part in "${parts[@]}"; do echo "$part $(sum_of "$release/${file_of[$part]}")"; done
    for package in musl binutils zlib; do echo "with-$package $(version_of "$package")"; done
}

make() {
    local crate toolchain
    toolchain=$(rt version) || exit
    if grep -q '^## \[\{0,1\}Unreleased' "$root/CHANGELOG.md"; then
        echo 'release: give the "Unreleased" part of CHANGELOG.md a version and a date first' >&2
        exit 1
    fi
    for crate in units units_why; do
        if ! is_proved "$crate"; then
            echo "release: crates/$crate/out/ does not have the results of rt ci for these sources: run bin/test first" >&2
            exit 1
        elif ! [ -e "$root/crates/$crate/out/$crate.o" ]; then
            echo "release: rt kept the program of an earlier run without its object, crates/$crate/out/$crate.o" >&2
            exit 1
        fi
    done
    make_all "$work/once" && make_all "$work/again" && diff -r "$work/once" "$work/again" || exit
    mkdir -p "$release" && rm -f "$release"/*.whl && cp -p "$work/once"/* "$release" || exit
    print_made_from > "$made_from"
    "$root/tools/web.sh" || exit
    cat "$made_from"
}

# check [CRATE]
check() {
    local part crate
    for part in "${parts[@]}"; do
        crate=${crate_of[$part]}
        if [ "$crate" != "${1:-$crate}" ]; then continue; fi
        if ! is_whole "$part"; then
            echo "release: ${file_of[$part]} is not the one that release/MADE_FROM names"
            exit 1
        fi
    done
    for crate in ${1:-units units_why units_c}; do
        if [ "$(sum_of_crate "$crate")" != "$(field "sources-$crate")" ]; then
            echo "release: the release is of other sources of $crate"
            exit 1
        fi
    done
    echo "release: the files are whole and of the present sources"
}

# same WHAT, different WHAT WHY, skip WHAT REASON: count and print a comparison.
same() {
    passed=$((passed + 1))
    echo "release: $1 is byte for byte what was proved and built here"
}
different() {
    failed=$((failed + 1))
    echo "release: $1 is not what $2"
}
skip() {
    skipped=$((skipped + 1))
    echo "release: $1 is not compared: $2"
}

# obstacle PART: prints why the file cannot be made again here.
obstacle() {
    local crate=${crate_of[$1]} package=${package_of[$1]}
    if [ "$1" != wheel ] && [ "$(sum_of_crate "$crate")" != "$(field "sources-$crate")" ]; then
        echo 'it is of other sources'
    elif [ "$crate" != units_c ] && ! [ -e "$root/crates/$crate/out/$crate.o" ]; then
        echo "no program is built here, or rt kept that of an earlier run without its object, crates/$crate/out/$crate.o"
    elif [ "$1" != wheel ] && ! command -v rt > /dev/null; then
        echo 'there is no command rt'
    elif [ "$1" != wheel ] && [ "$(rt version)" != "$(field toolchain)" ]; then
        echo "it was built by the kit $(field toolchain), which is not here"
    elif [ "$(version_of "$package")" != "$(field "with-$package")" ]; then
        echo "it was made with $package $(field "with-$package"), which is not here"
    fi
}

compare_part() {
    local part=$1 file=${file_of[$1]} reason
    if ! is_whole "$part"; then
        different "$file" 'release/MADE_FROM names'
        return
    fi
    reason=$(obstacle "$part")
    if [ "$reason" ]; then
        skip "$file" "$reason"
        return
    fi
    make_part "$part" "$work" > "$work/log" 2>&1
    case $? in
        0) if cmp "$work/$file" "$release/$file"; then same "$file"; else different "$file" 'is made again here'; fi ;;
        3) skip "$file" "$(tail -n 1 "$work/log")" ;;
        *) cat "$work/log"; different "$file" 'can be made again here' ;;
    esac
}

# compare_page: makes the module of the page again.
compare_page() {
    local reason
    if [ "$(sum_of_sources units)" != "$(field sources-units)" ]; then
        skip 'the page' 'it is of other sources'
        return
    fi
    reason=$("$root/tools/web.sh" --compare 2>&1 < /dev/null)
    case $? in
        0) same 'the module of the page' ;;
        3) skip 'the page' "$(tail -n 1 <<< "$reason")" ;;
        *) echo "$reason"; different 'the page' 'is made again here' ;;
    esac
}

compare() {
    local part
    passed=0 failed=0 skipped=0
    for part in "${parts[@]}"; do compare_part "$part"; done
    compare_page
    echo "$passed passed, $failed failed, $skipped skipped"
    [ "$failed" = 0 ]
}

# with_folder COMMAND: runs it with a scratch folder, `work`.
with_folder() {
    work=$(mktemp -d) || exit
    trap 'rm -rf "$work"' EXIT
    "$1"
}

case "$#${1-}" in
    0) with_folder make ;;
    [12]--check) check "${2-}" ;;
    1--compare) with_folder compare ;;
    1--files) for part in "${parts[@]}"; do echo "$part ${file_of[$part]}"; done ;;
    2--sources) sum_of_crate "$2" ;;
    *) sed -n '2,/^set/s/^# \{0,1\}//p' "$script" | head -n -1 >&2; exit 2 ;;
esac
