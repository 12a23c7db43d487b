#!/usr/bin/env bash
# Tries tools/release/c_archive.sh in scratch repositories of two small crates, with a toolchain that counts its builds:
# when it builds the archive, when it takes one of an earlier run, and what it leaves after a failure. The last line is
# `N passed, M failed`, or `N passed, M failed, K skipped`.
set -u
if ! [ -e /dev/fd/0 ]; then
    echo 'check_c_archive: everything is skipped, since c_archive.sh needs /dev/fd, and so /proc'
    echo '0 passed, 0 failed, 1 skipped'
    exit
fi
script=$(readlink -f "${BASH_SOURCE[0]}") || exit
root=${script%/*/*/*}
folder=$(mktemp -d)
trap 'chmod -R u+w "$folder"; rm -rf "$folder"' EXIT
cd "$folder" || exit 1
passed=0 failed=0

# A toolchain: `rattle build .. -o FILE` adds a line to the file `builds`, and writes FILE unless the file `refuses` exists.
mkdir -p kit/bin
cat > kit/bin/rt << 'RT'
#!/bin/sh
echo toolchain one
RT
cat > kit/bin/rattle << RATTLE
#!/bin/sh
echo build >> "$folder/builds"
if [ -e "$folder/slow" ]; then sleep 1; fi
if [ -e "$folder/refuses" ]; then echo not proved; exit 1; fi
for last; do :; done
cat src/lib.rt > "\$last"
echo logic=proved functions=1
RATTLE
chmod +x kit/bin/rt kit/bin/rattle

# copy NAME: makes a repository with a built library.
copy() {
    mkdir -p "$1"/tools/release "$1"/crates/{low,units_c}/src
    cp "$root/tools/sources.sh" "$1/tools/"
    cp "$root/tools/release/c_archive.sh" "$1/tools/release/"
    printf '%s\n' '# crates' low: 'units_c staticlib: low' > "$1/crates.txt"
    echo 'low code' > "$1/crates/low/src/lib.rt"
    echo 'code' > "$1/crates/units_c/src/lib.rt"
    build_library "$1"
}

build_library() {
    local library=$1/crates/low/out/rlib/low.rlib
    mkdir -p "$library/toolchain"
    sha256sum < "$1/crates/low/src/lib.rt" > "$library/toolchain/made.json"
    echo low > "$library/format"
}

archive_of() { echo "$folder/$1/crates/units_c/out/libunits_c.a"; }

# expect NAME STATUS BUILDS REPOSITORY: the script ends with this status after this many builds. With status 0 it prints
# the path of an archive of the present code, else it leaves none.
expect() {
    local name=$1 status=$2 builds=$3 archive got
    archive=$(archive_of "$4")
    : > builds
    PATH=${path-$folder/kit/bin:$PATH} XDG_CACHE_HOME=${cache-$folder/cache} \
        "$4/tools/release/c_archive.sh" > out.txt 2> err.txt < /dev/null
    got=$?
    if [ "$got" = "$status" ] && [ "$(wc -l < builds)" = "$builds" ] && case $status in
        0) [ "$(cat out.txt)" = "$archive" ] && cmp -s "$4/crates/units_c/src/lib.rt" "$archive" ;;
        1) ! [ -e "$archive" ] && ! [ -e "${archive%/*}/made_from" ] && grep -q 'not proved' err.txt ;;
        *) ! [ -s out.txt ] && [ -s err.txt ] ;;
    esac; then
        passed=$((passed + 1))
    else
        failed=$((failed + 1))
        echo "check_c_archive: $name: status $got instead of $status, $(wc -l < builds) builds instead of $builds"
        cat out.txt err.txt
    fi
}

copy one
expect 'first run' 0 1 one
expect 'again' 0 0 one
rm -r one/crates/units_c/out
expect 'without its archive, from the cache' 0 0 one
echo damaged > "$(archive_of one)"
expect 'damaged, from the cache' 0 0 one
copy two
expect 'another clone, from the cache' 0 0 two
rm -r two/crates/units_c/out
for file in cache/units/c_archive/*/libunits_c.a; do echo damaged > "$file"; done
expect 'damaged in the cache' 0 1 two
rm -r two/crates/units_c/out
expect 'in the cache again' 0 0 two

echo 'new code' > two/crates/units_c/src/lib.rt
expect 'a new source' 0 1 two
echo 'new low code' > two/crates/low/src/lib.rt
touch -d '1 hour' two/crates/low/src/lib.rt
expect 'a library older than its source' 3 0 two
touch -d '1 hour ago' two/crates/low/src/lib.rt
build_library two
expect 'a new library' 0 1 two
sed -i 's/one/two/' kit/bin/rt
expect 'a new toolchain' 0 1 two
sed -i 's/two/one/' kit/bin/rt
expect 'the first code in its clone' 0 0 one

echo 'wrong code' > two/crates/units_c/src/lib.rt
touch refuses
expect 'code that is not proved' 1 1 two
expect 'the same again' 1 1 two
rm refuses
expect 'the same, proved' 0 1 two

for n in 1 2 3 4 5 6; do
    echo "code $n" > two/crates/units_c/src/lib.rt
    expect "change $n" 0 1 two
done
expect 'the last of them' 0 0 two
rm -r two/crates/units_c/out
expect 'the last of them, from the cache' 0 0 two
if [ "$(find cache -name libunits_c.a | wc -l)" = 4 ]; then
    passed=$((passed + 1))
else
    failed=$((failed + 1))
    echo 'check_c_archive: the cache has another number of archives than 4:'
    find cache
fi

rm -r two/crates/units_c/out
cache=/dev/null/cache expect 'a cache that cannot be made' 0 1 two
cache=/dev/null/cache expect 'the same again' 0 0 two
rm -r two/crates/units_c/out
touch slow
: > builds
for _ in 1 2; do PATH=$folder/kit/bin:$PATH XDG_CACHE_HOME=/dev/null/cache two/tools/release/c_archive.sh > /dev/null & done
wait
if [ "$(wc -l < builds)" = 1 ]; then
    passed=$((passed + 1))
else
    failed=$((failed + 1))
    echo "check_c_archive: two runs at the same time: $(wc -l < builds) builds instead of 1"
fi
rm slow
rm -r two/crates/low/out
expect 'without a library' 3 0 two
path=/usr/bin:/bin expect 'without a toolchain' 127 0 one
echo "$passed passed, $failed failed"
[ "$failed" = 0 ]
