#!/usr/bin/env bash
# Compiles the proved crate units_c: tools/release/c_archive.sh prints the path of crates/units_c/out/libunits_c.a.
#
# It uses the libraries crates/NAME/out/rlib/NAME.rlib of `rt ci`, which writes a library only after the proof of its
# crate; no source of the crate may be newer. `rattle build` then checks every proof of units_c with these libraries and
# compiles the checked code, in one command; if a proof fails, it writes nothing. crates/units_c/out/made_from has the
# toolchain, the checksums of the sources, of each library and of the archive, and the verdict. The archive is built
# again only if these change: ~/.cache/units/c_archive (or below XDG_CACHE_HOME) has the archives of the last runs on this
# machine, for all clones of the repository.
# Statuses: 1 if units_c is not proved, 3 if a library is missing or older than its sources, 127 without the toolchain.
set -euo pipefail
script=$(readlink -f "${BASH_SOURCE[0]}")
root=${script%/*/*/*}
# shellcheck source=tools/sources.sh
. "$root/tools/sources.sh"
crate=units_c
out=$root/crates/$crate/out
archive=$out/lib$crate.a
made_from=$out/made_from
cache=${XDG_CACHE_HOME:-${HOME:-}/.cache}/units/c_archive
most_cached=4

if [ $# -ne 0 ]; then
    sed -n '2,/^set/s/^# \{0,1\}//p' "$script" >&2
    exit 2
fi
if ! kit=$(readlink -f "$(command -v rt)"); then
    echo "c_archive: there is no command rt, which the proofs need" >&2
    exit 127
fi
kit=${kit%/bin/rt}

# sum_of_library NAME: prints one checksum of the lists in a library, which have the checksum of each of its parts.
sum_of_library() (
    cd "$root/crates/$1/out/rlib/$1.rlib" && sha256sum format toolchain/*.json | sha256sum | cut -d ' ' -f 1
)

# is_current NAME: whether the crate has a library that is not older than its sources.
is_current() {
    local library=$root/crates/$1/out/rlib/$1.rlib folders=() part
    [ -e "$library/format" ] || return
    for part in src specs proofs; do
        if [ -d "$root/crates/$1/$part" ]; then folders+=("$root/crates/$1/$part"); fi
    done
    [ -z "$(find "${folders[@]}" -newer "$library" -print -quit)" ]
}

# The libraries below units_c, the lowest first, and those that it uses directly, of this repository or the toolchain.
below=() direct=()
while IFS=: read -r head names; do
    if [ "${head%% *}" = "$crate" ]; then read -ra direct <<< "$names"; else below+=("$head"); fi
done <<< "$(lines_of "$crate")"
for name in "${below[@]}"; do
    if ! is_current "$name"; then
        echo "c_archive: crates/$name/out/rlib/$name.rlib is missing, or a source of $name is newer: run bin/test" >&2
        exit 3
    fi
done

print_inputs() {
    local name
    echo "toolchain $(rt version)"
    echo "sources $(sum_of_sources "$crate")"
    for name in "${below[@]}"; do
        echo "library $name $(sum_of_library "$name")"
    done
}

# has_archive: whether crates/units_c/out has the archive of these inputs, undamaged.
has_archive() {
    [ -e "$archive" ] && [ "$(grep -v '^verdict ' "$made_from" 2> /dev/null)" = "$inputs
archive $(sha256sum "$archive" | cut -d ' ' -f 1)" ]
}

# cache_archive: copies the archive to the cache, and removes the oldest ones there. If the cache cannot be written, the
# next clone builds the archive again.
cache_archive() (
    mkdir -p "$cache" && new=$(mktemp -d "$cache/new.XXXXXX") || return
    trap 'rm -rf "$new"' EXIT
    cp "$archive" "$made_from" "$new" && rm -rf "$cached" && mv -T "$new" "$cached" || return
    find "$cache" -mindepth 1 -maxdepth 1 -name '[0-9a-f]*' -printf '%T@ %p\n' | sort -rn \
        | tail -n "+$((most_cached + 1))" | cut -d ' ' -f 2- | while IFS= read -r old; do rm -rf "$old"; done
)

mkdir -p "$out"
# Two checks may ask for the archive at the same time; the second one waits for that of the first.
exec 9> "$out/lock"
flock 9
inputs=$(print_inputs)
cached=$cache/$(sha256sum <<< "$inputs" | cut -d ' ' -f 1)
if has_archive || { cp "$cached/lib$crate.a" "$cached/made_from" "$out" 2> /dev/null && has_archive; }; then
    echo "$archive"
    exit
fi

words=(--crate-name "$crate" src/lib.rt --crate-type staticlib -L "dependency=$kit/rlibs")
words+=(--extern "std=$kit/rlibs/std.rlib")
for name in "${direct[@]}"; do
    path=$root/crates/$name/out/rlib/$name.rlib
    if ! [ -d "$root/crates/$name" ]; then path=$kit/rlibs/$name.rlib; fi
    words+=(--extern "$name=$path")
done
for name in "${below[@]}"; do words+=(-L "dependency=$root/crates/$name/out/rlib"); done
words+=(--antt-project "$kit/rattle/logic/antt-project.json" --logic-built "$kit/logic_built" --jobs 1)

rm -f "$archive" "$made_from"
cd "$root/crates/$crate"
if ! "$kit/bin/rattle" build "${words[@]}" --toolchain "$kit/toolchain" --backend llvm -o "$archive" \
    < /dev/null > "$out/build.log" 2>&1; then
    tail -n 40 "$out/build.log" >&2
    exit 1
fi
{
    echo "$inputs"
    echo "archive $(sha256sum "$archive" | cut -d ' ' -f 1)"
    sed -n 's/^logic=/verdict logic=/p' "$out/build.log"
} > "$made_from"
cache_archive 2> /dev/null || true
echo "$archive"
