#!/usr/bin/env bash
# Makes the page for browsers as one file: the program compiled to WebAssembly, with web/ and share/units.
#   tools/web.sh             after bin/test and tools/release/release.sh: makes release/units.html and its lines in
#                            release/MADE_FROM. It makes everything twice and compares. web/out has the modules
#   tools/web.sh --page TO   makes the page of the present web/ and share/units as the file TO, with the module in
#                            release/units.html; this needs no toolchain
#   tools/web.sh --served TO  makes that page as a folder for a server, from which a browser can install it
#   tools/web.sh --compare   after bin/test: makes the module again and compares it with that of release/units.html.
#                            Status 3 if this machine does not have the parts for that; the last line says which
set -euo pipefail
script=$(readlink -f "${BASH_SOURCE[0]}")
root=${script%/*/*}
page=$root/release/units.html
made_from=$root/release/MADE_FROM
out=$root/web/out

sum_of() { sha256sum "$1" | cut -d ' ' -f 1; }
field() { sed -n "s/^$1 //p" "$made_from"; }

give_up() {
    echo "web: $*" >&2
    exit 1
}

# write_page MODULE TO [--served]
write_page() { python3 "$root/tools/web/page.py" "$1" "$root/share/units" "$(field version)" "${@:2}"; }

make_page_again() {
    [ -e "$page" ] || give_up 'there is no release/units.html: run tools/web.sh after bin/test'
    local folder
    folder=$(mktemp -d)
    python3 "$root/tools/web/module_of.py" "$page" "$folder/units32.wasm"
    write_page "$folder/units32.wasm" "$@"
    rm -r "$folder"
}

# make_modules FOLDER: makes the modules and the page.
make_modules() {
    mkdir -p "$1"
    "$root/tools/web/llvm_code.sh" units "$1"
    "$root/tools/web/module.sh" "$1/module.bc" "$1"
    write_page "$1/units32.wasm" "$1/units.html"
}

record() {
    local other_lines
    other_lines=$(grep -v '^page \|^module' "$made_from")
    {
        echo "$other_lines"
        echo "page $(sum_of "$page")"
        echo "module32 $(sum_of "$out/units32.wasm")"
        echo "module64 $(sum_of "$out/units64.wasm")"
        echo "module-tools $(wasm-opt --version)"
    } > "$made_from.new"
    mv "$made_from.new" "$made_from"
}

# lack REASON: ends a comparison for which something is missing.
lack() {
    echo "$*" >&2
    exit 3
}

compare() {
    [ "$(field page)" ] || lack 'the release has no page: run tools/web.sh'
    [ "$(sum_of "$page")" = "$(field page)" ] || give_up 'release/units.html is not the page that release/MADE_FROM names'
    command -v rt > /dev/null || lack 'there is no command rt'
    [ "$(wasm-opt --version 2> /dev/null)" = "$(field module-tools)" ] || lack "there is no $(field module-tools)"
    [ -e "$root/crates/units/out/units.o" ] || lack 'there is no crates/units/out/units.o'
    KIT=$(dirname "$(dirname "$(readlink -f "$(command -v rt)")")")
    export KIT
    folder=$(mktemp -d)
    trap 'rm -rf "$folder"' EXIT
    make_modules "$folder"
    python3 "$root/tools/web/module_of.py" "$page" "$folder/released.wasm"
    cmp "$folder/units32.wasm" "$folder/released.wasm"
}

make() {
    command -v rt > /dev/null || give_up 'there is no command rt (see CONTRIBUTING.md)'
    command -v wasm-opt > /dev/null || give_up 'there is no command wasm-opt: tools/packages.sh installs binaryen'
    [ "$(sum_of "$root/crates/units/out/units" 2> /dev/null)" = "$(field program)" ] \
        || give_up 'the built program is not the released one: run bin/test and tools/release/release.sh first'
    KIT=$(dirname "$(dirname "$(readlink -f "$(command -v rt)")")")
    export KIT
    rm -rf "$out"
    make_modules "$out"
    make_modules "$out/again"
    local file
    for file in units32.wasm units64.wasm units.html; do cmp "$out/$file" "$out/again/$file"; done
    rm -r "$out/again" "$out/toolchain" "$out"/{module.bc,units.o,build.log}
    cp "$out/units.html" "$page"
    record
    ls -l "$page" "$out"/*.wasm
}

case "${1-}" in
    '') make ;;
    --page) make_page_again "${2:?a file}" ;;
    --served) make_page_again "${2:?a folder}" --served ;;
    --compare) compare ;;
    *) sed -n '2,/^set/s/^# \{0,1\}//p' "${BASH_SOURCE[0]}" | head -n -1 >&2; exit 2 ;;
esac
