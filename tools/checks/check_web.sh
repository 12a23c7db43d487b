#!/usr/bin/env bash
# Drives the page in headless Chromium and Firefox and compares every reply with the released program.
#   tools/checks/check_web.sh [--questions N] [--pictures FOLDER]
# It tests the module in release/units.html with the present web/ and share/units. N is 60 by default. A browser that is
# not installed is skipped. The last line is `N passed, M failed, K skipped`.
set -u
script=$(readlink -f "${BASH_SOURCE[0]}") || exit
root=${script%/*/*/*}
page=$root/release/units.html
program=$root/release/units-x86_64-linux-static
made_from=$root/release/MADE_FROM

sum_of() { sha256sum "$1" 2> /dev/null | cut -d ' ' -f 1; }
field() { sed -n "s/^$1 //p" "$made_from" 2> /dev/null; }

# skip REASON: ends the check, which has nothing to compare.
skip() {
    echo "check_web: skipped: $1"
    echo '0 passed, 0 failed, 1 skipped'
    exit
}

[ -e "$page" ] \
    || skip 'there is no release/units.html: tools/web.sh makes it after bin/test and tools/release/release.sh'
if [ "$(sum_of "$page")" != "$(field page)" ] || [ "$(sum_of "$program")" != "$(field static)" ]; then
    skip 'release/units.html is not of this release: run tools/web.sh'
fi
folder=$(mktemp -d) || exit
trap 'rm -rf "$folder"' EXIT
"$root/tools/web.sh" --page "$folder/units.html" || exit
if ! cmp -s "$folder/units.html" "$page"; then
    echo 'check_web: release/units.html has an older web/ or share/units; tools/web.sh renews it'
fi
module64=$root/web/out/units64.wasm
if [ "$(sum_of "$module64")" = "$(field module64)" ]; then set -- "$@" --module64 "$module64"; fi
python3 -B "$root/tests/web/check_page.py" "$folder/units.html" "$program" "$@"
