#!/usr/bin/env bash
# Times the page in headless Chromium from opening to the first answer, in turns with an empty page that compiles the
# same module. Prints the lowest and the median of ROUNDS rounds (10, or the first argument) and their ratio, then the
# time from typing to the answer over 200 conversions, and the sizes.
set -u
root=$(cd "$(dirname "${BASH_SOURCE[0]}")/.." && pwd)
page=$root/release/units.html
if ! [ -e "$page" ]; then echo 'web: there is no release/units.html: run tools/web.sh'; exit 1; fi
exec python3 -B "$root/bench/web.py" "$page" "${1:-10}"
