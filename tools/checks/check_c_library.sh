#!/usr/bin/env bash
# Builds the C library and the Python package from the crates that bin/test proved, and tests them: the calls from C,
# with the static and the shared library, under valgrind, on a stack of the stated size, in four threads, and with each
# allocation refused; the Python package with both back ends; its wheel; the examples of docs/C_AND_PYTHON.md and
# docs/TOUR.md; and 2,000 random questions and columns of 2,000 random numbers, which C, Python and the program have to
# answer alike. A test that needs a missing package, or a library that bin/test did not build, is named and skipped. The
# last line is `N passed, M failed, K skipped`.
# shellcheck disable=SC2016,SC2317 # literal backquotes; functions that `step` calls
set -u
script=$(readlink -f "${BASH_SOURCE[0]}") || exit
root=${script%/*/*/*}
cd "$root" || exit 2
work=$(mktemp -d) || exit 2
trap 'rm -rf "$work"' EXIT
passed=0 failed=0 skipped=0

# step NAME COMMAND WORD..: runs one check, which passes if the command ends with status 0. If its last line is
# `N passed, M failed` or `N passed, M failed, K skipped`, these numbers are added instead.
step() {
    local name=$1 status last
    shift
    "$@" > "$work/log" 2>&1 < /dev/null
    status=$?
    last=$(tail -n 1 "$work/log")
    if [[ $last =~ ^([0-9]+)\ passed,\ ([0-9]+)\ failed(,\ ([0-9]+)\ skipped)?$ ]]; then
        passed=$((passed + BASH_REMATCH[1]))
        failed=$((failed + BASH_REMATCH[2]))
        skipped=$((skipped + ${BASH_REMATCH[4]:-0}))
        grep ': skipped: ' "$work/log"
        if [ "$status" = 0 ] && [ "${BASH_REMATCH[2]}" = 0 ]; then return 0; fi
        if [ "${BASH_REMATCH[2]}" = 0 ]; then failed=$((failed + 1)); fi
    elif [ "$status" = 0 ]; then
        passed=$((passed + 1))
        return 0
    else
        failed=$((failed + 1))
    fi
    echo "== $name: failed with status $status"
    tail -n 40 "$work/log"
    return 1
}

# skip NAME WHY
skip() {
    echo "== $1: skipped: $2"
    skipped=$((skipped + 1))
}

finish() {
    echo "$passed passed, $failed failed, $skipped skipped"
    [ "$failed" = 0 ]
    exit
}

has() { type -P "$1" > /dev/null; }

for command in gcc rt ar objcopy python3; do
    if ! has "$command"; then
        skip 'the C library' "there is no command $command"
        finish
    fi
done

tools/c_library.sh "$work/units" > "$work/log" 2>&1
case $? in
    0) passed=$((passed + 1)) ;;
    3)
        skip 'the C library' "$(sed 's/^c_archive: //' "$work/log")"
        finish
        ;;
    *)
        echo '== tools/c_library.sh: failed'
        cat "$work/log"
        failed=1
        finish
        ;;
esac
include=$work/units/include static=$work/units/lib/libunits.a shared=$work/units/lib/libunits.so.1
warnings=(-std=c11 -Wall -Wextra -Werror -O1 -g)

# Only the calls of the header are exported, and only the listed functions of the C library are used.
are_symbols_right() {
    sed -nE 's/^(uint32_t |const char \*)(units_[a-z_]*)\(.*/\2/p' "$include/units.h" | sort > "$work/calls.txt"
    nm -D --defined-only "$shared" | sed -n 's/.* T \([a-z_]*\)@@UNITS_1$/\1/p' | sort | diff - "$work/calls.txt" || return
    diff <(nm -D --undefined-only "$shared" | sed -n 's/^ *U \([a-z_]*\)@.*/\1/p' | sort) \
        <(printf '%s\n' free malloc memcpy memmove memset realloc) || return
    nm -g --defined-only "$static" | sed -n 's/.* T //p' | sort | diff - "$work/calls.txt"
}
step 'symbols' are_symbols_right

compile() { gcc "${warnings[@]}" -I"$include" -o "$@"; }
step 'C over the static library' compile "$work/calls" tests/c/calls.c "$static"
step 'the calls, static' "$work/calls"
step 'C over the shared library' compile "$work/calls_shared" tests/c/calls.c "$shared" -Wl,-rpath,"$work/units/lib"
step 'the calls, shared' "$work/calls_shared"
step 'C with each allocation refused' compile "$work/refusals" tests/c/refusals.c "$static" \
    -Wl,--wrap=malloc,--wrap=realloc
step 'refused allocations' "$work/refusals"
step 'C on a small stack' compile "$work/stack" tests/c/stack.c "$static" -pthread
step 'the stated stack' "$work/stack"
step 'C with threads' compile "$work/threads" tests/c/threads.c "$static" -pthread
step 'four threads' "$work/threads" 2000
step 'C with ThreadSanitizer' compile "$work/threads_tsan" tests/c/threads.c "$static" -pthread -fsanitize=thread
step 'four threads with ThreadSanitizer' "$work/threads_tsan"
if has g++; then
    step 'the header in C++' g++ -x c++ -std=c++17 -Wall -Wextra -Werror -pedantic -fsyntax-only "$include/units.h"
else
    skip 'the header in C++' 'there is no command g++'
fi
if has pkg-config; then
    in_pkg_config() {
        [ "$(PKG_CONFIG_PATH=$work/units/lib/pkgconfig pkg-config --variable=includedir libunits | xargs realpath)" = "$include" ]
    }
    step 'pkg-config' in_pkg_config
else
    skip 'pkg-config' 'there is no command pkg-config'
fi
if has valgrind; then
    memcheck=(valgrind --quiet --error-exitcode=99 --leak-check=full --show-leak-kinds=all --errors-for-leak-kinds=all)
    step 'the calls under valgrind' "${memcheck[@]}" "$work/calls"
    step 'refused allocations under valgrind' "${memcheck[@]}" "$work/refusals"
    step 'four threads under helgrind' valgrind --quiet --tool=helgrind --error-exitcode=99 "$work/threads" 50
else
    skip 'valgrind' 'there is no command valgrind'
fi

program=$(tools/built.sh units) || failed=$((failed + 1))
export EXACT_UNITS_LIBRARY=$shared EXACT_UNITS_PROGRAM=$program PYTHONPATH=$root/lib/python PYTHONDONTWRITEBYTECODE=1
# Debian's Python has numpy and pandas if they are installed.
python=$(command -v /usr/bin/python3 || command -v python3)
step 'the Python package' "$python" tools/checks/check_python.py
if has pyflakes3; then
    step 'pyflakes' pyflakes3 lib/python tools/release/wheel.py tools/comparisons/compare_c_*.py
else
    skip 'pyflakes' 'there is no command pyflakes3'
fi
if has mypy; then step 'mypy' mypy --strict lib/python/exact_units; else skip 'mypy' 'there is no command mypy'; fi

# Two builds of the wheel are equal, its tag names the glibc that it needs, and it works with each back end.
wheel_works() (
    for folder in first second; do
        wheel=$(tools/release/wheel.py "$work/$folder" --library "$shared") || return
    done
    cmp "$work/first/${wheel##*/}" "$wheel" || return
    mkdir "$work/unpacked" && python3 -m zipfile -e "$wheel" "$work/unpacked" || return
    [ "$(nm -D --undefined-only "$shared" | sed -n 's/.*@GLIBC_//p' | sort -V | tail -n 1)" = 2.14 ] || return
    cd "$work/unpacked" && env -u EXACT_UNITS_LIBRARY PYTHONPATH="$work/unpacked" python3 - <<'PYTHON'
import hashlib
from base64 import urlsafe_b64encode
from pathlib import Path

from exact_units import Units

for backend in ("library", "session", "auto"):
    with Units(backend=backend) as units:
        assert str(units.convert("60 mph", "km/h")) == "301752/3125", backend
(record,) = Path().glob("*.dist-info/RECORD")
rows = dict(row.rsplit(",", 2)[:2] for row in record.read_text().splitlines())
files = {str(path) for path in Path().rglob("*") if path.is_file()}
assert files == set(rows), files ^ set(rows)
for name, digest in rows.items():
    data = hashlib.sha256(Path(name).read_bytes()).digest()
    assert not digest or digest == "sha256=" + urlsafe_b64encode(data).rstrip(b"=").decode(), name
PYTHON
)
step 'the wheel' wheel_works

# The C program in a document.
example_works() {
    sed -n '/^```c$/,/^```$/p' "$1" | sed '/^```/d' > "$work/example.c" || return
    compile "$work/example" "$work/example.c" "$static" || return
    diff <("$work/example") <(sed -n '/^```output$/,/^```$/p' "$1" | sed '/^```/d')
}
step 'the C example' example_works docs/C_AND_PYTHON.md
step 'the C example of the tour' example_works docs/TOUR.md
step 'the Python examples' python3 -m doctest docs/C_AND_PYTHON.md
step 'random questions' tools/comparisons/compare_c_library.py --units "$work/units" --questions 2000
step 'random columns' tools/comparisons/compare_c_columns.py --units "$work/units" --numbers 2000
finish
