#!/usr/bin/env bash
# Links the object of a proved program statically, with musl, so that it needs no library of the system.
#   tools/release/static.sh OBJECT TO             writes the program TO. The same parts give the same bytes
#   tools/release/static.sh --refusing OBJECT TO  writes the same program with tools/release/static/refuse.c before its
#                                                 heap
#   tools/release/static.sh --parts               prints one checksum of the parts of the system, and their package
#   tools/release/static.sh --order OBJECT        writes tools/release/static/order.txt, with valgrind
# The program starts in a third to two thirds of the time of GNU units (bench/startup.sh).
#
# The toolchain has the compiler, the linker and its own C code; Debian's musl-dev has the C library. Two files of
# tools/release/static replace parts of these, and are trusted:
# - heap.c replaces the toolchain's heap, which calls malloc. A conversion with GNU's definitions allocates 25,000
#   blocks; malloc takes 22 % of its instructions, this heap 4 %.
# - musl.c has calls that musl lacks, copies that start faster than musl's (which saves 10 % of the time of that
#   conversion), and maps the stack at once (5 % of the time of a small one).
# A start with glibc would take 0.13 ms more, of 0.4: glibc asks the processor for its features and caches before main,
# and each question is slow in a virtual machine. The malloc of musl would be slower than that of glibc.
# tools/release/static/order.txt puts the functions that run most together, so that fewer pages of the file are read;
# that saves 7 % of a small conversion. Names that the object no longer has are ignored. A program that reads a
# definition file of 200 kB or more uses a huge page for its heap. That saves 7 to 10 % of the time with GNU's
# definitions and takes up to 2 MB more memory. With a smaller file a huge page costs more than it saves. Rejected:
# larger chunks and mappings for growing blocks save nothing. Mapping the pages of the code in one call costs as much as
# it saves. Compiling the program's LLVM code again without the toolchain's limits on its optimizer saves at most 3 % of
# the time with GNU's definitions, but then the program is not the object that bin/test proved and built.
set -euo pipefail
script=$(readlink -f "${BASH_SOURCE[0]}")
here=${script%.sh}

libc=/usr/lib/x86_64-linux-musl
headers=/usr/include/x86_64-linux-musl
parts=("$libc"/rcrt1.o "$libc"/crti.o "$libc"/libc.a "$libc"/crtn.o)

need_parts() {
    local part
    for part in "${parts[@]}"; do
        if ! [ -f "$part" ]; then
            echo "static: there is no $part: install musl-dev" >&2
            exit 1
        fi
    done
}

print_parts() {
    local version
    version=$(dpkg-query -W -f '${Version}' musl-dev 2> /dev/null) || version=unknown
    echo "$(cat "${parts[@]}" | sha256sum | cut -d ' ' -f 1) musl-dev $version"
}

# compile SOURCE TO
compile() {
    "$kit/toolchain/bin/clang" --target=x86_64-unknown-linux-musl --no-default-config -nostdinc -isystem "$headers" \
        -O2 -march=x86-64 -fPIE -fno-builtin -fno-stack-protector -fno-asynchronous-unwind-tables \
        -Wall -Wextra -Werror -c -x c "$1" -o "$2"
}

# link OBJECT TO [WORD..]
link() {
    local object=$1 to=$2
    shift 2
    if ! grep -q rattle_alloc "$object"; then
        echo "static: $object is not an object of a program" >&2
        exit 1
    fi
    if grep -q pthread_create "$object"; then
        echo "static: $object has threads, which tools/release/static/heap.c does not support" >&2
        exit 1
    fi
    compile "$here/heap.c" "$folder/heap.o"
    compile "$here/musl.c" "$folder/musl.o"
    "$kit/toolchain/bin/ld.lld" -m elf_x86_64 -pie --no-dynamic-linker -z text --wrap=main --gc-sections --build-id=none -z relro -z now \
        -z noexecstack --eh-frame-hdr --threads=1 --symbol-ordering-file="$here/order.txt" --no-warn-symbol-ordering \
        -o "$to" "$libc/rcrt1.o" "$libc/crti.o" "$object" "$@" \
        "$folder/musl.o" "$folder/heap.o" "$kit/c/libos_c.a" "$kit/c/liblibc_c.a" \
        --start-group "$kit/toolchain/lib/libgcc.a" "$libc/libc.a" --end-group "$libc/crtn.o"
}

# functions_of PROGRAM DEFINITIONS: prints the functions of a conversion with this file, those that run most first.
functions_of() {
    valgrind --tool=callgrind --callgrind-out-file="$folder/calls" "$1" -f "$2" yd m > /dev/null 2>&1
    callgrind_annotate --threshold=100 "$folder/calls" \
        | sed -nE "s/^ *[0-9,]+ \([ 0-9.]+%\)  [^:]*:(.*) \[.*\]\$/\1/p" | sed "s/'[0-9]*\$//"
}

write_order() {
    local root=${script%/*/*/*} file
    : > "$folder/order"
    link "$1" "$folder/named"
    for file in "$root/share/units/standard.units" "$root/share/units/built_in.units"; do
        functions_of "$folder/named" "$file" >> "$folder/order"
    done
    awk '!seen[$0]++' "$folder/order" > "$here/order.txt"
}

kit=$(dirname "$(dirname "$(readlink -f "$(command -v rt)")")")
need_parts
folder=$(mktemp -d)
trap 'rm -rf "$folder"' EXIT
case "$#${1-}" in
    1--parts) print_parts ;;
    3--refusing)
        compile "$here/refuse.c" "$folder/refuse.o"
        link "$2" "$3" --strip-all --wrap=rattle_alloc --wrap=rattle_realloc "$folder/refuse.o"
        ;;
    2--order) write_order "$2" ;;
    2-* | [!2]*) sed -n '2,/^#$/s/^# \{0,1\}//p' "$script" >&2; exit 2 ;;
    *) link "$1" "$2" --strip-all ;;
esac
