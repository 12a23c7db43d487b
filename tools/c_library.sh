#!/usr/bin/env bash
# Makes the C library from the proved crate units_c, which tools/release/c_archive.sh compiles, and lib/units.c: a static
# library, a shared library, the header and a pkg-config file. They include the heap of the toolchain, so programs need
# only the C library of the system, glibc 2.14 or later.
#   tools/c_library.sh FOLDER    after bin/test. FOLDER gets include/units.h, lib/{libunits.a,libunits.so,libunits.so.1}
#                                and lib/pkgconfig/libunits.pc
#   tools/c_library.sh --parts   prints the part of the system that is used
# The toolchain links both libraries, and objcopy of the system's binutils hides what is no call, so the same archive and
# the same objcopy give the same bytes. The statuses are those of tools/release/c_archive.sh.
set -eu
script=$(readlink -f "${BASH_SOURCE[0]}")
root=${script%/*/*}

case $#${1-} in
    1--parts) objcopy --version | head -n 1; exit ;;
    1-* | [!1]*) sed -n '2,/^set/s/^# \{0,1\}//p' "$script" | head -n -1 >&2; exit 2 ;;
esac
folder=$1
archive=$("$root/tools/release/c_archive.sh") || exit
kit=$(readlink -f "$(command -v rt)")
kit=${kit%/bin/rt}
link=("$kit/toolchain/bin/ld.lld" -m elf_x86_64 --threads=1)

mkdir -p "$folder/include" "$folder/lib/pkgconfig"
folder=$(readlink -f "$folder")
static=$folder/lib/libunits.a
work=$(mktemp -d)
trap 'rm -rf "$work"' EXIT

cp "$root/lib/units.h" "$folder/include/units.h"
sed "s#^includedir=.*#includedir=\${pcfiledir}/../../include#; s#^libdir=.*#libdir=\${pcfiledir}/..#" \
    "$root/release/libunits.pc" > "$folder/lib/pkgconfig/libunits.pc"

# The calls that are C. The toolchain has a compiler, but not the two headers that units.h needs.
printf '#define NULL ((void *)0)\ntypedef __SIZE_TYPE__ size_t;\n' > "$work/stddef.h"
printf 'typedef __UINT%s_TYPE__ uint%s_t;\n' 8 8 32 32 64 64 > "$work/stdint.h"
"$kit/toolchain/bin/clang" --target=x86_64-unknown-linux-gnu --no-default-config -nostdinc -isystem "$work" -std=c11 -O2 \
    -march=x86-64 -fPIC -fno-stack-protector -Wall -Wextra -Werror -c "$root/lib/units.c" -o "$work/c.o"
objcopy --redefine-sym units_close=units_close_table "$archive" "$work/proved.a"

# One object in which only the calls are visible, so that a program may define functions with the same names as the
# heap. One section for all code is a tenth smaller than one for each function.
cat > "$work/sections" << 'END'
SECTIONS {
    .text : { *(.text .text.*) }
    .rodata : { *(.rodata .rodata.*) }
    .data.rel.ro : { *(.data.rel.ro .data.rel.ro.*) }
    .data : { *(.data .data.*) }
    .bss : { *(.bss .bss.*) }
}
END
"${link[@]}" -r -T "$work/sections" "$work/c.o" --whole-archive "$work/proved.a" "$kit/c/liblibc_c.a" -o "$work/units.o"
nm -g --defined-only "$work/units.o" | sed -n 's/.* T \(units_[a-z_]*\)$/\1/p' | grep -vx units_close_table > "$work/calls"
objcopy --keep-global-symbols="$work/calls" --strip-unneeded --remove-section=.llvm_addrsig "$work/units.o"
rm -f "$static"
"$kit/toolchain/bin/llvm-ar" rcsD "$static" "$work/units.o"

{
    echo 'UNITS_1 {'
    echo '    global:'
    sed 's/.*/        &;/' "$work/calls"
    echo '    local:'
    echo '        *;'
    echo '};'
} > "$work/units.map"
"${link[@]}" -shared --version-script="$work/units.map" -soname libunits.so.1 -z now -z relro -z noexecstack -z defs \
    --build-id=none --strip-all --eh-frame-hdr -o "$folder/lib/libunits.so.1" \
    --whole-archive "$static" --no-whole-archive "$kit/toolchain/lib/libgcc.a" "$kit/toolchain/lib/libc.so.6"
ln -sf libunits.so.1 "$folder/lib/libunits.so"
