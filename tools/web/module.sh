#!/usr/bin/env bash
# Compiles the LLVM code of the program to WebAssembly.
#   tools/web/module.sh CODE FOLDER
# writes FOLDER/units64.wasm, for 64-bit memory, and FOLDER/units32.wasm, the same module lowered to 32-bit memory.
# The environment has KIT, the folder of the toolchain.
set -euo pipefail
script=$(readlink -f "${BASH_SOURCE[0]}")
here=${script%/*}
root=${here%/*/*}
clang=${KIT:?}/toolchain/bin/clang
code=$(readlink -f "$1")
mkdir -p "$2"
cd "$2"
trap 'rm -f native.ll wasm.ll program.o runtime.o narrowed.wasm' EXIT

# The code names its target in its first lines and its processor in attributes. Pointers have 64 bits on both targets
# and all types have the same sizes and alignments, so nothing else depends on the target.
"$clang" --no-default-config -S -emit-llvm -Xclang -disable-llvm-passes -x ir "$code" -o native.ll -Wno-override-module
sed -E \
    -e 's/^target datalayout = .*/target datalayout = "e-m:e-p:64:64-p10:8:8-p20:8:8-i64:64-i128:128-n32:64-S128"/' \
    -e 's/^target triple = .*/target triple = "wasm64-unknown-unknown"/' \
    -e 's/ "probe-stack"="[^"]*"//; s/ "stack-probe-size"="[^"]*"//; s/ "frame-pointer"="[^"]*"//' \
    -e 's/^(attributes .*) sanitize_address/\1 nounwind/' \
    -e 's/"target-cpu"="[^"]*"/"target-cpu"="lime1"/; s/ "target-features"="[^"]*"//; s/ "tune-cpu"="[^"]*"//' \
    -e 's/^define i32 @main\(/define i32 @program_main(/' \
    native.ll > wasm.ll

options=(--target=wasm64-unknown-unknown -mcpu=lime1 -O3 --no-default-config -ffunction-sections -fdata-sections
    -mllvm -expand-div-rem-bits=64 -c)
"$clang" "${options[@]}" -Wno-override-module -mllvm -trap-unreachable -x ir wasm.ll -o program.o
"$clang" "${options[@]}" -ffreestanding -fno-builtin -nostdinc -mbulk-memory -Wall -Wextra -Werror \
    -Wno-unused-parameter -x c "$root/web/runtime.c" -o runtime.o

# The stack is below the data, so an overflow traps before it reaches data. A run has at most 1 GiB of memory.
"$KIT/toolchain/bin/ld.lld" -flavor wasm -mwasm64 --no-entry --stack-first -z stack-size=8388608 \
    --max-memory=1073741824 --gc-sections --strip-all --threads=1 program.o runtime.o -o units64.wasm
# Binaryen lowers memories but not tables of functions. With -O2 the lowered module stays below 1.2 MB.
python3 "$here/narrow_tables.py" units64.wasm narrowed.wasm
wasm-opt --enable-memory64 --enable-bulk-memory --enable-sign-ext --enable-nontrapping-float-to-int \
    --enable-mutable-globals --enable-multivalue --memory64-lowering -O2 narrowed.wasm \
    -o units32.wasm
