#!/usr/bin/env bash
# Writes the LLVM code from which the proved program was compiled.
#   tools/web/llvm_code.sh NAME FOLDER
# proves the crate NAME with the libraries that bin/test built, compiles it, and saves the input of clang as
# FOLDER/module.bc. The object has to be byte for byte the one that bin/test built, crates/NAME/out/NAME.o.
# The environment has KIT, the folder of the toolchain.
set -euo pipefail
script=$(readlink -f "${BASH_SOURCE[0]}")
root=${script%/*/*/*}
# shellcheck source=tools/sources.sh
. "$root/tools/sources.sh"
name=$1
folder=$(readlink -f "$2")
object=$root/crates/$name/out/$name.o
if ! [ -e "$object" ]; then
    echo "llvm_code: there is no crates/$name/out/$name.o: run bin/test first" >&2
    exit 1
fi

# A toolchain whose clang saves a copy of the code that it compiles. It runs with an empty environment.
tools=$folder/toolchain
mkdir -p "$tools/bin"
ln -sfn "${KIT:?}/toolchain/lib" "$tools/lib"
for tool in "$KIT"/toolchain/bin/*; do
    if [ "${tool##*/}" != clang ]; then ln -sf "$tool" "$tools/bin/"; fi
done
cat > "$tools/bin/clang" << CLANG
#!/bin/bash
for word in "\$@"; do
    case \$word in *.bc) /bin/cp "\$word" '$folder/' ;; esac
done
exec '$KIT/toolchain/bin/clang' "\$@"
CLANG
chmod +x "$tools/bin/clang"

words=(--crate-name "$name" src/main.rt --extern "std=$KIT/rlibs/std.rlib" -L "dependency=$KIT/rlibs")
while IFS=': ' read -r crate libraries; do
    if [ "$crate" = "$name" ]; then
        for library in $libraries; do
            path=$root/crates/$library/out/rlib/$library.rlib
            if ! [ -d "$root/crates/$library" ]; then path=$KIT/rlibs/$library.rlib; fi
            words+=(--extern "$library=$path")
        done
    else
        words+=(-L "dependency=$root/crates/$crate/out/rlib")
    fi
done < <(lines_of "$name")
words+=(--antt-project "$KIT/rattle/logic/antt-project.json" --logic-built "$KIT/logic_built" --jobs 1)

cd "$root/crates/$name"
"$KIT/bin/rattle" build "${words[@]}" --toolchain "$tools" --backend llvm -o "$folder/$name.o" \
    < /dev/null > "$folder/build.log" 2>&1 || {
    tail -n 20 "$folder/build.log" >&2
    exit 1
}
if ! cmp "$folder/$name.o" "$object"; then
    echo "llvm_code: the object differs from the one that bin/test built" >&2
    exit 1
fi
