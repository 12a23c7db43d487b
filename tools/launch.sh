# shellcheck shell=sh disable=SC2154 # name, here
# SPDX-License-Identifier: MIT OR Apache-2.0
# Runs the proved program `name` of the present sources: the released static one, or the one that was built here. If
# there is neither, it names the command that builds one. bin/units and bin/units-why read this file, with the folder
# bin/ in `here`.
#
# tools/built.sh finds the program and writes crates/NAME/out/current.sh, which prints the path of the program as long as
# neither it nor its sources and statements change. Then the program runs at once.
root=$here/..
# shellcheck source=/dev/null
program=$({ cd "$root" && . "./crates/$name/out/current.sh"; } 2>&1)
if [ -f "$root/$program" ]; then exec "$root/$program" "$@"; fi
program=$("$root/tools/built.sh" --static "$name") || exit
exec "$program" "$@"
