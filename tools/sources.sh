# shellcheck shell=bash
# shellcheck disable=SC2154 # root
# Functions on the sources of a program, for scripts that have the top of the repository in `root`. They use no process
# substitution, since that needs /dev/fd, and a bare root may have no /proc.

# lines_of NAME: prints the lines of crates.txt for the crate and those below it, the lowest first.
lines_of() {
    awk -F: -v name="$1" '
        function print_from_lowest(crate, words, count, i) {
            if (!(crate in line) || crate in seen) return
            seen[crate]
            count = split(uses[crate], words, " ")
            for (i = 1; i <= count; i++) print_from_lowest(words[i])
            print line[crate]
        }
        /^[^#]/ { split($1, head, " "); line[head[1]] = $0; uses[head[1]] = $2 }
        END { print_from_lowest(name) }
    ' "$root/crates.txt"
}

# folders_of NAME [PART..]: prints the folders with their sources, relative to the top of the repository; by default all
# parts, `src specs proofs`.
folders_of() {
    local crate name=$1 part
    shift
    if [ $# -eq 0 ]; then set -- src specs proofs; fi
    lines_of "$name" | while IFS=': ' read -r crate _; do
        for part; do
            if [ -d "$root/crates/$crate/$part" ]; then echo "crates/$crate/$part"; fi
        done
    done
}

# sum_of_sources NAME [PART..]: prints one checksum of those lines and of the names and bytes of all files in those
# folders.
sum_of_sources() (
    mapfile -t folders <<< "$(folders_of "$@")"
    cd "$root" && {
        lines_of "$1"
        find "${folders[@]}" -type f -print0 | LC_ALL=C sort -z | xargs -0 sha256sum
    } | sha256sum | cut -d ' ' -f 1
)

# is_outdated FILE NAME: whether a source is newer than the file.
is_outdated() {
    local folders
    mapfile -t folders <<< "$(folders_of "$2")"
    [ -n "$(cd "$root" && find "${folders[@]}" -newer "$1" -print -quit)" ]
}

# is_built NAME: whether a build here has finished and the program is of the present sources.
is_built() {
    local program=$root/crates/$1/out/$1
    [ -x "$program" ] && ! [ -e "$program.before" ] && ! is_outdated "$program" "$1"
}
