#!/usr/bin/env bash
# Makes a copy of GNU units' definitions that `units` reads without a notice.
#
#     import_gnu.sh [FILE [TO]]
#
# FILE is GNU's definitions.units, by default the installed one. TO is the copy, by default `gnu.units` in the current
# folder; `-` means standard output. A file that this script did not write is never overwritten. Use the copy with
# `units -f gnu.units`.
#
# The heading of the copy lists the differences from FILE. The copy is a modified version of GNU's file, so the licence
# in FILE, the GNU General Public License, applies to it too.
#
# Exit status: 0 if the copy was written, 1 if a file cannot be read or written, 2 for wrong arguments.
set -u
# SPDX-License-Identifier: MIT OR Apache-2.0
export LC_ALL=C
mark='# A copy of GNU units definitions, changed by import_gnu.sh so that exact units can read it.'
usual_places=(
    /usr/share/units/definitions.units
    /usr/local/share/units/definitions.units
    /opt/homebrew/share/units/definitions.units
    /usr/share/misc/units.dat
)

fail() {
    echo "import_gnu: $1" >&2
    exit "${2:-1}"
}

# installed_file: prints the path of GNU's definitions on this machine.
installed_file() {
    local place
    for place in "${usual_places[@]}"; do
        if [ -r "$place" ]; then
            echo "$place"
            return
        fi
    done
    return 1
}

# The awk program that writes the copy: it reads all lines, collects the names that have to change, and changes the
# lines.
IFS= read -r -d '' program << 'END' || :
# with_underscore NAME: a name that ends in a digit, with a `_` before its last digits.
function with_underscore(name,    start) {
    match(name, /[0-9]+$/)
    start = RSTART
    return substr(name, 1, start - 1) "_" substr(name, start)
}

# is_one_sign NAME: whether the name is one character of two or three bytes.
function is_one_sign(name) {
    return name ~ /^[\302-\337][\200-\277]$/ || name ~ /^[\340-\357][\200-\277][\200-\277]$/
}

function without_comment(line) {
    sub(/#.*/, "", line)
    return line
}

# with_new_names TEXT: the text with each renamed word replaced.
function with_new_names(text,    out, word) {
    out = ""
    while (match(text, /[^][ \t+*\/|^;~#()-]+/)) {
        word = substr(text, RSTART, RLENGTH)
        out = out substr(text, 1, RSTART - 1) (word in new_name ? new_name[word] : word)
        text = substr(text, RSTART + RLENGTH)
    }
    return out text
}

# folder_of FILE: its path up to the last slash, which may be empty.
function folder_of(file) {
    sub(/[^\/]*$/, "", file)
    return file
}

function refuse(reason) {
    print "import_gnu: " reason > "/dev/stderr"
    exit status = 1
}

# is_readable FILE: whether it is a regular file that `units` reads too. A device may have no end, and a pipe may wait.
function is_readable(file) {
    gsub(/'/, "'\\''", file)
    return system("[ -f '" file "' ] && [ \"$(wc -c < '" file "')\" -le 16777216 ]") == 0
}

# on_one_line TEXT: a path for a line of the heading.
function on_one_line(text) {
    gsub(/\n/, "\\x0a", text)
    return text
}

# read_file FILE: appends the lines of the file and of its includes to `lines`.
function read_file(file,    text, length_of_text, i, got, name) {
    if (file in reading) refuse(file " includes itself")
    reading[file]
    if (!is_readable(file)) refuse("no regular file of at most 16 MiB: " file)
    while ((got = (getline text[length_of_text + 1] < file)) > 0) length_of_text++
    close(file)
    if (got < 0) refuse("cannot read " file)
    if (sub(/^\357\273\277/, "", text[1])) changes["byte order mark"]++
    for (i = 1; i <= length_of_text; i++) {
        sub(/\r$/, "", text[i])
        name = included_name(text[i], file)
        if (name == "") {
            lines[++count] = text[i]
        } else {
            included[++includes] = name
            read_file(name)
        }
    }
    delete reading[file]
}

# included_name LINE FILE: the path in an !include line of the file, or an empty text.
function included_name(line, file,    words) {
    split(without_comment(line), words, /[ \t]+/)
    if (words[1] != "!include" || words[2] == "") return ""
    return words[2] ~ /^\// ? words[2] : folder_of(file) words[2]
}

# collect_names: collects the defined names, those that end in a digit, and the prefixes of one character.
function collect_names(    i, name, goes_on) {
    for (i = 1; i <= count; goes_on = without_comment(lines[i++]) ~ /\\[ \t]*$/) {
        if (goes_on || lines[i] !~ /^[^ \t#!]/) continue
        name = lines[i]
        sub(/[ \t(\[#].*/, "", name)
        defined[name]
        if (name ~ /[1-9]$/ && name !~ /_[0-9.,]+$/) endings[++ended] = name
        if (name ~ /-$/ && is_one_sign(substr(name, 1, length(name) - 1))) signs[++signed] = name
    }
    for (i = 1; i <= ended; i++) {
        if (!(with_underscore(endings[i]) in defined)) new_name[endings[i]] = with_underscore(endings[i])
    }
}

# with_a_number LINE: the definition, with the number 1 before a body such as `/s` or `per s`.
function with_a_number(line) {
    if (match(line, /^[^ \t#!]+[ \t]+(\/|per[ \t])/)) {
        changes["number"]++
        match(line, /^[^ \t#!]+[ \t]+/)
        line = substr(line, 1, RLENGTH) "1 " substr(line, RLENGTH + 1)
    }
    return line
}

# with_short_pi LINE: the definition of pi as a fraction whose square and cube fit.
function with_short_pi(line) {
    if (sub(/^pi[ \t]+3\.14159265358979[0-9]*/, "pi                      21053343141|6701487259", line)) {
        changes["pi"]++
    }
    return line
}

# with_small_range LINE: the line without an interval whose upper end is 2^128.
function with_small_range(line) {
    if (sub(/range=\[1,340282366920938463463374607431768211456\][ \t]*/, "", line)) changes["range"]++
    return line
}

function change_lines(    i, comment, goes_on, was_going_on) {
    for (i = 1; i <= count; i++) {
        goes_on = without_comment(lines[i]) ~ /\\[ \t]*$/
        if (!was_going_on) lines[i] = with_short_pi(with_a_number(lines[i]))
        lines[i] = with_small_range(lines[i])
        if (ended && lines[i] !~ /^[ \t]*(#|$)/) {
            comment = index(lines[i] "#", "#")
            lines[i] = with_new_names(substr(lines[i], 1, comment - 1)) substr(lines[i], comment)
        }
        was_going_on = goes_on
    }
}

function print_heading(    i, name) {
    print ENVIRON["MARK"]
    print "# It was made from " on_one_line(first) ". The licence of that file, which is stated below, holds for this copy."
    print "# It differs from the original in this:"
    print "# - this heading"
    if (changes["byte order mark"]) print "# - the byte order mark at the start is removed"
    for (i = 1; i <= includes; i++) print "# - the lines of " on_one_line(included[i]) " replace the !include line"
    if (changes["number"]) print "# - " changes["number"] " bodies such as `/s` and `per s` begin with the number 1"
    if (changes["pi"]) print "# - pi is 21053343141|6701487259, which differs from pi by 8.4e-23 of its value"
    if (changes["range"]) print "# - the range up to 2^128 is dropped"
    for (i = 1; i <= ended; i++) {
        name = endings[i]
        if (name in new_name) print "# - " name " is renamed to " new_name[name] ", since a name may not end in a digit"
    }
    if (signed) print "# - the last lines define the second with each prefix that is one sign, such as the microsecond"
}

# print_seconds: defines words such as the microsecond with its Greek letter, which would otherwise be read as the
# plural of a prefix.
function print_seconds(    i, name) {
    print "\n# Seconds with the prefixes that are one sign"
    for (i = 1; i <= signed; i++) {
        name = substr(signs[i], 1, length(signs[i]) - 1)
        if (!((name "s") in defined)) print name "s " name " second"
    }
}

BEGIN {
    first = ENVIRON["FIRST"]
    read_file(first)
    collect_names()
    change_lines()
    print_heading()
    for (i = 1; i <= count; i++) print lines[i]
    if (signed) print_seconds()
}
END

# readable_copy FILE: prints the copy.
readable_copy() { FIRST=$1 MARK=$mark awk "$program" < /dev/null; }

case ${1-} in
    -h | --help) sed -n '2,/^set/s/^# \{0,1\}//p' "${BASH_SOURCE[0]}"; exit ;;
    -?*) fail "there is no option $1; see import_gnu.sh --help" 2 ;;
esac
if [ "$#" -gt 2 ]; then fail 'at most two files are taken; see import_gnu.sh --help' 2; fi
file=${1:-$(installed_file)} || fail 'GNU units is not installed in a usual place: name its definitions.units'
to=${2:-gnu.units}
if [ ! -f "$file" ] || [ ! -r "$file" ]; then fail "cannot read $file"; fi
file=$(readlink -f "$file" && echo /) && file=${file%??} # a name may end in line feeds
if [ "$to" = - ]; then
    readable_copy "$file"
    exit
fi
if [ -e "$to" ] && ! { [ -f "$to" ] && IFS= read -r line < "$to" && [ "$line" = "$mark" ]; }; then
    fail "$to exists and is not a copy that this script made; name another file"
fi
new=$(mktemp -- "$to.XXXXXX") || fail "cannot write a file next to $to"
trap 'rm -f -- "$new"' EXIT
readable_copy "$file" > "$new" || fail "nothing was written to $to"
if ! chmod 644 -- "$new" || ! mv -- "$new" "$to"; then fail "cannot write $to"; fi
trap - EXIT
printf '%s\n' "$to"
