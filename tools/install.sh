#!/usr/bin/env bash
# usage: tools/install.sh [--prefix PREFIX] [--name NAME] [--setup] [--force]
#        tools/install.sh --uninstall [--prefix PREFIX] [--name NAME] [--force]
#        tools/install.sh --help
#
# Installs under PREFIX, which is ~/.local by default: the programs units, qunits, units-why and units-lint, the library of
# units, the C library, the Python package (PREFIX/share/NAME/python/*.whl, for pip), the page for a browser, manual
# pages, documents, examples, completions for bash, zsh and fish, the language server, and files for Vim and other editors
# (PREFIX/share/NAME/editors).
#
#   --name NAME   the name of the program, its manual page and its folders; units by default
#   --setup       have your bash, zsh and Vim load the files too, if they do not search PREFIX
#   --uninstall   remove the files in the list PREFIX/share/NAME/installed; the files that qunits wrote for you stay in
#                 ~/.config/units (your definitions) and ~/.local/state/units (the history)
#   --force       overwrite or remove files that this script did not install, or that were changed since; they are
#                 not restored by --uninstall
#
# If DESTDIR is set, all files go below that folder, and PREFIX is the place from which they will be used.
# All files are checked and copied before the first one is put in place. The status is 0 if everything was done, 1 if
# nothing was, and 2 for wrong arguments.
set -euo pipefail
# SPDX-License-Identifier: MIT OR Apache-2.0
umask 022
script=$(readlink -f "${BASH_SOURCE[0]}")
root=${script%/*/*}
. "$root/tools/install_files.sh"

say() { echo "install: $*" >&2; }
refuse() { say "$*; see tools/install.sh --help"; exit 2; }
give_up() { say "$*"; exit 1; }

prefix=${HOME:+$HOME/.local} name=units action=install force=no setup=no
while [ "$#" -gt 0 ]; do
    case $1 in
        --help | -h) sed -n '2,/^set/s/^# \{0,1\}//p' "$script" && exit ;;
        --prefix | --name) [ "$#" -gt 1 ] || refuse "$1 needs a value"
            declare "${1#--}=$2"
            shift ;;
        --prefix=* | --name=*) option=${1%%=*}
            declare "${option#--}=${1#*=}" ;;
        --setup) setup=yes ;;
        --uninstall) action=uninstall ;;
        --force) force=yes ;;
        *) refuse "unknown argument: $1" ;;
    esac
    shift
done
[[ $name =~ ^[A-Za-z][A-Za-z0-9._+-]*$ ]] || refuse "not a name for a program: $name"
[[ $name != qunits && $name != units-lint && $name != units-why ]] || refuse "$name is the name of another command"
[[ $prefix ]] || refuse 'there is no HOME, so --prefix is needed'
[[ $prefix = /* ]] || prefix=$PWD/$prefix
while [[ $prefix = ?*/ ]]; do prefix=${prefix%/}; done
[[ $prefix$(printf x) != *$'\n'* ]] || refuse 'the prefix has a line feed'
destdir=${DESTDIR:-}
while [[ $destdir = */ ]]; do destdir=${destdir%/}; done
[[ -z $destdir || $destdir = /* ]] || destdir=$PWD/$destdir
[ "$setup" = no ] || [ -z "${DESTDIR:-}" ] || refuse '--setup changes the files of a user, and DESTDIR is set'
list=$prefix/share/$name/installed

work=$(mktemp -d)
trap 'rm -rf "$work"' EXIT

declare -A sum_of=() sum_now=() # the checksums of each listed file, by place: when it was installed, and now
declare -a folders=() # the folders that the install made, the outer ones first
read_list() {
    local line place at present=() sums
    if [ ! -e "$destdir$list" ]; then return; fi
    while IFS= read -r line; do
        case $line in
            'folder '*) folders+=("${line#folder }") ;;
            'file '*) line=${line#file } && sum_of[${line#* }]=${line%% *} ;;
        esac
    done < "$destdir$list"
    for place in "${!sum_of[@]}"; do
        if [ -f "$destdir$place" ] && [ -r "$destdir$place" ] && [ ! -L "$destdir$place" ]; then present+=("$place"); fi
    done
    if [ "${#present[@]}" = 0 ]; then return; fi
    sha256sum -z -- "${present[@]/#/$destdir}" > "$work/sums"
    mapfile -d '' -t sums < "$work/sums"
    for at in "${!present[@]}"; do sum_now[${present[at]}]=${sums[at]%% *}; done
}

# is_ours PLACE: whether the file at this place is the one that this script installed.
is_ours() { [ "${sum_of[$1]:-}" ] && [ "${sum_of[$1]}" = "${sum_now[$1]:-}" ]; }

# owner_of FILE: prints the Debian package of the file, if it has one.
owner_of() {
    local owner
    if owner=$(dpkg -S "$1" 2> /dev/null); then echo " (it belongs to the package ${owner%%:*})"; fi
}

# problem_of PLACE: prints why the file cannot be put there, or nothing.
problem_of() {
    local target=$destdir$1 folder=$destdir${1%/*}
    if [ -d "$target" ]; then echo "$target is a folder"; return; fi
    if [ -e "$target" ] || [ -L "$target" ]; then
        if [ "$force" = yes ] || is_ours "$1"; then :
        elif [ "${sum_of[$1]:-}" ]; then echo "$target was changed since it was installed"
        else echo "$target exists and was not installed by this script$(owner_of "$target")"; fi
    fi
    while [ ! -e "$folder" ] && [ "$folder" ]; do folder=${folder%/*}; done
    if [ ! -d "${folder:-/}" ] || [ ! -w "${folder:-/}" ]; then echo "cannot write to ${folder:-/}"; fi
}

check_all() {
    local place problems
    problems=$(for place in "${places[@]}"; do problem_of "$place"; done | sort -u)
    if [ "$problems" ]; then
        while read -r line; do say "$line"; done <<< "$problems"
        give_up 'nothing was installed (--name installs the program under another name; --force overwrites files)'
    fi
}

# make_folder FOLDER: makes a folder below DESTDIR and those above it, and adds the new ones to new_folders.
make_folder() {
    if [ -d "$destdir$1" ]; then return; fi
    if [ "${1%/*}" ]; then make_folder "${1%/*}"; elif [ "$destdir" ]; then mkdir -p "$destdir"; fi
    mkdir "$destdir$1"
    new_folders+=("$1")
}

# unstage: undoes stage_all.
unstage() {
    local place at
    for place in "${places[@]}" "$list"; do rm -f "$destdir$place.new-$$"; done
    for ((at = ${#new_folders[@]} - 1; at >= 0; at--)); do rmdir "$destdir${new_folders[at]}" || :; done
    rm -rf "$work"
    say 'nothing was installed'
}

write_list() {
    local at folder sums
    for folder in ${folders[@]+"${folders[@]}"} ${new_folders[@]+"${new_folders[@]}"}; do echo "folder $folder"; done
    sha256sum -z -- "${sources[@]}" > "$work/sums"
    mapfile -d '' -t sums < "$work/sums"
    for at in "${!places[@]}"; do echo "file ${sums[at]%% *} ${places[at]}"; done
}

# stage_all: copies each file next to its place, so that only renames are left to do.
stage_all() {
    local at
    trap unstage EXIT
    trap 'exit 1' INT TERM HUP
    make_folder "${list%/*}"
    for at in "${!places[@]}"; do
        make_folder "${places[at]%/*}"
        install -m "${modes[at]}" "${sources[at]}" "$destdir${places[at]}.new-$$" || exit 1
    done
    write_list > "$work/installed"
    install -m 644 "$work/installed" "$destdir$list.new-$$"
}

# put_all: renames the staged files, the list first, and removes files of an earlier version.
put_all() {
    local place
    trap '' INT TERM HUP PIPE
    trap 'rm -rf "$work"' EXIT
    mv -fT "$destdir$list.new-$$" "$destdir$list"
    for place in "${places[@]}"; do
        mv -fT "$destdir$place.new-$$" "$destdir$place"
        unset "sum_of[$place]"
    done
    for place in "${!sum_of[@]}"; do
        if is_ours "$place"; then rm -f "$destdir$place"; fi
    done
}

# --- startup files of a user ---

bash_file=${HOME:-}/.bash_completion zsh_file=${HOME:-}/.zshenv vim_link=${HOME:-}/.vim/pack/$name/start/$name
bash_line=". $(printf %q "$prefix/share/bash-completion/completions/$name")"
zsh_line="fpath=($(printf %q "$prefix/share/zsh/site-functions") \$fpath)"

# add_line FILE LINE
add_line() {
    if ! has_line "$1" "$2"; then
        if [ -s "$1" ] && [ "$(tail -c 1 "$1")" ]; then echo >> "$1"; fi
        printf '%s\n' "$2" >> "$1"
    fi
}

has_line() { grep -qxF -- "$2" "$1" 2> /dev/null; }

# remove_line FILE LINE: removes the line, and the file if it is then empty.
remove_line() {
    if has_line "$1" "$2"; then
        grep -vxF -- "$2" "$1" > "$work/rest" || :
        cat "$work/rest" > "$1"
        if [ ! -s "$1" ]; then rm "$1"; fi
    fi
}

set_up() {
    add_line "$bash_file" "$bash_line"
    add_line "$zsh_file" "$zsh_line"
    mkdir -p "${vim_link%/*}"
    ln -sfnT "$prefix/share/vim/vimfiles" "$vim_link"
}

undo_setup() {
    remove_line "$bash_file" "$bash_line"
    remove_line "$zsh_file" "$zsh_line"
    if [ "$(readlink "$vim_link")" = "$prefix/share/vim/vimfiles" ]; then
        rm "$vim_link"
        (cd "${HOME:-/}" && rmdir -p --ignore-fail-on-non-empty ".vim/pack/$name/start")
    fi
}

# --- the two actions ---

# advise: prints what the user has to do so that the installed files are found.
advise() {
    case :$PATH: in *:"$prefix/bin":*) ;; *) echo "$prefix/bin is not on your PATH" ;; esac
    if ! is_system_prefix && [ "$setup" = no ] && ! has_line "$bash_file" "$bash_line"; then
        echo "bash, zsh and Vim do not look for completions and syntax files there; --setup has them do so"
    fi
    if [ ! -e /usr/share/bash-completion/bash_completion ]; then
        printf 'bash-completion is not installed; without it, completions in bash need this line in ~/.bashrc:\n%s\n' \
            "$bash_line"
    fi
}

install_all() {
    new_folders=()
    read_list
    collect_files
    check_all
    stage_all
    put_all
    if [ "$setup" = yes ]; then set_up; fi
    {
        echo "${#places[@]} files are installed under $destdir$prefix; $destdir$list lists them"
        if [ -z "$destdir" ]; then advise; fi
    } 2> /dev/null || :
}

uninstall_all() {
    local place folder at removable=() edits=()
    [ -e "$destdir$list" ] || give_up "there is no list of installed files, $destdir$list"
    read_list
    for place in "${!sum_of[@]}"; do
        folder=$destdir${place%/*}
        [ ! -d "$folder" ] || [ -w "$folder" ] || give_up "cannot write to $folder; nothing was removed"
    done
    trap '' INT TERM HUP PIPE
    for place in "${!sum_of[@]}"; do
        if [ ! -e "$destdir$place" ] || is_ours "$place" || [ "$force" = yes ]; then
            removable+=("$destdir$place")
        else
            edits+=("$place")
        fi
    done
    rm -f -- ${removable[@]+"${removable[@]}"}
    if [ -z "$destdir" ]; then undo_setup; fi
    if [ "${#edits[@]}" -gt 0 ]; then
        printf '%s\n' "${edits[@]}" | sort | while read -r place; do say "$destdir$place was changed, so it stays"; done
        give_up 'the rest was removed (--force removes all of it)'
    fi
    rm "$destdir$list"
    for ((at = ${#folders[@]} - 1; at >= 0; at--)); do
        rmdir --ignore-fail-on-non-empty "$destdir${folders[at]}" 2> /dev/null || :
    done
}

"${action}_all"
