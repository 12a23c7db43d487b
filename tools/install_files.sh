# shellcheck shell=bash disable=SC2154 # tools/install.sh sets root, prefix, name and work, and reads this file
# SPDX-License-Identifier: MIT OR Apache-2.0
# The files that tools/install.sh installs: the arrays modes, sources and places have one element for each.
modes=() sources=() places=()

# add MODE SOURCE PLACE
add() {
    [ -r "$2" ] || give_up "the repository lacks $2"
    modes+=("$1") sources+=("$2") places+=("$3")
}

# add_edited MODE SOURCE PLACE SCRIPT: adds a copy that a script of sed edited.
add_edited() {
    local copy=$work/edited.${#places[@]}
    sed -E "$4" "$2" > "$copy"
    add "$1" "$copy" "$3"
}

# add_all MODE FOLDER FILE..: adds files, which keep their names.
add_all() {
    local mode=$1 folder=$2 file
    shift 2
    for file in "$@"; do add "$mode" "$file" "$folder/${file##*/}"; done
}

# is_system_prefix: whether bash and zsh search the prefix for completions, and /etc belongs to it.
is_system_prefix() { [[ $prefix = /usr || $prefix = /usr/local ]]; }

# zsh_folder: prints the folder that zsh searches. Debian's zsh does not search /usr/share/zsh/site-functions.
zsh_folder() {
    if [ "$prefix" = /usr ] && [ -e /etc/debian_version ]; then
        echo "$prefix/share/zsh/vendor-completions"
    else
        echo "$prefix/share/zsh/site-functions"
    fi
}

# fish_folder: prints the folder that fish searches. Without XDG_DATA_DIRS it searches no folder under /usr/local.
fish_folder() {
    case $prefix in /usr/local) echo /etc/fish/completions ;; *) echo "$prefix/share/fish/vendor_completions.d" ;; esac
}

# as_replacement TEXT: the text in the right side of a command s#..#..# of sed.
as_replacement() { printf '%s\n' "$1" | sed 's/[&#\\]/\\&/g'; }

# as_roff TEXT: a path in a manual page, where a plain - is a hyphen.
as_roff() { as_replacement "${1//-/\\-}"; }

add_programs() {
    local program
    program=$("$root/tools/built.sh" --static units) || give_up 'there is no program to install'
    add 755 "$program" "$prefix/bin/$name"
    add_edited 755 "$root/bin/qunits" "$prefix/bin/qunits" "s/^name=units .*/name=$name/"
    add_all 644 "$prefix/share/qunits" "$root"/share/qunits/{functions,terminal}.sh "$root"/share/qunits/{first.units,session_help.txt}
    if [ -e "$root/tools/lint/lint_units.py" ]; then
        add_edited 755 "$root/bin/units-lint" "$prefix/bin/units-lint" "s/^name=units .*/name=$name/"
        add_all 644 "$prefix/share/$name/lint" "$root"/tools/lint/{lint_units,unit_answers,unit_files,unit_names}.py
    fi
}

# add_units_why: adds units-why and the command that runs it over the library, its language server, and the files for
# editors, which name the path of the server.
add_units_why() {
    local file server=$prefix/share/$name/lsp/units_lsp.py
    add 755 "$units_why" "$prefix/libexec/$name/units-why"
    add_edited 755 "$root/bin/units-why" "$prefix/bin/units-why" "s/^name=units .*/name=$name/"
    add 644 "$root/tools/units_lsp.py" "$server"
    add 644 "$root/tools/units_lsp_files.py" "${server%/*}/units_lsp_files.py"
    for file in "$root"/share/editors/*; do
        add_edited 644 "$file" "$prefix/share/$name/editors/${file##*/}" \
            "/\.\.\/tools/!s#(/usr/local/share/units/lsp|\btools)/units_lsp\.py#$(as_replacement "$server")#g
             s#/usr/local/share/units/editors#$(as_replacement "$prefix/share/$name/editors")#g"
    done
}

# has_c_library: whether the repository has the released C library of its present sources; a tarball has no sources.
has_c_library() {
    [ -e "$root/release/libunits.so.1" ] \
        && { ! [ -e "$root/tools/release/release.sh" ] || "$root/tools/release/release.sh" --check units_c > /dev/null; }
}

# add_c_library: adds the C library, and the wheel of the Python package, which has a copy of it.
add_c_library() {
    add_all 644 "$prefix/lib" "$root"/release/libunits.{a,so.1}
    add 644 "$root/lib/units.h" "$prefix/include/units.h"
    add_edited 644 "$root/release/libunits.pc" "$prefix/lib/pkgconfig/libunits.pc" \
        "s#^includedir=.*#includedir=\${pcfiledir}/../../include#; s#^libdir=.*#libdir=\${pcfiledir}/..#"
    add_all 644 "$prefix/share/$name/python" "$root"/release/*.whl
}

add_library() {
    add_all 644 "$prefix/share/$name" "$root"/share/units/*.units "$root/release/MADE_FROM"
    if [ -e "$root/tools/import_gnu.sh" ]; then add_all 755 "$prefix/share/$name" "$root/tools/import_gnu.sh"; fi
}

# add_pages: adds the manual pages, with the installed names of the program and its documents.
add_pages() {
    local page pages place_edits edits man=$root/share/man/man1
    place_edits="s#\\bdocs/([A-Z_]+\\.md)#$(as_roff "$prefix/share/doc/$name/docs")/\\1#g
        s#\\btools/import_gnu\\.sh#$(as_roff "$prefix/share/$name")/import_gnu.sh#g
        s#\\bshare/(units.*\\.schema\\.json)#$(as_roff "$prefix/share/doc/$name")/\\1#g"
    edits=$place_edits
    if [ "$name" != units ]; then
        edits+="
            s#^\\.TH UNITS #.TH $(as_replacement "${name^^}") #
            s#^units \\\\- #$(as_roff "$name") \\\\- #
            s#^(\\.[BI]R? )units( |\$)#\\1$(as_roff "$name")\\2#
            s#^(  \\\$ |.*\\| )units #\\1$name #"
    fi
    add_edited 644 "$man/units.1" "$prefix/share/man/man1/$name.1" "$edits"
    add_edited 644 "$man/qunits.1" "$prefix/share/man/man1/qunits.1" "$edits"
    if [ -e "$root/tools/lint/lint_units.py" ]; then
        add_edited 644 "$man/units-lint.1" "$prefix/share/man/man1/units-lint.1" "$place_edits
            s#^\\.BR units \\(1\\)#.BR $(as_roff "$name") (1)#"
    fi
    if [ "$units_why" ]; then
        add_edited 644 "$man/units-why.1" "$prefix/share/man/man1/units-why.1" "$place_edits
            s#^(\\.BR? )units( \\(1\\)| \\\\)#\\1$(as_roff "$name")\\2#"
    fi
    mapfile -t pages <<< "$(grep -ohE '\bdocs/[A-Z_]+\.md' "$man"/*.1 | sort -u)"
    for page in "${pages[@]}"; do
        add 644 "$root/$page" "$prefix/share/doc/$name/$page"
    done
}

add_documents() {
    local file
    for file in README.md CHANGELOG.md COPYING.md; do
        if [ -e "$root/$file" ]; then add_all 644 "$prefix/share/doc/$name" "$root/$file"; fi
    done
    add_all 644 "$prefix/share/doc/$name/examples" "$root"/examples/*
    add_all 644 "$prefix/share/doc/$name" "$root/release/units.html" "$root/share/units-why.schema.json"
    add 644 "$root/docs/C_AND_PYTHON.md" "$prefix/share/doc/$name/docs/C_AND_PYTHON.md"
}

# add_completions: adds the completions. Each file is for all commands, and is installed under the name of each.
add_completions() {
    local completions=$root/share/completions command edits="s/\\bunits qunits\\b/$name qunits/"
    for command in "$name" qunits units-lint ${units_why:+units-why}; do
        add_edited 644 "$completions/units.bash" "$prefix/share/bash-completion/completions/$command" "$edits"
        add_edited 644 "$completions/units.fish" "$(fish_folder)/$command.fish" "$edits"
    done
    add_edited 644 "$completions/_units" "$(zsh_folder)/_$name" "$edits"
    if [ "$name" = units ] && is_system_prefix; then
        add 644 "$completions/unclaim.bash" /etc/bash_completion.d/units
    fi
}

# add_vim_files: adds the files for Vim, which searches /usr/share/vim/vimfiles, and Neovim, which searches
# share/nvim/site of each usual prefix.
add_vim_files() {
    local file place edits="s/makeprg=units(\\\\)/makeprg=$name\1/"
    for file in "$root"/share/vim/*/*.vim; do
        place=${file#"$root/share/vim/"}
        if [ "$place" = compiler/units_why.vim ] && [ -z "$units_why" ]; then continue; fi
        add_edited 644 "$file" "$prefix/share/vim/vimfiles/$place" "$edits"
        add_edited 644 "$file" "$prefix/share/nvim/site/$place" "$edits"
    done
}

collect_files() {
    # The release may be of other sources than the program that is built here.
    units_why=$("$root/tools/built.sh" --static units_why 2> /dev/null) || units_why=
    add_programs
    if [ "$units_why" ]; then add_units_why; else say 'units-why is left out: it is not built'; fi
    add_library
    if has_c_library; then add_c_library; else say 'the C library and the Python package are left out: they are not built'; fi
    add_pages
    add_documents
    add_completions
    add_vim_files
}
