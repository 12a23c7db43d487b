#!/usr/bin/env bash
# Tries tools/install.sh in temporary folders, as a user and as an administrator: which files it installs where, what it
# refuses, that it installs all or nothing, and that --uninstall leaves nothing. The last line is
# `N passed, M failed, K skipped`.
# shellcheck disable=SC2016,SC2034 # commands in single quotes, which use the variables
set -u
script=$(readlink -f "${BASH_SOURCE[0]}") || exit
root=${script%/*/*/*}
install=$root/tools/install.sh
folder=$(mktemp -d)
trap 'chmod -R u+w "$folder"; rm -rf "$folder"' EXIT
chmod 755 "$folder"
export HOME=$folder/home
unset DESTDIR XDG_CONFIG_HOME XDG_STATE_HOME XDG_DATA_HOME
mkdir "$HOME"
cd "$folder" || exit 1
passed=0 failed=0 skipped=0

count() { if [ "$1" = 0 ]; then passed=$((passed + 1)); else failed=$((failed + 1)); fi; }

# expect NAME STATUS PATTERN COMMAND: a shell command ends with this status, and its output matches this pattern.
expect() {
    local output status
    output=$(eval "$4" 2>&1 < /dev/null)
    status=$?
    # shellcheck disable=SC2053 # a pattern
    if [ "$status" = "$2" ] && [[ $output == $3 ]]; then
        count 0
    else
        count 1
        echo "check_install: $1: status $status instead of $2, and it wrote:"
        echo "$output"
    fi
}

# skip REASON CASE
skip() {
    echo "check_install: skipped: $2, since $1"
    skipped=$((skipped + 1))
}

# tree FOLDER: lists all files in it, with modes and checksums.
tree() {
    if ! [ -e "$1" ]; then echo absent; return; fi
    (cd "$1" && find . -printf '%p %y %m %l\n' | sort && find . -type f -print0 | sort -z | xargs -0r sha256sum)
}

# unchanged NAME FOLDER STATUS PATTERN COMMAND: like expect, and the command does not change the folder.
unchanged() {
    local before
    before=$(tree "$2")
    expect "$1" "$3" "$4" "$5"
    [ "$before" = "$(tree "$2")" ]
    count $?
    if [ "$before" != "$(tree "$2")" ]; then echo "check_install: $1: the folder $2 was changed"; fi
}

# without_privilege COMMAND WORD..: takes from root the right to read and write any file. The user stays the same, since
# another user may not reach the repository.
without_privilege() {
    if [ "$(id -u)" = 0 ]; then setpriv --bounding-set=-dac_override,-dac_read_search "$@"; else "$@"; fi
}

# --- arguments ---
expect 'help' 0 'usage: tools/install.sh*--uninstall*DESTDIR*' '$install --help'
expect 'an unknown argument' 2 '*unknown argument: /usr*--help*' '$install /usr'
expect 'a prefix without a value' 2 '*--prefix needs a value*' '$install --prefix'
expect 'a bad name' 2 '*not a name*' '$install --name ../units'
expect 'the name of another command' 2 '*another command*' '$install --name qunits'
expect 'no HOME' 2 '*--prefix is needed*' 'HOME= $install'
expect 'setup with DESTDIR' 2 '*DESTDIR*' 'DESTDIR=/tmp/x $install --setup'
expect 'nothing to uninstall' 1 '*no list of installed files*' '$install --uninstall'
[ -z "$(ls -A "$HOME")" ]
count $?

# --- a user ---
expect 'the first install' 0 '*files are installed under*/.local;*not on your PATH*--setup*' '(umask 077; $install)'
expect 'the path is there' 0 '*installed*' 'PATH=$HOME/.local/bin:$PATH $install; PATH=$HOME/.local/bin:$PATH'
expect 'units' 0 $'\t* 0.9144\n*' '$HOME/.local/bin/units yd m'
expect '.. is the program for users' 0 '' 'cmp $HOME/.local/bin/units "$("$root/tools/built.sh" --static units)"'
expect 'qunits' 0 $'\t* 96.56064\n*' '$HOME/.local/bin/qunits 60 mph to km/h'
expect 'qunits by a link' 0 '96.56064' 'ln -s .local/bin/qunits $HOME/q; $HOME/q -t 60 mph to km/h; rm $HOME/q'
expect 'a file of one'\''s own' 0 '*my.units' '$HOME/.local/bin/qunits --new'
expect '.. which includes the library' 0 '4046.8564' '$HOME/.local/bin/qunits -t acre m^2'
expect '.. and is removed by its user' 0 '' 'rm -r $HOME/.config'
version=$(sed -n 's/^version //p' "$root/release/MADE_FROM")
expect 'the version of the release' 0 "qunits $version" '$HOME/.local/bin/qunits --version'
if [ -e "$HOME/.local/bin/units-lint" ]; then
    printf 'm !\nab 1 m\nab 2 m\n' > twice.units
    expect 'units-lint' 1 'twice.units:3: *' '$HOME/.local/bin/units-lint twice.units'
    expect '.. of the same version' 0 "units-lint $version" '$HOME/.local/bin/units-lint --version'
else
    skip 'there is no tools/lint/lint_units.py' 'units-lint'
fi
if [ -e "$HOME/.local/bin/units-why" ]; then
    expect 'units-why reads the library' 0 $'*\nyard: *share/units/length.units*' '$HOME/.local/bin/units-why yards'
    expect '.. in its first command' 0 $'\tDefinition: 26.8224 m / s\nmph: *' '$HOME/.local/bin/units-why 60 mph'
    expect '.. or a file of one'\''s own' 0 $'*\nyard: *.config/units/my.units*' 'mkdir -p $HOME/.config/units
        printf "m !\nyard 1 m\n" > $HOME/.config/units/my.units; $HOME/.local/bin/units-why yards; rm -r $HOME/.config'
    expect '.. or the built-in definitions' 0 $'*\nyard: *builtin:*' '$HOME/.local/bin/units-why --built-in yards'
    expect '.. of the same version' 0 "units-why $version" '$HOME/.local/bin/units-why --version'
    expect '.. from a clone' 0 $'*\nmph: *share/units/*' '$root/bin/units-why 60 mph'
    expect '.. in qunits' 0 $'*\nyard: *length.units*' '$HOME/.local/bin/qunits --why yards'
    expect '.. for Vim' 0 '' 'grep -q units-why $HOME/.local/share/vim/vimfiles/compiler/units_why.vim'
    expect '.. for editors' 0 '4' \
        'grep -lE "$HOME/.local/share/units/(editors|lsp)/" -r $HOME/.local/share/units/editors | wc -l'
    if command -v nvim > /dev/null; then
        printf 'm !\nbad 3 parsnip\n' > bad.units
        for editors in "$root/share/editors" "$HOME/.local/share/units/editors"; do
            expect "Neovim loads $editors" 0 '*unknown unit: parsnip*' 'HOME=$folder nvim --headless --clean \
                -c "lua dofile(\"$editors/neovim.lua\")" -c "edit bad.units" \
                -c "lua vim.wait(20000, function() return #vim.diagnostic.get(0) > 0 end, 50)" \
                -c "lua print(vim.diagnostic.get(0)[1].message)" -c "qa!"'
        done
    else
        skip 'Neovim is not installed' 'the language server in it (2 cases)'
    fi
    if command -v emacs > /dev/null; then
        expect 'Emacs loads its file' 0 "*($HOME/.local/share/units/lsp/units_lsp.py)*" 'emacs --batch -Q \
            --eval "(progn (defvar eglot-server-programs nil) (provide (quote eglot)))" \
            -l $HOME/.local/share/units/editors/eglot.el --eval "(princ (cddr (car eglot-server-programs)))"'
    else
        skip 'Emacs is not installed' 'its file'
    fi
    expect 'the language server finds it' 0 '{*capabilities*' 'printf "Content-Length: 58\r\n\r\n%s" \
        "{\"jsonrpc\":\"2.0\",\"id\":1,\"method\":\"initialize\",\"params\":{}}" |
        python3 $HOME/.local/share/units/lsp/units_lsp.py | tail -n 1'
    pages='units qunits units-lint units-why'
else
    skip 'units_why is not built' 'units-why'
    expect 'nothing of it is installed' 0 '' 'find $HOME/.local -name "*why*" -o -name lsp -o -name editors'
    pages='units qunits units-lint'
fi
expect 'the schema' 0 '' 'cmp $HOME/.local/share/doc/units/units-why.schema.json $root/share/units-why.schema.json'
expect 'the page' 0 '' 'cmp $HOME/.local/share/doc/units/units.html $root/release/units.html'
if [ -e "$HOME/.local/lib/libunits.so.1" ]; then
    part() { sed -n "/^\`\`\`$1\$/,/^\`\`\`\$/p" "$root/docs/C_AND_PYTHON.md" | sed '/^```/d'; }
    part c > program.c && part sh > compile.sh && ln -s "$root/release" "$root/lib" .
    if command -v gcc > /dev/null && command -v pkg-config > /dev/null; then
        expect 'a C program over the release' 0 '1143|1250' '. ./compile.sh && ./program'
        expect '.. over the install' 0 '1143|1250' 'PKG_CONFIG_PATH=$HOME/.local/lib/pkgconfig; export PKG_CONFIG_PATH
            eval "$(sed 1d compile.sh)" && ./program'
        expect '.. over the shared library' 0 '1143|1250' 'gcc -o program -I$HOME/.local/include program.c \
            -L$HOME/.local/lib -l:libunits.so.1 && LD_LIBRARY_PATH=$HOME/.local/lib ./program'
        printf '#include <stdio.h>\n#include <units.h>\nint main(void) { return puts(units_version()) < 0; }\n' > program.c
        expect '.. of the same version' 0 "$version" '. ./compile.sh && ./program'
    else
        skip 'gcc or pkg-config is not installed' 'a C program over the release, and over the install (4 cases)'
    fi
    for wheel in "$root"/release/*.whl "$HOME"/.local/share/units/python/*.whl; do
        if HOME=$folder python3 -m venv venv 2> /dev/null; then
            expect "pip install $wheel" 0 '*Successfully installed*' 'HOME=$folder venv/bin/pip install --no-index $wheel'
            expect '.. mph' 0 301752/3125 \
                'venv/bin/python -c "from exact_units import Units; print(Units().convert(\"60 mph\", \"km/h\"))"'
            rm -r venv
        else
            skip 'python3 has no venv' "pip install $wheel (2 cases)"
        fi
    done
else
    skip 'the C library is not built' 'the C library and the Python package'
fi
expect 'the modes' 0 '' 'find $HOME/.local -type d ! -perm 755
    find $HOME/.local -type f ! -perm 644 ! -path "*/bin/*" ! -path "*/libexec/*" ! -name import_gnu.sh'
for page in $pages; do
    if command -v man > /dev/null; then
        expect "the page of $page" 0 "*$page - *" "man -M \$HOME/.local/share/man $page"
    else
        skip 'man is not installed' "the page of $page"
    fi
done
expect 'documents that the pages name' 0 '' 'grep -ohE "[^ ]*/share/doc/[^ ]*[.](md|json)" $HOME/.local/share/man/man1/* |
    sed "s/\\\\//g" | sort -u | while read -r file; do ls "$file" > /dev/null; done'
expect '.. are not those of the repository' 1 '' 'grep -E "(^|[ (])(docs/|share/.*json)" $HOME/.local/share/man/man1/*'
unchanged 'again' "$HOME" 0 '*installed*' '$install'
expect 'from another folder, with a relative prefix' 0 '*under '"$folder"'/a  b/c;*' '$install --prefix "a  b/c"'
expect '.. units' 0 $'\t* 0.9144\n*' '"a  b/c/bin/units" yd m'
expect '.. qunits' 0 '96.56064' '"a  b/c/bin/qunits" -t 60 mph to km/h'
expect '.. a path that no !include takes' 2 '*path with blanks*' '"a  b/c/bin/qunits" --new'
expect '.. uninstall' 0 '' '$install --uninstall --prefix "a  b/c/"'
expect '.. leaves nothing' 0 'absent' 'tree "a  b"'

# --- changes after the install ---
echo '# mine' >> "$HOME/.local/share/units/length.units"
unchanged 'a file that was changed' "$HOME" 1 '*length.units was changed*nothing was installed*' '$install'
expect 'uninstall leaves it' 1 '*length.units was changed, so it stays*' '$install --uninstall'
expect '.. and nothing else' 0 "*/share/units/installed*/share/units/length.units" 'find $HOME -type f | sort'
expect 'uninstall by force' 0 '' '$install --uninstall --force'
expect '.. leaves nothing' 0 '' 'ls -A $HOME'
mkdir -p "$HOME/.local/bin"
echo mine > "$HOME/.local/bin/units"
unchanged 'a file of someone else' "$HOME" 1 '*/bin/units exists and was not installed*nothing was installed*' \
    '$install'
mkdir "$HOME/.local/bin/qunits"
unchanged 'a folder in the place of a file' "$HOME" 1 '*/bin/qunits is a folder*' '$install --force'
rmdir "$HOME/.local/bin/qunits"
expect 'by force' 0 '*installed*' '$install --force'
echo 'file 0 /nowhere' >> "$HOME/.local/share/units/installed"
echo old > "$HOME/.local/share/units/old.units"
echo "file $(sha256sum < "$HOME/.local/share/units/old.units" | cut -d ' ' -f 1) $HOME/.local/share/units/old.units" \
    >> "$HOME/.local/share/units/installed"
expect 'a file of an earlier version goes' 0 '*installed*' \
    '$install && ! ls $HOME/.local/share/units/old.units 2> /dev/null'
expect 'a list of one'\''s own folders' 0 '' '$install --uninstall && find $HOME -mindepth 3'
rm -r "$HOME/.local"

# --- an install that fails changes nothing ---
mkdir -p open/bin open/share/man
chmod a-w open/share/man
chmod a+rx "$folder"
if without_privilege test -r "$install" && ! without_privilege test -w open/share/man; then
    unchanged 'a folder that cannot be written' open 1 '*cannot write to*open/share/man*nothing was installed*' \
        'without_privilege "$install" --prefix $folder/open'
else
    skip 'root cannot give up its right to write there' 'a folder that cannot be written'
fi
unchanged 'a disk that is full' "$HOME" 1 '*nothing was installed*' '(ulimit -f 200; $install)'
mkdir path
printf '#!/bin/sh\necho x >> %q\nif [ "$(wc -l < %q)" = 30 ]; then kill -TERM $PPID; fi\nexec %q "$@"\n' \
    "$folder/calls" "$folder/calls" "$(command -v install)" > path/install
chmod +x path/install
unchanged 'a signal' "$HOME" 1 '*nothing was installed*' 'PATH=$folder/path:$PATH $install'
expect 'closed output' 0 '' '$install >&- && $HOME/.local/bin/units yd m > /dev/null && $install --uninstall'
expect 'a reader that went away' 0 '' '$install | true; $HOME/.local/bin/units yd m > /dev/null && $install --uninstall'
expect '.. leaves nothing' 0 '' 'ls -A $HOME'

# --- startup files ---
printf 'one' > "$HOME/.bash_completion"
cp -r "$HOME" before
expect 'setup' 0 '*installed*' '$install --setup && $install --setup'
expect '.. in bash' 0 $'one\n. *completions/units' 'cat $HOME/.bash_completion'
expect '.. in zsh' 0 'fpath=(*site-functions $fpath)' 'cat $HOME/.zshenv'
expect '.. in Vim' 0 '*syntax/units.vim' 'ls $HOME/.vim/pack/*/start/*/syntax/units.vim'
expect '.. is taken back' 0 '' '$install --uninstall && echo >> before/.bash_completion && diff -r before $HOME'
rm "$HOME/.bash_completion"

# --- an administrator ---
stage=$folder/stage
expect 'a stage' 0 '*installed under*/stage/usr;*' 'DESTDIR=$stage $install --prefix /usr'
expect '.. has nothing outside of /usr and /etc' 0 $'etc\nusr' 'ls $stage'
expect '.. names no stage' 1 '' 'grep -rl "$stage" $stage'
expect '.. bash' 0 'complete -r units*' 'tail -n 1 $stage/etc/bash_completion.d/units'
expect '.. works' 0 '96.56064' '$stage/usr/bin/qunits -t 60 mph to km/h'
expect '.. uninstall' 0 '' 'DESTDIR=$stage $install --uninstall --prefix /usr'
expect '.. leaves nothing' 0 '' 'find $stage -mindepth 1'
fish_files=$({ echo units && for page in $pages; do echo "$page.fish"; done; } | LC_ALL=C sort)
expect 'under /usr/local' 0 "$fish_files" \
    'DESTDIR=$stage/ $install --prefix /usr/local > /dev/null && find $stage/etc -type f -printf "%f\n" | LC_ALL=C sort'
expect '.. leaves nothing' 0 '' 'DESTDIR=$stage $install --uninstall --prefix=/usr/local && find $stage -mindepth 1'
expect 'another name' 0 '*installed*' 'DESTDIR=$stage $install --prefix /usr --name exact-units'
expect '.. takes no name of GNU units' 0 '' 'find $stage -name units -o -name units.1 -o -name _units'
expect '.. claims nothing in bash' 1 '' 'ls $stage/etc 2> /dev/null || exit 1'
expect '.. in qunits' 0 '96.56064' '$stage/usr/bin/qunits -t 60 mph to km/h'
expect '.. in the program' 0 '0.9144' '$stage/usr/bin/exact-units -t yd m'
expect '.. not in units-why' 1 '' 'grep -r exact-units-why $stage'
expect '.. in the page' 0 '.TH EXACT-UNITS 1 *' 'grep "^[.]TH" $stage/usr/share/man/man1/exact-units.1'
if command -v lexgrog > /dev/null; then
    expect '.. in its heading' 0 '*exact-units - *' 'lexgrog $stage/usr/share/man/man1/exact-units.1'
else
    skip 'man-db is not installed' 'the heading of the page'
fi
mkdir -p gnu/usr/bin
echo gnu > gnu/usr/bin/units
unchanged 'over the program of another package' gnu 1 '*usr/bin/units exists*nothing was installed*' \
    'DESTDIR=$folder/gnu $install --prefix /usr'
expect 'beside it' 0 '*installed*gnu' \
    'DESTDIR=$folder/gnu $install --prefix /usr --name exact-units; cat gnu/usr/bin/units'

echo "$passed passed, $failed failed, $skipped skipped"
[ "$failed" = 0 ]
