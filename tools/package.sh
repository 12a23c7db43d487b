#!/usr/bin/env bash
# Builds the Debian packages and the tarball of a release, a wheel without the C library, and their checksums:
#
#     tools/package.sh [FOLDER]
#
# writes to FOLDER, by default `out` in the repository:
#     exact-units_VERSION-1_amd64.deb           programs, library of units, manual pages, completions, editors
#     libexact-units1_VERSION-1_amd64.deb       the shared library
#     libexact-units-dev_VERSION-1_amd64.deb    header, static library, pkg-config file
#     python3-exact-units_VERSION-1_all.deb     the Python package
#     exact-units-doc_VERSION-1_all.deb         documents, examples, the page for a browser
#     exact-units-VERSION-x86_64-linux.tar.gz   all of this, with tools/install.sh
#     exact_units-VERSION-py3-none-any.whl      the Python package without the C library
#     SHA256SUMS
# The version and the date are those of share/man/man1/units.1.
#
# The program is called exact-units: Debian's package `units` has /usr/bin/units, registers no alternative for it, and can
# be installed together with this one. All programs and libraries are the released ones, byte for byte, so that their
# checksums can be compared. Two builds of the same sources are equal byte for byte, whatever the folder, the time and the
# umask; SOURCE_DATE_EPOCH replaces the date.
#
# The programs contain code of crates of the Rattle kit. Their licences are read from the kit, so `rt` has to be on the
# path. Exit status: 0 if all files were written, 1 if something is missing, 2 for wrong arguments.
set -eu
script=$(readlink -f "${BASH_SOURCE[0]}")
root=${script%/*/*}
. "$root/tools/sources.sh"
name=exact-units
maintainer=${MAINTAINER:-Juniperwall maintainers <maintainers@users.noreply.juniperwall.example>}
library_folder=usr/lib/x86_64-linux-gnu
umask 022
export LC_ALL=C TZ=UTC

fail() {
    echo "package: $1" >&2
    exit "${2:-1}"
}

# heading_field NUMBER: prints a quoted field of the .TH line of the manual page: 1 is the date, 2 the name and version.
heading_field() { sed -n '/^\.TH /{s/^[^"]*//;p;q;}' "$root/share/man/man1/units.1" | cut -d '"' -f $((2 * $1)); }

# field WORD: prints the text after this word in release/MADE_FROM.
field() { sed -n "s/^$1 //p" "$root/release/MADE_FROM"; }

# kit_crates: prints the crates of the kit that are linked into the programs and the C library, directly or indirectly.
kit_crates() {
    local pending=() crates=' ' crate
    mapfile -t pending < <(for crate in units units_why units_c; do lines_of "$crate"; done \
        | cut -d : -f 2 | tr ' ' '\n' | grep . | sort -u)
    pending+=(std)
    while [ "${#pending[@]}" -gt 0 ]; do
        crate=${pending[0]}
        pending=("${pending[@]:1}")
        if [ ! -d "$kit/rlibs/$crate.rlib" ] || [[ $crates = *" $crate "* ]]; then continue; fi
        crates+="$crate "
        mapfile -t -O "${#pending[@]}" pending < <(grep -a '^dep ' "$kit/rlibs/$crate.rlib/format" | cut -d ' ' -f 2)
    done
    tr ' ' '\n' <<< "$crates" | grep . | sort
}

# licence_files CRATE: prints the files of the licences that apply: of MIT and Apache, that of MIT.
licence_files() {
    local file
    for file in "$kit/rattle/$1"/LICENSE*; do
        if [ ! -e "$file" ]; then continue; fi
        if [ "${file##*/}" != LICENSE-APACHE ] || [ ! -e "$kit/rattle/$1/LICENSE-MIT" ]; then echo "$file"; fi
    done
}

# print_licence FILE FORM: prints a licence. The form `debian` refers to Debian's own copy of the Apache licence, as its
# packages have to.
print_licence() {
    if [ "$2" = debian ] && head -n 1 "$1" | grep -q 'Apache License'; then
        echo 'The Apache License, Version 2.0, is in /usr/share/common-licenses/Apache-2.0.'
    else
        cat "$1"
    fi
}

# kit_licences FORM: prints the statement of the kit on each crate, and its licence.
kit_licences() {
    local crate file files silent=()
    while read -r crate; do
        mapfile -t files < <(licence_files "$crate")
        if [ "${#files[@]}" = 0 ]; then
            silent+=("$crate")
            continue
        fi
        printf '\n\n--- The crate %s of the kit ---\n\n' "$crate"
        sed -n '3{s/`//g;p;}' "$kit/rattle/$crate/README.md" 2> /dev/null | fold -s -w 78 | sed 's/ *$//'
        for file in "${files[@]}"; do
            echo
            print_licence "$file" "$1"
        done
    done < <(kit_crates)
    if [ "${#silent[@]}" -gt 0 ]; then
        printf '\n\n--- Other crates of the kit ---\n\nThe kit states no licence for these: %s.\n' "${silent[*]}"
    fi
}

# write_copyright FORM: prints the licence of the repository and those of the crates in the programs.
write_copyright() {
    printf 'exact units %s\n\n' "$version"
    cat "$root/COPYING.md"
    printf '\n\nThe programs %s and units-why contain code of the C library musl.\n\n' "$name"
    cat "$root/tools/release/static/MUSL_LICENCE"
    printf '\n\nThe programs and the C library were built by %s and contain code of the following crates of that kit.\n' \
        "$(field toolchain)"
    kit_licences "$1"
}

# set_times FOLDER: sets the times of all files below the folder to the date of the release.
set_times() { find "$1" -exec touch --no-dereference --date "@$epoch" {} +; }

# move PACKAGE FOLDER FILE..: moves installed files to a folder of a package.
move() {
    local to=$work/$1/$2
    shift 2
    mkdir -p "$to" && mv "$@" "$to"
}

# stage_files: installs all files below the folder of the package exact-units, and moves those of the others.
stage_files() {
    local stage=$work/$name share=$work/$name/usr/share page
    DESTDIR=$stage "$root/tools/install.sh" --prefix /usr --name "$name" > /dev/null
    if [ -d "$share/zsh/site-functions" ]; then mv "$share/zsh/site-functions" "$share/zsh/vendor-completions"; fi
    rm "$share/$name/installed"
    find "$share/man" -type f -name '*.1' | while read -r page; do gzip -9n "$page"; done

    move libexact-units1 "$library_folder" "$stage/usr/lib/libunits.so.1"
    move libexact-units-dev "$library_folder" "$stage/usr/lib/libunits.a"
    move libexact-units-dev usr/include "$stage/usr/include/units.h"
    ln -s libunits.so.1 "$work/libexact-units-dev/$library_folder/libunits.so"
    mkdir "$work/libexact-units-dev/$library_folder/pkgconfig"
    sed "s#^includedir=.*#includedir=/usr/include#; s#^libdir=.*#libdir=/$library_folder#" "$root/release/libunits.pc" \
        > "$work/libexact-units-dev/$library_folder/pkgconfig/libunits.pc"
    rm -r "$stage/usr/lib" "$stage/usr/include" "$share/$name/python"

    mkdir -p "$work/python3-exact-units/usr/lib/python3/dist-packages"
    python3 -m zipfile -e "$wheel" "$work/python3-exact-units/usr/lib/python3/dist-packages"
    rm "$work/python3-exact-units/usr/lib/python3/dist-packages"/*.dist-info/RECORD
    move exact-units-doc "usr/share/doc/$name" "$share/doc/$name"/*
}

# write_documents PACKAGE: writes the licence and the changelogs.
write_documents() {
    local folder=$work/$1/usr/share/doc/$1
    mkdir -p "$folder"
    write_copyright debian > "$folder/copyright"
    gzip -9nc "$root/CHANGELOG.md" > "$folder/changelog.gz"
    printf '%s (%s-1) unstable; urgency=medium\n\n  * Release %s; changelog.gz says what it changes.\n\n -- %s  %s\n' \
        "$name" "$version" "$version" "$maintainer" "$(date -R -d "@$epoch")" \
        | gzip -9nc > "$folder/changelog.Debian.gz"
}

# own_fields PACKAGE: prints the fields of its control file that differ from those of the others.
own_fields() {
    case $1 in
        exact-units) cat <<- END ;;
			Architecture: amd64
			Section: utils
			Recommends: python3, rlwrap
			Suggests: exact-units-doc, python3-exact-units, parallel, units
			Description: unit converter that computes in exact fractions
			 It reads the definition files of GNU units, computes in reduced fractions of
			 127 bits, and gives an exact answer, or says why there is none. Columns of CSV
			 files and sessions with live definitions are part of it. The program is proved
			 to meet its contracts. It is called exact-units, and qunits is the command for
			 every day; units-why shows where a value comes from, and units-lint and a
			 language server check definition files. Debian's own units may be installed
			 beside it.
		END
        libexact-units1) cat <<- END ;;
			Architecture: amd64
			Multi-Arch: same
			Section: libs
			Depends: libc6 (>= 2.14)
			Description: unit converter that computes in exact fractions (shared library)
			 The library has the conversions of exact-units over definitions in memory. Its
			 calls are proved to meet their contracts.
		END
        libexact-units-dev) cat <<- END ;;
			Architecture: amd64
			Section: libdevel
			Depends: libexact-units1 (= $version-1)
			Description: unit converter that computes in exact fractions (development files)
			 The header, the static library and the pkg-config file of libunits, which has
			 the conversions of exact-units over definitions in memory.
		END
        python3-exact-units) cat <<- END ;;
			Architecture: all
			Section: python
			Depends: python3 (>= 3.9), libexact-units1 (>= $version)
			Recommends: python3-numpy
			Description: unit converter that computes in exact fractions (Python)
			 The package exact_units converts units and computes with quantities in exact
			 fractions, over the C library of exact-units and its library of units.
		END
        exact-units-doc) cat <<- END ;;
			Architecture: all
			Section: doc
			Breaks: exact-units (<< $version)
			Replaces: exact-units (<< $version)
			Suggests: exact-units
			Description: unit converter that computes in exact fractions (documentation)
			 Documents and examples of exact-units, and a page for a browser that has the
			 whole program and sends nothing.
		END
    esac
}

# write_scripts PACKAGE: writes what dpkg runs, and the dependency that programs get that are linked with the library.
write_scripts() {
    local control=$work/$1/DEBIAN
    case $1 in
        libexact-units1)
            echo "libunits 1 libexact-units1 (>= $version)" > "$control/shlibs"
            echo 'activate-noawait ldconfig' > "$control/triggers" ;;
        python3-exact-units)
            printf '#!/bin/sh\nset -e\npy3compile -p %s\n' "$1" > "$control/postinst"
            printf '#!/bin/sh\nset -e\npy3clean -p %s\n' "$1" > "$control/prerm"
            chmod 755 "$control/postinst" "$control/prerm" ;;
    esac
}

build_package() {
    local package=$1 stage=$work/$1
    write_documents "$package"
    find "$stage" -type d -exec chmod 755 {} +
    mkdir "$stage/DEBIAN"
    (cd "$stage" && find usr -type f -print0 | sort -z | xargs -0 md5sum) > "$stage/DEBIAN/md5sums"
    write_scripts "$package"
    {
        echo "Package: $package"
        if [ "$package" != "$name" ]; then echo "Source: $name"; fi
        printf 'Version: %s-1\nMaintainer: %s\nPriority: optional\n' "$version" "$maintainer"
        printf 'Installed-Size: %s\n' \
            "$(find "$stage/usr" -type f -printf '%s\n' | awk '{ n += int(($1 + 1023) / 1024) } END { print n }')"
        own_fields "$package"
    } > "$stage/DEBIAN/control"
    set_times "$stage"
    SOURCE_DATE_EPOCH=$epoch dpkg-deb --root-owner-group --threads-max=1 -Zxz --build "$stage" \
        "$work/${package}_$version-1_$(sed -n 's/^Architecture: //p' "$stage/DEBIAN/control").deb" > /dev/null
}

# tarball_files: prints the files and folders of the tarball, as its README names them.
tarball_files() {
    cat <<- END
		bin/units          converts, for scripts
		bin/qunits         converts, for everyday use: bin/qunits 60 mph to km/h
		bin/units-why      shows the definitions that a value comes from
		bin/units-lint     finds traps in definition files; needs Python 3.9
		libexec            the program of bin/units-why
		share              the library of units, manual pages, completions, files for Vim and other editors
		lib/units.h        the header of the C library
		release            the C library, the Python package (pip install release/*.whl), the page for a browser
		docs               documents
		examples           definition files
		tools/install.sh   installs all of this below ~/.local; --help says more
		tools/install_files.sh   its list of files
		tools/built.sh     names the programs to it
		tools/import_gnu.sh   copies GNU's definitions so that they are read without notices
		tools/units_lsp.py   the language server; share/editors/README.md says how to load it
		tools/units_lsp_files.py   a part of it
		tools/lint         the parts of units-lint
		CHANGELOG.md       what each version changes
		COPYING.md         the licence
		LICENCES           the licences of the libraries in the programs
		CITATION.cff       how to cite this version
		README             this file
	END
}

# build_tarball: it has the layout of the repository without the sources; bin/units is the program, and that of
# bin/units-why is in libexec, as in an install.
build_tarball() {
    local top=$work/$name-$version file
    mkdir -p "$top/bin" "$top/tools" "$top/lib" "$top/release" "$top/docs"
    install -m 755 "$root/release/units-x86_64-linux-static" "$top/bin/units"
    install -D -m 755 "$root/release/units-why-x86_64-linux-static" "$top/libexec/units/units-why"
    for file in bin/qunits bin/units-why bin/units-lint tools/install.sh tools/import_gnu.sh tools/units_lsp.py; do
        install -m 755 "$root/$file" "$top/$file"
    done
    install -m 644 "$root/tools/install_files.sh" "$root/tools/units_lsp_files.py" "$top/tools"
    install -m 644 "$root/lib/units.h" "$top/lib"
    grep -ohE '\bdocs/[A-Z_]+\.md' "$root"/share/man/man1/*.1 | cat - <(printf 'docs/%s.md\n' C_AND_PYTHON SOURCES TESTED WEB) | sort -u \
        | while read -r file; do install -m 644 "$root/$file" "$top/docs"; done
    cp -R "$root/tools/lint" "$top/tools"
    cp -R "$root/share" "$root/examples" "$root/CHANGELOG.md" "$root/COPYING.md" "$root/CITATION.cff" "$top"
    cp -P "$root"/release/{MADE_FROM,libunits.a,libunits.so.1,libunits.pc,units.html} "$root"/release/*.whl \
        "$top/release"
    find "$top" -name __pycache__ -prune -exec rm -rf {} +
    write_copyright full > "$top/LICENCES"
    { printf 'exact-units %s for Linux on x86-64. Nothing has to be built or installed.\n\n' "$version" && tarball_files; } \
        > "$top/README"
    cat > "$top/tools/built.sh" <<- 'END'
		#!/bin/sh
		# Prints the path of a program: in this tarball they are built already.
		if [ "$1" = --static ]; then shift; fi
		case $1 in units_why) program=libexec/units/units-why ;; *) program=bin/$1 ;; esac
		cd "${0%/*}/.." && [ -x "$program" ] && echo "$PWD/$program"
	END
    chmod 755 "$top/tools/built.sh"
    tar --create --sort=name --format=ustar --owner=0 --group=0 --numeric-owner --mode=u+rwX,go+rX,go-w \
        --mtime="@$epoch" --directory "$work" "$name-$version" | gzip -9n > "$work/$name-$version-x86_64-linux.tar.gz"
}

case ${1-} in
    -h | --help) sed -n '2,/^set/s/^# \{0,1\}//p' "$script" | sed '$d'; exit ;;
    -?*) fail "there is no option $1; see tools/package.sh --help" 2 ;;
esac
if [ "$#" -gt 1 ]; then fail 'at most one folder is taken' 2; fi
folder=${1:-$root/out}
for file in COPYING.md CHANGELOG.md CITATION.cff bin/qunits; do
    if [ ! -e "$root/$file" ]; then fail "$file is missing"; fi
done
command -v dpkg-deb > /dev/null || fail 'dpkg-deb is not on the path'
kit=$(readlink -f "$(command -v rt || fail 'rt, which has the licences of its crates, is not on the path')")
kit=${kit%/*/*}
version=$(heading_field 2)
version=${version#units }
if ! [[ $version =~ ^[0-9]+\.[0-9]+\.[0-9]+$ ]]; then fail "the .TH line of units.1 has no version"; fi
epoch=${SOURCE_DATE_EPOCH:-$(date -d "$(heading_field 1)" +%s)}
"$root/tools/release/release.sh" --check >&2 \
    || fail 'a package has the released programs: make a release of these sources first'

work=$(mktemp -d)
trap 'rm -rf "$work"' EXIT
wheel=$("$root/tools/release/wheel.py" "$work")
stage_files
for package in exact-units libexact-units1 libexact-units-dev python3-exact-units exact-units-doc; do
    build_package "$package"
done
build_tarball
mkdir -p "$folder"
(cd "$work" && sha256sum ./*.deb ./*.tar.gz ./*.whl | sed 's# \./# #' > SHA256SUMS)
mv "$work"/*.deb "$work"/*.tar.gz "$work"/*.whl "$work/SHA256SUMS" "$folder"
cat "$folder/SHA256SUMS"
