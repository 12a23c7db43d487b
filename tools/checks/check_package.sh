#!/usr/bin/env bash
# Tests the packages that tools/package.sh builds: two builds, from two copies of the repository, are equal; lintian
# finds no error; the programs and libraries are the released ones; no file is in two packages, in Debian's package
# `units`, or outside of /usr; the tarball has the files that its README names, runs, installs and uninstalls.
#
#     tools/checks/check_package.sh              needs dpkg-deb, lintian and the kit (`rt`)
#     tools/checks/check_package.sh --chroot     also upgrades, uses and removes the packages beside Debian's `units` in a
#                                                clean chroot. Needs root, debootstrap and the network, and takes some
#                                                minutes the first time; ${TMPDIR:-/tmp}/exact-units-chroot.tar keeps
#                                                the chroot
#
# The last line is `N passed, M failed, K skipped`, and the status is 0 if nothing failed and else 1.
set -u
script=$(readlink -f "${BASH_SOURCE[0]}") || exit
root=${script%/*/*/*}
folder=$(mktemp -d) || exit
trap 'rm -rf "$folder"' EXIT
passed=0 failed=0 skipped=0
base=${TMPDIR:-/tmp}/exact-units-chroot.tar
packages=(exact-units exact-units-doc libexact-units-dev libexact-units1 python3-exact-units)
mph='from exact_units import Units; print(Units().convert("60 mph", "km/h"))'

# expect NAME WANTED GOT
expect() {
    if [ "$2" = "$3" ]; then
        passed=$((passed + 1))
    else
        failed=$((failed + 1))
        printf 'check_package: %s:\n--- wanted\n%s\n--- got\n%s\n' "$1" "$2" "$3"
    fi
}

# skip NUMBER REASON
skip() {
    skipped=$((skipped + $1))
    echo "check_package: $1 tests are skipped: $2"
}

finish() {
    echo "$passed passed, $failed failed, $skipped skipped"
    [ "$failed" = 0 ]
    exit
}

# copy_to FOLDER: copies the repository without its history and built files.
copy_to() {
    mkdir -p "$1"
    tar --create --directory "$root" --exclude=./.git --exclude=./out --exclude='./crates/*/out' . \
        | tar --extract --directory "$1"
}

# build_in FOLDER COPY: builds with the script of a copy of the repository; shows its output if it fails.
build_in() { "$2/tools/package.sh" "$1" > "$folder/log" 2>&1 || { cat "$folder/log"; return 1; }; }

build_twice() {
    build_in "$folder/first" "$root" || return
    (umask 077 && copy_to "$folder/a copy")
    find "$folder/a copy" -name '*.units' -exec touch -d '2001-02-03' {} +
    (umask 027 && TZ=Asia/Tokyo LANG=en_GB.UTF-8 build_in "$folder/second" "$folder/a copy")
}

check_equal_builds() {
    local file
    expect 'two builds are made' 0 "$(build_twice >&2; echo $?)"
    tarball=$(echo "$folder"/first/exact-units-*.tar.gz)
    expect 'the packages' "${packages[*]}" "$(cd "$folder/first" && printf '%s\n' ./*.deb | sed 's#./\(.*\)_.*_.*#\1#' | sort | xargs)"
    expect 'two builds are equal' '' "$(diff -r "$folder/first" "$folder/second")"
    expect 'the checksums' 0 "$(cd "$folder/first" && sha256sum --quiet -c SHA256SUMS >&2; echo $?)"
    mkdir "$folder/unpacked"
    for file in "${packages[@]}"; do dpkg-deb -R "$folder/first/${file}"_*.deb "$folder/unpacked/$file"; done
}

check_lintian() {
    if ! command -v lintian > /dev/null; then
        skip 1 'there is no lintian'
        return
    fi
    expect 'lintian finds no error' '' "$(lintian --allow-root --no-cfg "$folder"/first/*.deb 2>&1 | grep '^E:')"
}

# same NAME FILE PLACE: whether a package has a released file at this place.
same() { expect "$1" 0 "$(cmp "$root/release/$2" "$folder/unpacked/$3" >&2; echo $?)"; }

files_of() { (cd "$folder/unpacked/$1" && find usr -not -type d -printf '/%p\n' | sort); }

check_contents() {
    local package owner
    same 'units' units-x86_64-linux-static exact-units/usr/bin/exact-units
    same 'units-why' units-why-x86_64-linux-static exact-units/usr/libexec/exact-units/units-why
    same 'the shared library' libunits.so.1 libexact-units1/usr/lib/x86_64-linux-gnu/libunits.so.1
    same 'the static library' libunits.a libexact-units-dev/usr/lib/x86_64-linux-gnu/libunits.a
    same 'the header' ../lib/units.h libexact-units-dev/usr/include/units.h
    same 'the schema' ../share/units-why.schema.json exact-units-doc/usr/share/doc/exact-units/units-why.schema.json
    same 'the page' units.html exact-units-doc/usr/share/doc/exact-units/units.html
    expect 'the programs' 'exact-units qunits units-lint units-why' \
        "$(find "$folder/unpacked/exact-units/usr/bin" -type f -printf '%f\n' | sort | xargs)"
    expect 'no C library is needed by the programs' '' \
        "$(grep -ao 'GLIBC_[0-9.]*' "$root"/release/*-static | sort -u)"
    expect 'no file is in two packages' '' "$(for package in "${packages[@]}"; do files_of "$package"; done | sort | uniq -d)"
    for package in "${packages[@]}"; do
        expect "all of $package is below /usr" 'DEBIAN usr' \
            "$(find "$folder/unpacked/$package" -mindepth 1 -maxdepth 1 -printf '%f\n' | sort | xargs)"
        owner=$(dpkg-deb -c "$folder/first/$package"_*.deb)
        expect "all of $package belongs to root, and nobody else may write" '' \
            "$(awk '$2 != "root/root"' <<< "$owner"; grep -v '^l' <<< "$owner" | grep '^.....w\|^........w')"
        expect "the checksums of $package" 0 \
            "$(cd "$folder/unpacked/$package" && md5sum --quiet -c DEBIAN/md5sums >&2; echo $?)"
        expect "the licences in $package" '' "$(for crate in clap csv indexmap memchr smallvec strsim; do
            grep -q -- "--- The crate $crate of" "$folder/unpacked/$package/usr/share/doc/$package/copyright" || echo "$crate"
        done)"
    done
    if dpkg -L units > /dev/null 2>&1; then
        expect 'no file of the package units' '' \
            "$(for package in "${packages[@]}"; do files_of "$package"; done | grep -Fxf <(dpkg -L units | xargs -d '\n' file -h \
                | grep -v ': *directory' | cut -d : -f 1))"
    else
        skip 1 'the package units is not installed'
    fi
}

check_tarball() {
    local top home=$folder/home
    mkdir "$folder/tarball" "$home"
    tar -xzf "$tarball" -C "$folder/tarball"
    top=$(echo "$folder"/tarball/exact-units-*)
    export HOME=$home XDG_CONFIG_HOME=$home/config XDG_STATE_HOME=$home/state
    expect 'the files that its README names' "$(sed -n 's/^\([^ ]*\)  .*/\1/p' "$top/README" | sort)" \
        "$(cd "$top" && find bin tools lib -mindepth 1 -maxdepth 1 | cat - <(find . -mindepth 1 -maxdepth 1 -printf '%f\n') \
            | grep -vx 'bin\|tools\|lib' | sort)"
    expect 'the program of the tarball' $'\t* 32.808399' "$("$top/bin/units" -1 '10 m' ft 2>&1)"
    expect 'qunits of the tarball' $'\t* 96.56064' "$("$top/bin/qunits" -1 60 mph to km/h 2>&1)"
    expect 'units-why of the tarball' $'\tDefinition: 26.8224 m / s' "$("$top/bin/units-why" 60 mph 2>&1 | head -n 1)"
    expect 'qunits --why of the tarball' $'\tDefinition: mile / hour = 0.44704 m / s' "$("$top/bin/qunits" --why mph 2>&1 | head -n 1)"
    expect 'the Python package of the tarball' 301752/3125 \
        "$(mkdir "$folder/wheel" && python3 -m zipfile -e "$top"/release/*.whl "$folder/wheel" \
            && PYTHONPATH=$folder/wheel python3 -B -c "$mph" 2>&1)"
    "$top/tools/install.sh" --prefix "$folder/prefix" > "$folder/log" 2>&1
    expect 'it installs' 0 $?
    expect 'what the tarball installs is what a clone installs' '' "$(diff \
        <(cd "$folder/prefix" && find . -type f | grep -v 'README.md' | sort) \
        <("$root/tools/install.sh" --prefix "$folder/prefix2" > /dev/null 2>&1; cd "$folder/prefix2" && find . -type f \
            | grep -v 'README.md' | sort))"
    expect 'the installed qunits' $'\t* 96.56064' "$("$folder/prefix/bin/qunits" -1 60 mph to km/h 2>&1)"
    "$top/tools/install.sh" --prefix "$folder/prefix" --uninstall > "$folder/log" 2>&1
    expect 'it uninstalls' 0 $?
    expect 'and leaves nothing' '' "$(find "$folder/prefix" -type f 2> /dev/null)"
}

# in_chroot WORD..: runs a command in the chroot.
in_chroot() { DEBIAN_FRONTEND=noninteractive LC_ALL=C PATH=/usr/sbin:/usr/bin:/sbin:/bin chroot "$chroot" "$@"; }

files_of_chroot() { (cd "$chroot" && find usr etc -not -path 'usr/share/doc*' | sort); }

make_chroot() {
    chroot=$folder/chroot
    mkdir "$chroot"
    if [ ! -e "$base" ]; then
        debootstrap --variant=minbase bookworm "$chroot" > "$folder/log" 2>&1 || { tail "$folder/log"; return 1; }
        in_chroot apt-get install -y -q --no-install-recommends units python3 > "$folder/log" 2>&1 \
            || { tail "$folder/log"; return 1; }
        in_chroot apt-get clean
        tar -cf "$base.new" --one-file-system -C "$chroot" . && mv "$base.new" "$base"
    else
        tar -xf "$base" -C "$chroot"
    fi
}

# old_package: prints the path of a package of version 1.0.0, which had the documents and no other package.
old_package() {
    local old=$folder/old
    mkdir -p "$old/DEBIAN" "$old/usr/bin" "$old/usr/share/doc/exact-units/docs"
    echo old > "$old/usr/bin/exact-units"
    echo old | tee "$old/usr/share/doc/exact-units/docs/COLUMNS.md" > "$old/usr/bin/only-in-1.0.0"
    printf '%s\n' 'Package: exact-units' 'Version: 1.0.0-1' 'Architecture: amd64' 'Maintainer: nobody <a@b.example>' \
        'Description: old' > "$old/DEBIAN/control"
    dpkg-deb --root-owner-group --build "$old" "$folder/exact-units_1.0.0-1_amd64.deb" > /dev/null
    echo "$folder/exact-units_1.0.0-1_amd64.deb"
}

check_chroot() {
    expect 'a clean chroot is made' 0 "$(make_chroot >&2; echo $?)"
    chroot=$folder/chroot
    files_of_chroot > "$folder/before"
    mkdir "$chroot/tmp/debs"
    cp "$folder"/first/*.deb "$chroot/tmp/debs"
    cp "$(old_package)" "$chroot/tmp"
    expect 'version 1.0.0 installs' 0 "$(in_chroot dpkg -i /tmp/exact-units_1.0.0-1_amd64.deb > "$folder/log" 2>&1; echo $?)"
    expect 'the packages install' 0 "$(in_chroot dpkg -iBR /tmp/debs > "$folder/log" 2>&1; echo $?)"
    expect 'no file of version 1.0.0 stays' '' "$(ls "$chroot/usr/bin/only-in-1.0.0" 2> /dev/null)"
    expect 'the program' $'\t* 32.808399' "$(in_chroot exact-units -1 '10 m' ft)"
    expect 'qunits' $'\t* 96.56064' "$(in_chroot qunits -1 60 mph to km/h)"
    expect 'qunits --why' $'\tDefinition: mile / hour = 0.44704 m / s' "$(in_chroot qunits --why mph | head -n 1)"
    expect 'units-why' $'\tDefinition: 26.8224 m / s' "$(in_chroot units-why 60 mph | head -n 1)"
    expect 'Python' 301752/3125 "$(in_chroot python3 -c "$mph" 2>&1)"
    expect 'Python over a session' 301752/3125 "$(in_chroot python3 -c "${mph/()/(backend=\"session\")}" 2>&1)"
    expect 'units is still that of GNU' 'GNU Units version 2.22' "$(in_chroot units --version | head -n 1)"
    expect 'the package units is whole' '' "$(in_chroot dpkg --verify units)"
    expect 'these packages are whole' '' "$(in_chroot dpkg --verify "${packages[@]}" | grep -v /usr/share/doc/)"
    expect 'the packages are purged' 0 "$(in_chroot dpkg --purge "${packages[@]}" > "$folder/log" 2>&1; echo $?)"
    files_of_chroot > "$folder/after"
    expect 'nothing is left' '' "$(diff "$folder/before" "$folder/after" | grep '^[<>]' | grep -v 'dpkg\|ld.so.cache')"
    expect 'GNU units still runs' $'\t* 32.808399' "$(in_chroot units -1 '10 m' ft)"
}

case ${1-} in
    '' | --chroot) ;;
    *) sed -n '2,/^set/s/^# \{0,1\}//p' "$script" | sed '$d'; exit 2 ;;
esac
if ! command -v dpkg-deb > /dev/null || ! command -v rt > /dev/null; then
    skip 40 'dpkg-deb or the kit (rt) is absent'
    finish
fi
if ! "$root/tools/release/release.sh" --check > /dev/null; then
    skip 40 'the released program is not of the present sources, so no package can be built'
    finish
fi
check_equal_builds
check_lintian
check_contents
check_tarball
if [ "${1-}" = --chroot ]; then check_chroot; fi
finish
