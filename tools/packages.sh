#!/usr/bin/env bash
# Installs the Debian packages that the checks and comparisons need besides the toolchain. A check whose package is
# missing is named and skipped.
#   tools/packages.sh            installs them all (as root)
#   tools/packages.sh --list     prints their names, one on each line
set -eu

packages=(
    # linters of bin/check
    shellcheck pyflakes3
    # shells, completions and line editing
    bash-completion zsh fish rlwrap man-db mandoc
    # packages and recipes
    lintian debootstrap parallel openssh-server pv miller
    # comparisons with other programs
    units python3-pint qalc time
    # memory checks of the C library
    valgrind mypy python3-numpy python3-pandas pkg-config
    # the static program
    musl-dev busybox-static strace
    # the page in a browser
    chromium firefox-esr binaryen
    # editors
    vim-nox neovim emacs-nox elpa-eglot
)

case "${1-}" in
    '') apt-get update -q && DEBIAN_FRONTEND=noninteractive apt-get install -yq --no-install-recommends "${packages[@]}" ;;
    --list) printf '%s\n' "${packages[@]}" ;;
    *) sed -n '2,/^set/s/^# \{0,1\}//p' "$0" >&2; exit 2 ;;
esac
