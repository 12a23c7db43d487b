#!/usr/bin/env bash
# Runs the examples of README.md and of the pages in docs as transcripts (see tools/checks/transcripts.py).
#
#     tools/checks/check_recipes.sh
#
# A block of the page that begins with ```console NAME.. needs these programs. If one is not installed, the cases of the
# block are skipped. For `ssh`, a server with its own keys and configuration is started on the loopback address, and the
# host names `one` and `two` lead to it. The last line is `N passed, M failed, K skipped`.
set -u
script=$(readlink -f "${BASH_SOURCE[0]}") || exit
root=${script%/*/*/*}
folder=$(mktemp -d) || exit
server=
# shellcheck disable=SC2317 # called by the trap
cleanup() {
    if [ "$server" ]; then kill "$server" 2> /dev/null; fi
    rm -rf "$folder"
}
trap cleanup EXIT
mkdir "$folder/programs" || exit
skipped=0

# free_port: prints a free port of the loopback address.
free_port() { python3 -c 'import socket; s = socket.socket(); s.bind(("127.0.0.1", 0)); print(s.getsockname()[1])'; }

# write_ssh_files PORT: writes keys and configurations of a server and its client, and a command `ssh` that uses them.
write_ssh_files() {
    ssh-keygen -q -t ed25519 -N '' -f "$folder/host_key" && ssh-keygen -q -t ed25519 -N '' -f "$folder/key" || return
    cat > "$folder/server.conf" <<- END
		ListenAddress 127.0.0.1:$1
		HostKey $folder/host_key
		AuthorizedKeysFile $folder/key.pub
		PidFile none
		StrictModes no
		UsePAM no
		PermitRootLogin yes
		PasswordAuthentication no
		MaxStartups 100
		SetEnv PATH=$folder/programs:$PATH
	END
    cat > "$folder/client.conf" <<- END
		Host one two
		    HostName 127.0.0.1
		    Port $1
		    IdentityFile $folder/key
		    StrictHostKeyChecking no
		    UserKnownHostsFile /dev/null
		    LogLevel ERROR
	END
    printf '#!/bin/sh\nexec %s -F %s "$@"\n' "$(command -v ssh)" "$folder/client.conf" > "$folder/ssh"
    chmod 755 "$folder/ssh"
    chmod 711 "$folder"
}

# start_server: starts an ssh server with the host names one and two, which has `units` on its path.
start_server() {
    local daemon port program
    daemon=$(PATH=$PATH:/usr/sbin:/sbin command -v sshd) && command -v ssh ssh-keygen python3 > /dev/null || return
    program=$("$root/tools/built.sh" units) && ln -sf "$program" "$folder/programs/units" || return
    port=$(free_port) && write_ssh_files "$port" || return
    if [ "$(id -u)" = 0 ]; then mkdir -p /run/sshd; fi
    "$daemon" -D -e -f "$folder/server.conf" < /dev/null 2> "$folder/server.log" &
    server=$!
    for _ in {1..50}; do
        if "$folder/ssh" one true < /dev/null 2> /dev/null; then
            ln -s "$folder/ssh" "$folder/programs/ssh"
            return
        fi
        sleep 0.1
    done
    echo 'check_recipes: the ssh server does not answer:' >&2
    tail -n 3 "$folder/server.log" >&2
    return 1
}

# is_usable NAME: whether a program that a block needs is available.
is_usable() {
    case $1 in
        ssh) [ -e "$folder/programs/ssh" ] || start_server ;;
        units-why) "$root/bin/units-why" --version > /dev/null 2>&1 ;;
        *) command -v "$1" > /dev/null ;;
    esac
}

# usable_part PAGE: prints the page without the blocks that need a missing program.
usable_part() {
    local line name missing=
    while IFS= read -r line; do
        if [[ $line = '```console'* ]]; then
            missing=
            for name in ${line#'```console'}; do
                if ! is_usable "$name"; then missing=$name; fi
            done
        elif [[ $line = '```'?* ]]; then
            missing=shell # code of another language
        elif [[ $line = '```' ]]; then
            missing=
        elif [[ $missing && $line = '  $ '* ]]; then
            echo "check_recipes: skipped without $missing: ${line#'  $ '}" >&2
            echo skipped >> "$folder/skipped"
        fi
        if ! [[ $missing && $line = '  '* ]]; then printf '%s\n' "$line"; fi
    done < "$1"
}

pages=()
for page in "$root/README.md" "$root"/docs/*.md; do
    if grep -q '^  \$ ' "$page"; then usable_part "$page" > "$folder/${page##*/}"; fi
    if grep -qs '^  \$ ' "$folder/${page##*/}"; then pages+=("$folder/${page##*/}"); fi
done
if [ -e "$folder/skipped" ]; then skipped=$(wc -l < "$folder/skipped"); fi
PATH=$folder/programs:$PATH "$root/tools/checks/transcripts.py" "${pages[@]}" > "$folder/log"
sed '$d' "$folder/log"
read -r passed _ failed _ more _ <<< "$(tail -n 1 "$folder/log" | tr -d ,)"
echo "$passed passed, $failed failed, $((skipped + more)) skipped"
[ "$failed" = 0 ]
