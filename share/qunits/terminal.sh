# shellcheck shell=sh disable=SC2154 # bin/qunits sets program, file, own and own_file
# SPDX-License-Identifier: MIT OR Apache-2.0
# Functions of bin/qunits that write to a terminal. A definition file of someone else may hold bytes that a terminal
# obeys: in the names of units, in messages, in its own name. A terminal gets each of them as \xNN, other files as it is.

# visible SEPARATOR: prints its input with a \xNN for each control byte, each byte that is not UTF-8 and the bytes of each
# direction mark. Puts the separator between two lines.
visible() {
    LC_ALL=C awk -v separator="$1" '
        BEGIN {
            for (i = 1; i < 256; i++) code[sprintf("%c", i)] = sprintf("\\x%02x", i)
            plain = "^[\t -~]+"
            letter = "^([\302-\337]|\340[\240-\277]|\355[\200-\237]|[\341-\354\356\357][\200-\277]" \
                "|\360[\220-\277][\200-\277]|[\361-\363][\200-\277][\200-\277]|\364[\200-\217][\200-\277])[\200-\277]"
            obeyed = "^(\302[\200-\237]|\330\234|\342\200[\216\217\252-\256]|\342\201[\246-\251])"
        }
        {
            shown = NR > 1 ? separator : ""
            for (rest = $0; rest != ""; rest = substr(rest, size + 1)) {
                size = 1
                if (match(rest, plain) || (!match(rest, obeyed) && match(rest, letter))) {
                    shown = shown substr(rest, 1, size = RLENGTH)
                } else {
                    shown = shown code[substr(rest, 1, 1)]
                }
            }
            printf "%s", shown
        }
        END { if (NR) print "" }'
}

# show DESCRIPTOR SEPARATOR TEXT: prints the text and a line feed.
show() {
    case $3 in
        *[!\ -~]*) if [ -t "$1" ]; then printf '%s\n' "$3" | visible "$2" >&"$1"; return; fi ;;
    esac
    printf '%s\n' "$3" >&"$1"
}

say() { show 2 '\\x0a' "qunits: $*"; }

# run WORD..: runs the program. Only a file of definitions other than the library can give notices that need `visible`.
run() {
    if ! [ -t 2 ] || { [ "$own_file" = no ] && [ "$file" != "$own" ]; }; then "$program" "$@"; return; fi
    code=0
    { notices=$("$program" "$@" 2>&1 >&3) || code=$?; } 3>&1
    if [ "$notices" ]; then show 2 '\n' "$notices"; fi
    return $code
}

# run_visibly WORD..: like run, with standard output too.
run_visibly() {
    if ! [ -t 1 ]; then run "$@"; return; fi
    { code=$({ { run "$@" 4>&-; echo $? >&4; } | visible '\n' >&3; } 4>&1); } 3>&1
    return "$code"
}

# show_list COMMAND..: shows the output of the command, on a terminal by a pager.
show_list() {
    if ! [ -t 1 ]; then "$@"; return; fi
    pager=${PAGER-less -FRX}
    if [ "${TERM-dumb}" = dumb ] || ! command -v "${pager%% *}" > /dev/null; then pager='cat'; fi
    trap : INT
    { "$@" | visible '\n'; } 2> /dev/null | LESS=${LESS-FRX} sh -c "trap : INT; $pager" # no word of a pager that ends early
    trap - INT
}

# session_filter: a program in Perl. Its first operand is the help of sessions, the others are a command, which it runs.
# What the command writes to a terminal is shown as `visible` shows it, and at once, since a prompt has no line feed. If
# there is a help, it answers the lines :help of the keyboard. It ends with the status or by the signal of the command.
# shellcheck disable=SC2016,SC2034 # Perl expands these variables, and bin/qunits uses this one
session_filter='
    my $help = shift;
    my $letter = qr/[\t\n -~] | [\xc2-\xdf][\x80-\xbf]
        | \xe0[\xa0-\xbf][\x80-\xbf] | \xed[\x80-\x9f][\x80-\xbf] | [\xe1-\xec\xee\xef][\x80-\xbf]{2}
        | \xf0[\x90-\xbf][\x80-\xbf]{2} | [\xf1-\xf3][\x80-\xbf]{3} | \xf4[\x80-\x8f][\x80-\xbf]{2}/x;
    my $obeyed = qr/\xc2[\x80-\x9f] | \xd8\x9c | \xe2\x80[\x8e\x8f\xaa-\xae] | \xe2\x81[\xa6-\xa9]/x;
    my $beginning = qr/(?: [\xc2-\xf4] | [\xe0-\xf4][\x80-\xbf] | [\xf0-\xf4][\x80-\xbf]{2} )\z/x;

    # show TERMINAL, TEXT: writes the text; returns whether it could be written.
    sub show {
        my ($terminal, $text) = @_;
        $text =~ s/((?:(?!$obeyed)$letter)+)|(.)/defined $1 ? $1 : sprintf "\\x%02x", ord $2/gse;
        while ($text ne "") {
            my $size = syswrite $terminal, $text;
            return 0 if !defined $size && !$!{EINTR};
            substr($text, 0, $size // 0) = "";
        }
        return 1;
    }

    # answer LINE, TERMINAL, COMMAND, PROMPT: shows the help and the prompt, or writes another line to the command. Returns
    # the prompt that is shown.
    sub answer {
        my ($line, $terminal, $command, $prompt) = @_;
        return show($terminal, "$help\n$prompt") ? $prompt : "" if $line =~ /^\s*:help(?![^\s#])/;
        local $SIG{PIPE} = "IGNORE";
        while ($line ne "") {
            my $size = syswrite $command, $line;
            last if !defined $size && !$!{EINTR}; # it has ended
            substr($line, 0, $size // 0) = "";
        }
        return "";
    }

    # read_keys TYPED, COMMAND: appends to the text what is typed. Returns false at its end, after which the command gets
    # the rest and no more.
    sub read_keys {
        my $size = sysread STDIN, $_[0], 65536, length $_[0];
        return 1 if $size || (!defined $size && $!{EINTR});
        answer($_[0], *STDOUT, $_[1], "");
        close $_[1];
        return 0;
    }

    # relay PIPE, TERMINAL, COMMAND: shows what arrives through the pipe. A letter that has not arrived whole waits for its
    # rest. With a help, a typed line waits until the command prompts for it: so the help comes after all earlier replies,
    # and what is typed after the last line stays for the shell.
    sub relay {
        my ($pipe, $terminal, $command) = @_;
        my ($rest, $typed, $prompt, $is_open) = ("", "", "", $help ne "");
        binmode $_ for $pipe, $terminal;
        while (1) {
            my $is_asked = $is_open && $prompt =~ /^You (?:have|want): \z/;
            if ($is_asked && $typed =~ s/^(.*\n)//) {
                $prompt = answer($1, $terminal, $command, $prompt);
                next;
            }
            my $ready = "";
            vec($ready, fileno $pipe, 1) = 1;
            vec($ready, fileno STDIN, 1) = 1 if $is_asked;
            next if select($ready, undef, undef, undef) < 0;
            if (!vec($ready, fileno $pipe, 1)) {
                $is_open = read_keys($typed, $command);
                next;
            }
            my $size = sysread $pipe, my $text, 65536;
            next if !defined $size && $!{EINTR};
            last if !$size;
            $text = $rest . $text;
            $rest = $text =~ s/($beginning)// ? $1 : "";
            show($terminal, $text) or return;
            ($prompt) = "$prompt$text" =~ /([^\n]{0,10})\z/;
        }
        show($terminal, $rest);
    }

    # filter TERMINAL, STREAM..: returns in a child process, whose streams lead through this one to the terminal. This one
    # passes signals on, since the command decides what they do, and then ends in the same way.
    sub filter {
        my ($terminal, @streams) = @_;
        pipe(my $from, my $to) && pipe(my $lines, my $command) && defined(my $child = fork) or die "qunits: $!\n";
        if (!$child) {
            open $_, ">&", $to or die "qunits: $!\n" for @streams;
            $help eq "" or open STDIN, "<&", $lines or die "qunits: $!\n";
            return;
        }
        my @signals = ("INT", "QUIT", "TERM", "HUP");
        $SIG{$_} = sub { kill $_[0], $child } for @signals;
        close $_ for $to, $lines;
        relay($from, $terminal, $command);
        close $_ for $from, $command;
        waitpid $child, 0;
        my ($status, $signal) = ($? >> 8, $? & 127);
        $SIG{$_} = "DEFAULT" for @signals;
        kill $signal, $$ if $signal;
        exit($signal ? 128 + $signal : $status);
    }

    my ($output, $errors) = map { -t $_ ? (stat $_)[6] : 0 } *STDOUT, *STDERR;
    if ($output && $output == $errors) {
        filter(*STDOUT, *STDOUT, *STDERR); # one pipe keeps their order
    } else {
        filter(*STDOUT, *STDOUT) if $output;
        $help = "";
        filter(*STDERR, *STDERR) if $errors;
    }
    exec { $ARGV[0] } @ARGV;
    print STDERR "qunits: $ARGV[0]: $!\n";
    exit 127;
'
