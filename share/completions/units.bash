# SPDX-License-Identifier: MIT OR Apache-2.0
# Completions of units, qunits, units-why and units-lint for bash.

# _units_names COMMAND FILE LOCALE: prints the names that the command converts. An empty FILE means the definitions of
# qunits, or for units the built-in ones.
_units_names() {
    local program
    program=$(type -P "$1") || return
    case ${program##*/} in
        qunits | units-why) "${program%/*}/qunits" --names ${2:+-f "$2"} ${3:+-l "$3"} ;;
        *) "${program%/*}/qunits" --names -f "$2" ${3:+-l "$3"} ;;
    esac
}

# _units_quoted QUOTE: reads names, and prints each one as it is written inside this quote, or without quotes. Leaves out
# the names that the quote cannot hold, and those with control characters or direction marks, which a terminal obeys.
_units_quoted() {
    local edits
    case $1 in
        \") edits='/!/d; s/[\\$"`]/\\&/g' ;;
        \') edits="/'/d" ;;
        *) edits='s/[][\\$"'\''`&<>?*{}!]/\\&/g' ;;
    esac
    LC_ALL=C sed -E '/[[:cntrl:]]|\xc2[\x80-\x9f]|\xd8\x9c|\xe2(\x80[\x8e\x8f\xaa-\xae]|\x81[\xa6-\xa9])/d; '"$edits"
}

# _units_expression COMMAND WORD: completes the last name in the word, which may begin with a quote.
_units_expression() {
    local word=$2 quote='' file='' locale='' option='' at tail name names
    for ((at = 1; at < COMP_CWORD; at++)); do
        case ${COMP_WORDS[at]} in
            -f | --file) option='file' ;;
            -l | --locale) option='locale' ;;
            =) ;; # bash takes --file=NAME as three words
            *) case $option in file) file=${COMP_WORDS[at]} ;; locale) locale=${COMP_WORDS[at]} ;; esac
                option='' ;;
        esac
    done
    case $word in [\"\']*) quote=${word:0:1} word=${word:1} ;; esac
    tail=${word##*[-+*/|^;~()[:space:]]}
    if [ -z "$tail" ]; then return; fi
    mapfile -t names < <(_units_names "$1" "${file/#\~\//$HOME/}" "$locale" 2> /dev/null | _units_quoted "$quote")
    for name in "${names[@]}"; do
        if [[ $name = "$tail"* ]]; then COMPREPLY+=("${word%"$tail"}$name"); fi
    done
}

# _units_files: leaves file names to bash, which quotes each byte of them.
_units_files() { compopt -o default 2> /dev/null; }

_units_words() {
    local word=${COMP_WORDS[COMP_CWORD]} previous=${COMP_WORDS[COMP_CWORD - 1]} options
    COMPREPLY=()
    if [ "$word" = = ]; then
        word=''
    elif [ "$previous" = = ] && [ "$COMP_CWORD" -gt 2 ]; then
        previous=${COMP_WORDS[COMP_CWORD - 2]}
    fi
    options='--digits --exact --one-line --compact --terse --quiet --strict --round --verbose --file --locale --check
        --column --header --trial'
    case ${1##*/} in
        qunits) options+=' --why --names --new --help --version' ;;
        units-why) options='--digits --exact --json --file --built-in --locale --overlay --lint --captures --unused
            --version' ;;
        units-lint) options='--help --version --statuses --dimensions --locale --program' ;;
    esac
    case ${1##*/}:$previous in
        *:-f | *:--file | *:--program) _units_files ;;
        *:-l | *:--locale) mapfile -t COMPREPLY < <(compgen -W 'en_US en_GB' -- "$word") ;;
        *:-d | *:--digits | *:--column | *:--trial) ;;
        *)
            case ${1##*/}:$word in
                *:-*) mapfile -t COMPREPLY < <(compgen -W "$options" -- "$word") ;;
                units-lint:*) _units_files ;;
                *) _units_expression "$1" "$word" ;;
            esac ;;
    esac
}
complete -F _units_words units qunits units-why units-lint
