# SPDX-License-Identifier: MIT OR Apache-2.0
# Completions of units, qunits, units-why and units-lint for fish.

# The names that the command converts, after the part of the word before the last name.
function __units_expression
    string match -q -- '-*' (commandline -ct); and return
    set -l words (commandline -opc)
    set -l program (command -s -- $words[1]; or echo $words[1])
    set -l word (string replace -r '^["\']' '' -- (commandline -ct))
    set -l beginning (string replace -r '[^-+*/|^;~() ]*$' '' -- "$word")
    set -l options
    set -l file
    for at in (seq 2 (count $words))
        switch $words[$at]
            case -f --file
                set file $words[(math $at + 1)]
            case '--file=*'
                set file (string replace -- --file= '' $words[$at])
            case -l --locale
                set -a options -l $words[(math $at + 1)]
            case '--locale=*'
                set -a options $words[$at]
        end
    end
    # An empty file name means the built-in definitions.
    if test -n "$file"; or not contains (path basename $program) qunits units-why
        set -a options -f (string replace -r '^~/' "$HOME/" -- "$file")
    end
    set -l qunits (path dirname $program)/qunits
    # A terminal obeys control characters and direction marks.
    set -l invisible '[\x{80}-\x{9f}\x{61c}\x{200e}\x{200f}\x{202a}-\x{202e}\x{2066}-\x{2069}]'
    printf '%s\n' $beginning(command $qunits --names $options 2>/dev/null | string match -rv $invisible)
end

for program in units qunits
    complete -c $program -f -a '(__units_expression)'
    complete -c $program -s d -l digits -x -d 'Significant digits, 1 to 36'
    complete -c $program -l exact -d 'Numbers as n or n|d'
    complete -c $program -s 1 -l one-line -d 'Only the forward line'
    complete -c $program -l compact -d 'No tab, no signs'
    complete -c $program -s t -l terse -d 'Strict, quiet, one-line and compact together'
    complete -c $program -s q -l quiet -d 'No banner, no messages, no prompts'
    complete -c $program -s s -l strict -d 'No reciprocal conversion'
    complete -c $program -s r -l round -d 'Round the last unit of a list'
    complete -c $program -s v -l verbose -d 'FROM and TO in the reply'
    complete -c $program -s f -l file -r -F -d 'Definition file'
    complete -c $program -s l -l locale -x -a 'en_US en_GB' -d 'Locale'
    complete -c $program -s c -l check -d 'Report of all faults in the definitions'
    complete -c $program -l column -x -d 'Field of each record to convert'
    complete -c $program -l header -d 'Keep the first record as it is'
    complete -c $program -l trial -x -d 'Trial of N rounds, 1 to 20,000'
end

complete -c qunits -l why -d 'The definitions below an expression'
complete -c qunits -l names -d 'All units, functions and lists'
complete -c qunits -l new -d 'Write a first file of your own definitions'
complete -c qunits -l help -d Usage
complete -c qunits -l version -d Version

complete -c units-why -f -a '(__units_expression)'
complete -c units-why -s d -l digits -x -d 'Significant digits, 1 to 36'
complete -c units-why -l exact -d 'Numbers as n or n|d'
complete -c units-why -l json -d 'One JSON object a line'
complete -c units-why -s f -l file -r -F -d 'Definition file'
complete -c units-why -l built-in -d 'The few definitions of the program itself'
complete -c units-why -s l -l locale -x -a 'en_US en_GB' -d Locale
complete -c units-why -l overlay -x -d 'NAME=PATH, a file to read in place of another'
complete -c units-why -l lint -d 'What is found in all definitions'
complete -c units-why -l captures -d 'With --lint also names that hide other readings'
complete -c units-why -l unused -d 'With --lint also definitions that nothing uses'
complete -c units-why -s V -l version -d 'The version'

complete -c units-lint -F
complete -c units-lint -l help -d 'What is reported'
complete -c units-lint -l version -d 'The version'
complete -c units-lint -l statuses -d 'Ask for the status of each definition'
complete -c units-lint -l dimensions -d 'Ask for the expected unit of each definition'
complete -c units-lint -s l -l locale -x -a 'en_US en_GB' -d Locale
complete -c units-lint -l program -r -F -d 'The program units'
