# shellcheck shell=sh disable=SC2034,SC2154 # bin/qunits sets and reads from, to, reply and status
# SPDX-License-Identifier: MIT OR Apache-2.0
# Functions of bin/qunits: the names of a library, notations that units reads differently, and hints.

# write_own_file: the option --new.
write_own_file() {
    if [ -e "$own" ]; then refuse "$own exists already"; fi
    case $file in *[[:space:]\#]*) refuse "!include cannot name a path with blanks or #: $file" ;; esac
    replacement=$(printf '%s\n' "$file" | sed 's/[&|\\]/\\&/g')
    mkdir -p -- "${own%/*}" && sed "s|^!include .*|!include $replacement|" "$root/share/qunits/first.units" > "$own.new" &&
        mv -- "$own.new" "$own" && show 1 '\\x0a' "$own" && exit
    rm -f -- "$own.new"; say "could not write $own"; exit 5
}

# refuse_redirection: refuses a FROM whose last word is "-", which is what the shell leaves of "-> UNIT" without quotes.
refuse_redirection() {
    output=$(readlink /proc/$$/fd/1) || output=''
    if [ -f "$output" ]; then emptied=" and emptied $output" unit=${output##*/}; else emptied='' unit=UNIT; fi
    say "a - ends FROM. If you wrote -> without quotes, the shell took > as a redirection$emptied"
    refuse "write: qunits ${from% -} to $unit"
}

# list_names: prints the units, functions and lists of the file. Each name has a printing character of ASCII or a
# leading byte of UTF-8, so these searches find all of them.
list_names() {
    LC_ALL=C awk 'BEGIN { for (i = 33; i < 245; i++) if (i < 127 || i > 193) printf "search %c\n", i }' |
        "$program" -q ${file:+-f "$file"} ${locale:+-l "$locale"} 2> /dev/null | LC_ALL=C sort -u |
        awk -F '\t' 'NF > 2 && $2 !~ /-$/ { sub(/^!unitlist /, "", $2); sub(/\(\)$/, "", $2); print $2 }'
}

session_commands() { sed -n 's/^  \(:\{0,1\}[a-z]\{1,\}\).*/\1/p' "$root/share/qunits/session_help.txt"; }

# with_fractions TEXT: prints 3/4 in as 3|4 in, and 2 1/2 cups as (2+1|2) cups; units would divide by the unit. Prints
# 1½ cups and 1 ½ cups as (1+½) cups, since units would multiply, and m² as m^2.
with_fractions() {
    printf '%s\n' "$1" | sed -E '
        s#²#^2#g
        s#³#^3#g
        s#(^|[ (;-])([0-9]+) ?(½|¼|¾|⅓|⅔|⅛|⅜|⅝|⅞)#\1(\2+\3)#g
        s#(^|[ (;-])([0-9]+) ([0-9]+)/([0-9]+)( [^-+*/^|; 0-9.)]|[a-df-zA-DF-Z])#\1(\2+\3|\4)\5#g
        s#(^|[ (;-])([0-9]+)/([0-9]+)( [^-+*/^|; 0-9.)]|[a-df-zA-DF-Z])#\1\2|\3\4#g'
}

# ask_joined OPTION..: tries to join an unknown word and the next one, such as fluid ounces to fluid_ounces.
ask_joined() {
    first_from=$from first_to=$to first_reply=$reply joined=''
    while word=${reply#*: } && case " $from  $to" in *" $word "[[:alpha:]]*) ;; *) false ;; esac; do
        case " $from" in
            *" $word "[[:alpha:]]*) from="${from%%"$word "*}${word}_${from#*"$word "}" ;;
            *) to="${to%%"$word "*}${word}_${to#*"$word "}" ;;
        esac
        status=0
        reply=$(run "$@" -- "$from" ${to:+"$to"}) || status=$?
    done
    case $reply in
        'unknown unit: '*) from=$first_from to=$first_to reply=$first_reply joined=$word ;;
    esac
}

# scale_of WORD: prints F, C or K if the word may mean a temperature.
scale_of() {
    case ${1#degrees } in
        F | f | degF | °F | tempF | [Ff]ahrenheit) echo F ;;
        C | c | degC | °C | tempC | [Cc]elsius | [Cc]entigrade) echo C ;;
        K | [Kk]elvin | [Kk]elvins) echo K ;;
    esac
}

# is_temperature WORD: whether the word is a function of temperatures, not a unit of differences.
is_temperature() { case $1 in temp* | [Cc]elsius | [Ff]ahrenheit | °*) ;; *) false ;; esac; }

# hint_at_temperature: succeeds with a hint if both sides may be temperatures. The units degF and degC are differences.
hint_at_temperature() {
    target=$(scale_of "$to")
    if [ ! "$target" ]; then return 1; fi
    if [ "$status" = 0 ] && is_temperature "$to"; then converted=K; else converted=''; fi
    reading=$(printf '%s\n' "$from" | sed -nE 's/^(-?[0-9.]+) ?((degrees?|deg) )?((°)?[A-Za-z]+)$/\1 \4/p')
    number=${reading%% *}
    scale=$(scale_of "${reading#* }")
    case $number:$scale:$target in
        *:"$converted":*) return 1 ;;
        ?*:K:[FC]) say "for a temperature, not a difference: qunits $number K to temp$target" ;;
        ?*:[FC]:[FC]) say "for a temperature, not a difference: qunits 'temp$scale($number)' to temp$target" ;;
        ?*:[FC]:K) say "for a temperature, not a difference: qunits 'temp$scale($number)' to $to" ;;
        *) return 1 ;;
    esac
}

# hint_at_column: like hint_at_temperature, for a column of numbers.
hint_at_column() {
    scale=$(scale_of "$from")
    target=$(scale_of "$to")
    if is_temperature "$from"; then return; fi
    case $from:$scale:$target in
        *:[FC]:[FC]) say "for temperatures, not differences: temp$scale to temp$target" ;;
        *:[FC]:K) say "for temperatures, not differences: temp$scale to $to" ;;
        *:K:[FC]) say "for temperatures, not differences: $from to temp$target" ;;
    esac
}

# similar_names WORD: prints at most six names within one typing error of the word, or two if it is long, the nearest
# first.
similar_names() {
    list_names | awk -v word="$1" '
        # The number of letters to insert, drop, replace or exchange with the next one.
        function distance(a, b,    i, j, cost, d) {
            for (i = 0; i <= length(a); i++) d[i, 0] = i
            for (j = 0; j <= length(b); j++) d[0, j] = j
            for (i = 1; i <= length(a); i++) for (j = 1; j <= length(b); j++) {
                cost = substr(a, i, 1) != substr(b, j, 1)
                d[i, j] = least(least(d[i - 1, j] + 1, d[i, j - 1] + 1), d[i - 1, j - 1] + cost)
                if (i > 1 && j > 1 && substr(a, i, 1) == substr(b, j - 1, 1) && substr(a, i - 1, 1) == substr(b, j, 1))
                    d[i, j] = least(d[i, j], d[i - 2, j - 2] + 1)
            }
            return d[length(a), length(b)]
        }
        function least(a, b) { return a < b ? a : b }
        BEGIN { word = tolower(word); bound = length(word) < 3 ? 0 : length(word) < 6 ? 1 : 2 }
        length($0) - length(word) <= bound && length(word) - length($0) <= bound {
            errors = distance(tolower($0), word)
            if (errors <= bound) print errors, $0
        }' | sort -n | head -n 6 | cut -d ' ' -f 2 | paste -s -d ' ' -
}

# conforms FROM TO: whether the library converts FROM to TO.
conforms() { "$program" -ts -f "$file" ${locale:+-l "$locale"} -- "$1" "$2" > /dev/null 2>&1; }

# hint_at_conversion: succeeds with a hint if FROM is a quantity and a unit to convert it to, such as 60 mph km/h.
hint_at_conversion() {
    quantity=${from% *}
    last_unit=${from##* }
    case $to:$separator:$quantity in
        ::*[0-9]*' '*[!-+*/^\|\(]) ;;
        *) return 1 ;;
    esac
    if is_number "${quantity##* }" || ! conforms "$quantity" "$last_unit"; then return 1; fi
    say "for a conversion: qunits $quantity to $last_unit"
}

# hint_at_article: succeeds with a hint if FROM begins with a or an, which units reads as a unit or a prefix.
hint_at_article() {
    case $from in
        'a '[a-z]* | 'an '[a-z]*) say "write a number in place of \"${from%% *}\", as in 1 ${from#* }" ;;
        *) return 1 ;;
    esac
}

# hint_at_product: succeeds with a hint if FROM is like 5 ft 10 in or 5 foot 3, which units multiplies.
hint_at_product() {
    case $reply in 'unknown unit: '*) return 1 ;; esac
    case $to:$from in
        ?*:[0-9]*[A-Za-z]' '[0-9]*) ;;
        *) return 1 ;;
    esac
    printf '%s\n' "$from" | grep -qE '^[0-9.]+ ?[A-Za-z]+ [0-9.]+( ?[A-Za-z]+)?$' || return
    say 'a blank multiplies; "+" adds, as in 5 ft + 6 in'
}

# hint_at_ounces_and_pounds: prints a hint if a mass may be meant as a volume or as a force.
hint_at_ounces_and_pounds() {
    case "$from $to" in *oz* | *ounce* | *lb* | *pound* | *kg*) ;; *) return ;; esac
    fluid_ounces='s/(fl(uid)? )?\b(oz|ounces?)\b/floz/g'
    if conforms "$(printf '%s\n' "$from" | sed -E "$fluid_ounces")" "$(printf '%s\n' "$to" | sed -E "$fluid_ounces")"
    then
        say 'oz is a mass; the fluid ounce is floz'
    elif conforms "($from) gravity" "$to" || conforms "$from" "($to) gravity"; then
        say 'lb and kg are masses; the forces are lbf and kgf'
    fi
}

# names_in_other_case WORD: prints the word with its first letter or all letters small, if the library has that name.
names_in_other_case() {
    capital=${1%"${1#?}"}
    small=$(printf '%s\n' "$capital" | tr '[:upper:]' '[:lower:]')${1#?}
    for other in "$small" "$(printf '%s\n' "$1" | tr '[:upper:]' '[:lower:]')"; do
        if [ "$other" != "$1" ] && conforms "1 $other" "$other"; then printf '%s\n' "$other"; fi
    done | uniq | paste -s -d ' ' -
}

# hint_at_unknown WORD: prints what an unknown word may mean.
hint_at_unknown() {
    case $1 in
        x | X | by) say '"*" multiplies, as in 6 "*" 330 ml' && return ;;
        *\'* | *\"*) say 'feet and inches are written in letters, as in 5 ft + 10 in' && return ;;
        and) say '"+" adds; to split a quantity, write a list such as "ft;in" after to' && return ;;
        of) say 'write "*" for of, as in "20% * 50 kg"' && return ;;
        [Dd]ollars | [Ee]uros | USD | EUR | GBP) say 'to use currencies, include currencies.units in my.units' && return ;;
    esac
    similar=$(similar_names "${joined:-${1%% in *}}")
    if [ ! "$similar" ]; then similar=$(names_in_other_case "${1%% in *}"); fi
    if [ "$similar" ]; then say "similar names: $similar"; fi
}

# hint: prints on standard error what the user may have meant.
hint() {
    if hint_at_temperature || hint_at_conversion || hint_at_article || hint_at_product; then return; fi
    case $reply:$from in
        'unknown unit: '*) hint_at_unknown "${reply#unknown unit: }" ;;
        'conformability error'*) hint_at_ounces_and_pounds ;;
        'syntax error'*:*[0-9],[0-9]*) say 'a number has no comma: write 1.5 or 1000' ;;
    esac
}
