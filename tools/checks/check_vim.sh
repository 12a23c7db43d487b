#!/usr/bin/env bash
# Tries share/vim in Vim and in Neovim, without a window: the file type, the highlighting of each part of a definition
# file, and the places that `:make` finds in notices. The last line is `N passed, M failed, K skipped`.
set -u
script=$(readlink -f "${BASH_SOURCE[0]}") || exit
root=${script%/*/*/*}
folder=$(mktemp -d)
trap 'rm -rf "$folder"' EXIT
cd "$folder" || exit 1
passed=0 failed=0 skipped=0
export HOME=$folder

# A row for each part: its highlighting group, and a line in which ^ marks the next byte as part of that group.
cat > cases << 'END'
unitsComment	^# a comment TODO
unitsTodo	# a comment ^TODO
unitsStatus	^#= exact: SI Brochure, 9th edition
unitsStatusWord	#= ^exact: SI Brochure, 9th edition
unitsExpected	^#: kg m/s^2
unitsName	^foot 12 inch
unitsNumber	foot ^12 inch
unitsWord	foot 12 ^inch
unitsExpected	foot 12 inch   ^#: m
unitsStatus	foot 12 inch   ^#= exact: 1959
unitsStatusTail	foot 12 inch   #: m ^#= exact: 1959
unitsComment	foot 12 inch   ^# a comment
unitsName	+^foot 12 inch
unitsPrefix	^kilo- 1000
unitsPrefix	kilo^- 1000
unitsNumber	micro- ^1e-6
unitsNumber	micro- 1e^-6
unitsName	^m !
unitsPrimitive	m ^!
unitsPrimitive	radian ^!dimensionless   # an angle
unitsFunction	^tempC(x) units=[1;K] domain=[-273.15,) range=[0,) x K + stdtemp ; (tempC +(-stdtemp))/K
unitsOption	tempC(x) ^units=[1;K] domain=[-273.15,) range=[0,) x K + stdtemp ; (tempC +(-stdtemp))/K
unitsOption	tempC(x) units=[1;K] ^domain=[-273.15,) range=[0,) x K + stdtemp ; (tempC +(-stdtemp))/K
unitsOperator	tempC(x) units=[1;K] x K ^+ stdtemp ; (tempC +(-stdtemp))/K
unitsFunction	^zincgauge[in] 1 0.002, 10 0.02
unitsFunction	^tempcelsius() tempC
unitsOperatorWord	speed 3 m ^per s
unitsWord	speed 3 ^person
unitsRoot	side ^sqrt(4 m^2)
unitsRefused	level 20 ^log(2)
unitsOperator	third 1^|3
unitsWord	area ^cal_15 2
unitsWord	area cal_1^5 2
unitsDirective	^!include si.units
unitsDirectiveLine	!include ^si.units
unitsDirective	^!locale en_GB
unitsDirective	^!endlocale
unitsDirective	^! varnot UNITS_SIZE small
unitsDirectiveError	^!nosuch si.units
unitsDirectiveError	^!included si.units
unitsDirective	^!unitlist hms hr;min;sec
unitsList	!unitlist ^hms hr;min;sec
unitsWord	!unitlist hms hr;^min;sec
unitsOperator	!unitlist hms hr^;min;sec
unitsContinued	long 3 ^\
unitsWord	  ^pieces    # a definition goes on after a backslash
unitsContinued	longer 3 ^\  # a comment after it
unitsWord	^pieces
unitsName	^after 3 m
END
python3 - << 'END'
marks = []
lines = []
for row in open("cases").read().splitlines():
    group, _, line = row.partition("\t")
    at = line.index("^")
    marks.append(f"call Expect({len(marks) + 1}, {at + 1}, '{group}')")
    lines.append(line[:at] + line[at + 1 :])
open("all.units", "w").write("\n".join(lines) + "\n")
open("marks.vim", "w").write("\n".join(marks) + "\n")
END
# shellcheck disable=SC2016 # the parameters of that script
printf '%s\n' '#!/bin/sh' 'shift 2' \
    'printf "%s\n" "$1:2: bad name: a2" "bad: unknown unit: nosuch in bad" "sub.units:7: stray end"' 'exit 1' > units
chmod +x units
cat > test.vim << 'END'
let s:lines = []
function! Expect(line, column, group) abort
    let found = synIDattr(synID(a:line, a:column, 1), 'name')
    call add(s:lines, found ==# a:group ? 'passed' : 'failed ' . getline(a:line) . ' at ' . a:column . ': '
                \ . (empty(found) ? 'nothing' : found) . ' instead of ' . a:group)
endfunction
function! s:Is(name, found, wanted) abort
    call add(s:lines, a:found ==# a:wanted ? 'passed' : 'failed ' . a:name . ': ' . string(a:found))
endfunction
filetype plugin on
syntax on
edit all.units
call s:Is('file type', &filetype, 'units')
call s:Is('comments', &commentstring, '# %s')
syntax sync fromstart
source marks.vim
silent make!
let s:places = filter(getqflist(), 'v:val.lnum > 0')
call map(s:places, {_, place -> bufname(place.bufnr) . ':' . place.lnum . ': ' . place.text})
call s:Is('places of notices', s:places, ['all.units:2: bad name: a2', 'sub.units:7: stray end'])
call s:Is('all lines of the report', len(filter(getqflist(), 'v:val.text =~# "nosuch"')), 1)
call writefile(s:lines, 'results')
qall!
END

for editor in vim nvim; do
    if ! command -v $editor > /dev/null; then
        echo "check_vim: $editor is not installed, so its cases are skipped"
        skipped=$((skipped + $(wc -l < cases) + 4))
        continue
    fi
    rm -f results
    PATH=$folder:$PATH $editor -es -N -u NONE -i NONE --cmd "set runtimepath^=$root/share/vim" -c 'source test.vim' \
        < /dev/null > log 2>&1
    if ! [ -e results ]; then
        echo "check_vim: $editor ended early:"
        cat log
        failed=$((failed + 1))
        continue
    fi
    passed=$((passed + $(grep -c '^passed' results)))
    failed=$((failed + $(grep -c '^failed' results)))
    grep '^failed' results | sed "s/^failed/check_vim: $editor:/"
done

echo "$passed passed, $failed failed, $skipped skipped"
[ "$failed" = 0 ]
