`qunits` runs `units` with the standard library, or with the user's own file, on words as people say them.

  $ apart() { "$@" 2> err; status=$?; sed 's/^/err: /' err; return $status; }

Conversions without quotes: `to`, `into`, `->` and `=` separate FROM and UNIT.

  $ apart qunits 60 mph to km/h
  \t* 96.56064 (esc)
  \t/ 0.010356187 (esc)
  $ apart qunits 5 ft + 6 in to cm
  \t* 167.64 (esc)
  \t/ 0.0059651634 (esc)
  $ for separator in into '->' =; do apart qunits -t 1 mile $separator km; done
  1.609344
  1.609344
  1.609344
  $ apart qunits -t 2.5 cup to cooking
  2;8;0
  $ apart qunits -t 8 l / 100 km to l/km
  0.08
  $ apart qunits "tempF(350)" to tempC
  \t176.66667 (esc)
  $ apart qunits 5.5 ft to "ft;in"
  \t5 ft + 6 in (esc)
  $ apart qunits -t "60 mph to km/h"
  96.56064

FROM and UNIT may be one word each, as for `units`. A number and a unit alone are FROM.

  $ apart qunits "1 acre" m^2
  \t* 4046.8564 (esc)
  \t/ 0.00024710538 (esc)
  $ apart qunits -t yd m
  0.9144
  $ apart qunits 100 kWh
  \tDefinition: 3.6e+08 kg m^2 / s^2 (esc)
  $ apart qunits 1e3 in
  \tDefinition: 25.4 m (esc)
  $ apart qunits 2 m ft
  \tDefinition: 0.6096 m^2 (esc)
  err: qunits: for a conversion: qunits 2 m to ft
  $ apart qunits "1 acre" ""
  \tDefinition: 4046.8564 m^2 (esc)
  $ apart qunits ""
  syntax error at 0
  [1]

`in` is the inch. Between two units it means `to`, unless another word does.

  $ apart qunits -t 5 ft in cm
  152.4
  $ apart qunits -t 5 in in cm
  12.7
  $ apart qunits -t 5 ft + 6 in in cm
  167.64
  $ apart qunits -t 30 ft in in
  360
  $ apart qunits -t 5 in to cm
  12.7
  $ apart qunits -t ft in
  12
  $ apart qunits 5 ft + 6 in
  \tDefinition: 1.6764 m (esc)
  $ apart qunits 6 in + 5 ft
  \tDefinition: 1.6764 m (esc)
  $ apart qunits -t 2 lbf in to lbf ft
  0.16666667
  $ apart qunits 3 m in / s
  \tDefinition: 0.0762 m^2 / s (esc)
  $ apart qunits 2 m / in
  \tDefinition: 78.740157 (esc)

A UNIT of several words, and names that people write as two words.

  $ apart qunits -t 3 N m to lbf ft
  2.2126864
  $ apart qunits -t 1 cup to fluid ounces
  8
  $ apart qunits -t 43560 square feet to acre
  1
  $ apart qunits -t 1 acre to square feet
  43560
  $ apart qunits nosuch units to m
  unknown unit: nosuch
  [1]

Fractions of whole numbers are numbers, and so is a whole number with a fraction. (`units` would divide by `4 in`.)

  $ apart qunits 3/4 in
  \tDefinition: 0.01905 m (esc)
  $ apart qunits -t "5/8 in" mm
  15.875
  $ apart qunits -t 2 1/2 cups to fluid ounces
  20
  $ apart qunits -t -5 3/4 in to in
  -5.75
  $ apart qunits -t 1 ft + 1 1/2in to 1/2 in
  27
  $ apart qunits -t 6 ft to "1/4 ft;in"
  24;0
  $ apart qunits -t 1/2 / s to Hz
  0.5
  $ apart qunits 3/4
  \tDefinition: 0.75 (esc)
  $ apart qunits -t 1½ ft to in
  18
  $ apart qunits -t 1 ½ ft to in
  18
  $ apart qunits -t 2¾ in + ½ in to ¼ in
  13
  $ for locale in C C.UTF-8; do LC_ALL=$locale apart qunits 1½ in; done
  \tDefinition: 0.0381 m (esc)
  \tDefinition: 0.0381 m (esc)
  $ apart qunits -t 5 km² to m^2
  5000000
  $ apart qunits -t 5 m^3 to dm³
  5000

The units that conform, with and without `to`.

  $ qunits 1 acre to '?' | grep -c '^.hectare'
  1
  $ qunits 1 acre '?' | grep -c '^.hectare'
  1

The options are those of `units`, and come before FROM or after UNIT. Each keeps its quoting.

  $ apart qunits -d 3 60 mph to km/h
  \t* 96.6 (esc)
  \t/ 0.0104 (esc)
  $ apart qunits 60 mph to km/h -d3 -t
  96.6
  $ apart qunits 60 mph to km/h --exact --one-line
  \t* 301752|3125 (esc)
  $ apart qunits -1 60 mph to km/h
  \t* 96.56064 (esc)
  $ apart qunits -vd3 1 mile to km
  \t1 mile = 1.61 km (esc)
  \t1 mile = (1 / 0.621) km (esc)
  $ apart qunits -l en_GB -t 1 gallon to liter
  4.54609
  $ apart qunits --locale=en_GB -t 1 gallon to liter
  4.54609
  $ printf 'id,len\na,10\n' | apart qunits --header --column 2 feet to m
  id,len
  a,3.048
  $ qunits --check
  $ qunits --trial 3
  definitions 4, edits 3, reply bytes 43, settled 3 of 4, reductions 4

A minus after the first word of FROM subtracts; at the beginning it is a sign. `-1` next to a unit may be a number or
the option, and is refused.

  $ apart qunits -t 5 ft -1 in to cm
  149.86
  $ apart qunits -t 5 min -s to s
  299
  $ apart qunits -5 m to ft
  \t* -16.404199 (esc)
  \t/ -0.06096 (esc)
  $ apart qunits -1 mile to km
  err: qunits: -1 may be a number: write --one-line for the option, or -- before FROM
  [2]
  $ apart qunits 1 mile to km -1
  err: qunits: -1 may be a number: write --one-line for the option, or -- before FROM
  [2]
  $ apart qunits -t -- -1 mile to km
  -1.609344
  $ apart qunits -t -12 mile to km
  -19.312128

Words that are refused.

  $ qunits 5 m to 2>&-
  [2]
  $ apart qunits 5 m to
  err: qunits: no unit follows to
  [2]
  $ apart qunits 5 m to ft into in
  err: qunits: to and into: one conversion at a time
  [2]
  $ apart qunits --nosuch 5 m to ft
  err: units: usage: units [options] [FROM [TO]]
  [2]
  $ apart qunits -x 5 m to ft
  err: units: usage: units [options] [FROM [TO]]
  [2]
  $ apart qunits '\n' to m
  unknown unit: \n
  [1]
  $ apart qunits 5 m to '\t' to '\n'
  err: qunits: to and to: one conversion at a time
  [2]
  $ apart qunits -d
  err: units: usage: units [options] [FROM [TO]]
  [2]

A file of the user's own, and command lines with `-f`.

  $ mkdir 'a folder'
  $ printf 'm !\ntwo 2 m\n' > 'a folder/small.units'
  $ apart qunits -f 'a folder/small.units' two m
  \t* 2 (esc)
  \t/ 0.5 (esc)
  $ apart qunits --file='a folder/small.units' -t 3 two + m to m
  7
  $ apart qunits -t 3 two to m -f 'a folder/small.units'
  6
  $ apart qunits -f 'a folder/small.units' two m -t
  2
  $ apart qunits two m -f 'a folder/small.units' -t
  2
  $ apart qunits -f 'a folder/small.units' -c
  $ apart qunits -f nosuch.units 1 m to ft
  err: units: no file: nosuch.units
  [3]
  $ mkdir -p .config/units
  $ printf 'm !\nmine 5 m\n' > .config/units/my.units
  $ apart qunits -t mine m
  5
  $ XDG_CONFIG_HOME=/nonexistent apart qunits -t mine m
  unknown unit: mine
  [1]
  $ qunits --names
  m
  mine
  $ apart qunits --new
  err: qunits: */.config/units/my.units exists already (glob)
  [2]
  $ rm -r .config

`--new` makes the user's own file, which includes the standard library. The check finds no fault in it.

  $ apart qunits --new
  */.config/units/my.units (glob)
  $ echo 'mug 350 ml' >> .config/units/my.units
  $ apart qunits -t 2 mug to ml
  700
  $ apart qunits -t 1 acre to m^2
  4046.8564
  $ sed -i 's/^#\([^ ]\)/\1/' .config/units/my.units
  $ apart qunits --check
  $ apart qunits -t 1 demimug to ml
  175
  $ apart qunits "tempRe(80)" to tempC
  \t100 (esc)
  $ apart qunits -t 30 day to weeks
  4;2;0
  $ rm -r .config

Currencies are units of their own. They do not convert before the user's file has a rate.

  $ printf '%s\n' "!include $LIBRARY" "!include ${LIBRARY%/*}/currencies.units" > "$(qunits --new)"
  $ apart qunits -t 0.30 EUR/kWh '*' 2 kW '*' 3 hour to EUR
  1.8
  $ apart qunits 5 EUR to USD
  conformability error
  \t5 EUR (esc)
  \t1 USD (esc)
  [1]
  $ echo 'USD 0.92 EUR' >> .config/units/my.units
  $ apart qunits -t 10 USD to EUR
  9.2
  $ apart qunits --check
  $ rm -r .config
  $ mkdir .config && touch .config/units
  $ qunits --new 2> /dev/null
  [5]
  $ rm -r .config
  $ for folder in 'R&D' 'a\b' 'a|b' "it's" 'a"b' '$(x)`y`' 'a b' 'a#b' 'a
  > b'; do
  >     mkdir -p "$folder/bin" && cp "$(command -v qunits)" "$(command -v units)" "$folder/bin"
  >     ln -s "${LIBRARY%/units/*}" "$folder/share"
  >     "$folder/bin/qunits" --new > /dev/null && qunits -t 1 ft to m; ls -A .config 2> /dev/null
  >     rm -rf "$folder" .config
  > done
  0.3048
  units
  0.3048
  units
  0.3048
  units
  0.3048
  units
  0.3048
  units
  0.3048
  units
  qunits: !include cannot name a path with blanks or #: */a b/share/units/standard.units (glob)
  qunits: !include cannot name a path with blanks or #: */a#b/share/units/standard.units (glob)
  qunits: !include cannot name a path with blanks or #: */a (glob)
  b/share/units/standard.units

In a session, lines go to `units` unchanged.

  $ printf '1 acre\nm^2\nto m\n' | apart qunits -q
  \t* 4046.8564 (esc)
  \t/ 0.00024710538 (esc)
  unknown unit: to
  $ printf '1 ft\n:help\nm\n' | apart qunits -q
  unknown command: :help
  \t* 0.3048 (esc)
  \t/ 3.2808399 (esc)
  $ echo 1 ft | qunits | grep -c 'nonlinear units'
  1
  $ ls -A
  a folder
  err

Without quotes, the shell takes the `>` of `->` as a redirection. `qunits` writes nothing to that file, and says so.

  $ echo precious > km
  $ qunits 5 miles -> km 2> err
  [2]
  $ sed 's/ and emptied .*//; s/ km$/ UNIT/' err
  qunits: a - ends FROM. If you wrote -> without quotes, the shell took > as a redirection
  qunits: write: qunits 5 miles to UNIT
  $ wc -c < km
  0
  $ rm km
  $ qunits -q 5 miles - 2>&1 | cat
  qunits: a - ends FROM. If you wrote -> without quotes, the shell took > as a redirection
  qunits: write: qunits 5 miles to UNIT
  $ qunits 5 m - 2 m to m -t
  3

Hints are printed on standard error, unless `-q` or `-t` is given.

  $ apart qunits 1 acer to m^2
  unknown unit: acer
  err: qunits: similar names: acre
  [1]
  $ apart qunits 1 US gallon to liter
  unknown unit: US
  err: qunits: similar names: us_gallon uk_gallon usgallon
  [1]
  $ apart qunits 60 mph km/h
  \tDefinition: 7.4506667 m^2 / s^2 (esc)
  err: qunits: for a conversion: qunits 60 mph to km/h
  $ apart qunits 5 ft 6 in
  \tDefinition: 0.2322576 m^2 (esc)
  $ apart qunits 5 ft lbf
  \tDefinition: 6.7790897 kg m^2 / s^2 (esc)
  $ apart qunits 98.6 degF to K
  \t* 54.777778 (esc)
  \t/ 0.018255578 (esc)
  err: qunits: for a temperature, not a difference: qunits 'tempF(98.6)' to K
  $ apart qunits -q 1 acer to m^2
  unknown unit: acer
  [1]
  $ apart qunits 350 F to C | tail -n 1
  err: qunits: for a temperature, not a difference: qunits 'tempF(350)' to tempC
  $ apart qunits 5 ft 6 in to cm
  conformability error
  \t0.2322576 m^2 (esc)
  \t0.01 m (esc)
  err: qunits: a blank multiplies; "+" adds, as in 5 ft + 6 in
  [1]
  $ qunits 5 foot 3 to cm 2>&1 > /dev/null
  qunits: a blank multiplies; "+" adds, as in 5 ft + 6 in
  $ qunits a pint to ml 2>&1 > /dev/null
  qunits: write a number in place of "a", as in 1 pint
  $ for from in 350F 350°F '350 °F' '350 degrees F' '350 degF'; do qunits $from to C 2>&1 > /dev/null; done | uniq -c
        5 qunits: for a temperature, not a difference: qunits 'tempF(350)' to tempC
  $ qunits 300 K to C 2>&1 > /dev/null
  qunits: for a temperature, not a difference: qunits 300 K to tempC
  [1]
  $ for unit in tempC celsius °F; do qunits 77 K to $unit; done
  \t-196.15 (esc)
  \t-196.15 (esc)
  \t-321.07 (esc)
  $ qunits 77 K to degC 2>&1 > /dev/null
  qunits: for a temperature, not a difference: qunits 77 K to tempC
  $ qunits 3e8 m/s to c 2>&1 > /dev/null
  $ printf '98.6\n' | apart qunits --column 1 degF to degC
  54.777778
  err: qunits: for temperatures, not differences: tempF to tempC
  $ printf '98.6\n' | apart qunits --column 1 tempF to tempC
  37
  $ for pair in '8 fl oz to ml' '32 oz to l' '75 cl to oz'; do qunits $pair 2>&1 > /dev/null; done | uniq -c
        3 qunits: oz is a mass; the fluid ounce is floz
  $ for pair in '80 ft lb to J' '30 lb/in^2 to kPa' '5 N to kg'; do qunits $pair 2>&1 > /dev/null; done | uniq -c
        3 qunits: lb and kg are masses; the forces are lbf and kgf
  $ qunits 5 kg to m 2>&1 > /dev/null
  [1]
  $ for word in KG KM KB Kilometers; do qunits 5 $word 2>&1 > /dev/null; done
  qunits: similar names: kg
  qunits: similar names: km
  qunits: similar names: kB kb
  qunits: similar names: kilometers
  [1]
  $ for words in "5'10\"" '6 x 330 ml' '20% of 50 kg' '5 EUR' '1,000 m' 'ft and in'; do
  >     qunits $words to m 2>&1 > /dev/null
  > done
  qunits: feet and inches are written in letters, as in 5 ft + 10 in
  qunits: "*" multiplies, as in 6 "*" 330 ml
  qunits: write "*" for of, as in "20% * 50 kg"
  qunits: to use currencies, include currencies.units in my.units
  qunits: a number has no comma: write 1.5 or 1000
  qunits: "+" adds; to split a quantity, write a list such as "ft;in" after to
  [1]

For statuses from 4 to 7, the reason is printed.

  $ apart qunits -f . m ft
  err: qunits: a file or standard input could not be read
  [4]
  $ { qunits m to ft > /dev/full; } 2>&1
  qunits: the output could not be written
  [5]
  $ { echo m | qunits > /dev/full; } 2>&1
  qunits: the output could not be written
  [5]
  $ sh -c 'ulimit -f 0; qunits m to ft 2>&1 > file' | cat
  qunits: the output could not be written
  $ yes 1 | head -c 16777217 | apart qunits --column 1 ft m
  err: qunits: the input is too long for one run; convert a long column in blocks by parallel --pipe (see units(1))
  [7]

The arguments that another program in the place of `units` gets, and a status that `units` seldom has.

  $ mkdir bin && cp "$(command -v qunits)" bin/ && ln -s "${LIBRARY%/units/*}" share
  $ printf '#!/bin/sh\nprintf "<%%s>" "$@"; echo\nexit $STATUS\n' > bin/units && chmod +x bin/units
  $ STATUS=6 apart bin/qunits -f 'a  b' "it's" '5 $x' -q
  <-f><a  b><-q><--><it's><5 $x>
  err: qunits: there was not enough memory
  [6]
  $ STATUS=0 apart bin/qunits --digits=3 -d ' ' 5  '*' "m  s" to "a\\b" --locale '' -f*
  <--digits=3><-d>< ><--locale><><-f*><--><5 * m  s><a\b>
  $ STATUS=1 apart bin/qunits -tf x 5 m to ft --check
  <-tf><x><--check><--><5 m><ft>
  [1]

A plain conversion starts no process but `readlink` and `units`.

  $ mkdir only && ln -s "$(command -v readlink)" only
  $ PATH=$PWD/only STATUS=0 bin/qunits -f x 60 mph to km/h
  <-f><x><--><60 mph><km/h>

`--why` shows the chain of definitions, if `units-why` is installed.

  $ apart bin/qunits --why 3 dyn
  err: qunits: units-why, which --why needs, is not installed
  [2]
  $ apart bin/qunits --why
  err: qunits: --why needs an expression
  [2]
  $ cp bin/units bin/units-why
  $ STATUS=3 apart bin/qunits --why -f x 3 dyn to N
  <-f><x><--><3 dyn><N>
  [3]

Help, the version, and the names that may be converted.

  $ qunits --help | head -n 1
  usage: qunits [OPTIONS] FROM to UNIT    qunits 60 mph to km/h    ("into" and "=" separate them too)
  $ qunits --help | tail -n 1
  "in" is the inch, but means "to" between two units if there is no "to". Quote ? * ( ) ; and -> for the shell.
  $ qunits --version
  qunits* (glob)
  $ apart qunits --names -f nosuch.units
  err: units: no file: nosuch.units
  [3]
  $ qunits --names | grep -cxE 'acre|tempC|hms|kilo'
  3
