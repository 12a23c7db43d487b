Definition files: the lines that count, includes, locales, variables, prefixes, cycles and limits. Lines on standard
error are marked with `err: `.

  $ apart() { "$@" 2> err; status=$?; sed 's/^/err: /' err; return $status; }
  $ file() { name=$1; shift; printf '%s\n' "$@" > "$name"; }

A file with one primitive and three units.

  $ file first.units 'm !' 'in 254|10000 m' 'ft 12|1 in' 'yd 3|1 ft'
  $ apart units --exact -f first.units yd m
  \t* 1143|1250 (esc)
  \t/ 1250|1143 (esc)
  $ apart units yd in --file=first.units --exact
  \t* 36 (esc)
  \t/ 1|36 (esc)
  $ apart units --exact -f first.units yd kg
  unknown unit: kg
  [1]
  $ apart units -f first.units yd m
  \t* 0.9144 (esc)
  \t/ 1.0936133 (esc)
  $ apart units -d 3 -f first.units yd m
  \t* 0.914 (esc)
  \t/ 1.09 (esc)

Five units, two of them primitives. Values, conversions and faults are as with the built-in definitions.

  $ file e.units 'm !' 's !' 'day 86400|1 s' 'in 254|10000 m' 'ft 12|1 in'
  $ over() { apart units -f e.units "$@"; }
  $ over "1/2 m"
  \tDefinition: 0.5 / m (esc)
  $ over "m/s s/day"
  \tDefinition: 1.1574074e-05 m / s^3 (esc)
  $ over --exact "2^126 - 1 + 2^126"
  \tDefinition: 170141183460469231731687303715884105727 (esc)
  $ over --exact "2^127"
  overflow
  [1]
  $ over --exact "2^126 * 3|4"
  \tDefinition: 63802943797675961899382738893456539648 (esc)
  $ over "(2^126 - 1 + 2^126)/2 + (2^126 - 1 + 2^126)/2"
  overflow
  [1]
  $ over "sqrt(4 m^2)"
  \tDefinition: 2 m (esc)
  $ over "sqrt(2)"
  no exact root
  [1]
  $ over "2^1|2"
  no exact root
  [1]
  $ over "0 m" ft
  \t* 0 (esc)
  \t/ inf (esc)
  $ over "1 m" "0 m"
  division by zero
  [1]
  $ over --exact 1e-38
  \tDefinition: 1|100000000000000000000000000000000000000 (esc)
  $ over --exact 1e-39
  overflow
  [1]
  $ over -d 1 2.5
  \tDefinition: 2 (esc)
  $ over -d 1 3.5
  \tDefinition: 4 (esc)
  $ over -d 2 99.5
  \tDefinition: 1e+02 (esc)
  $ over "2 m + 3 s"
  sum of unlike units: 2 m and 3 s
  [1]
  $ over "2 +"
  syntax error at 3
  [1]
  $ over "m^s"
  exponent is not a number
  [1]
  $ over "2/s" s
  \treciprocal conversion (esc)
  \t* 0.5 (esc)
  \t/ 2 (esc)
  $ over "2^3^2"
  \tDefinition: 512 (esc)
  $ over "3 - (-2)^2"
  \tDefinition: -1 (esc)
  $ over "m)"
  syntax error at 1
  [1]

The built-in definitions as a file: all of them, only the linear ones, and all but the table and the lists.

  $ sed '/^# nonlinear$/,$d' "$BUILTIN" > linear.units
  $ sed '/^zincgauge\[/,$d' "$BUILTIN" > functions.units
  $ apart units -f "$BUILTIN" "1.4 m" "ft;in"
  \t4 ft + 7.1181102 in (esc)
  $ apart units -f linear.units "10 meters" feet
  \t* 32.808399 (esc)
  \t/ 0.03048 (esc)
  $ apart units --exact -f linear.units yd m
  \t* 1143|1250 (esc)
  \t/ 1250|1143 (esc)
  $ apart units -f linear.units "2 Hz" s
  \treciprocal conversion (esc)
  \t* 0.5 (esc)
  \t/ 2 (esc)
  $ apart units -f linear.units "1/2 m"
  \tDefinition: 0.5 / m (esc)
  $ apart units -f linear.units "J / mol K"
  \tDefinition: 1 kg m^2 / K mol s^2 (esc)
  $ apart units -f linear.units "60 miles per hour" m/s
  \t* 26.8224 (esc)
  \t/ 0.037282272 (esc)
  $ apart units -f linear.units "250 cm3" ml
  \t* 250 (esc)
  \t/ 0.004 (esc)
  $ apart units -f linear.units "sin(1)"
  refused function: sin
  [1]
  $ apart units -f linear.units "sinn(1)"
  unknown unit: sinn
  [1]
  $ apart units -f linear.units tempF
  unknown unit: tempF
  [1]
  $ apart units -f functions.units "tempF(45)" tempC
  \t7.2222222 (esc)
  $ apart units -f functions.units "tempF(-460)" K
  not in domain: tempF
  [1]
  $ apart units -f functions.units "tempF(-459.67)" K
  \t* 0 (esc)
  \t/ inf (esc)
  $ apart units -f functions.units tempF
  argument needed: tempF
  [1]
  $ apart units -f functions.units "tempcelsius(100)" tempF
  \t212 (esc)
  $ apart units -f functions.units "~tempC(300 K)"
  \tDefinition: 26.85 (esc)
  $ apart units -f functions.units "zincgauge(12)" in
  unknown unit: zincgauge
  [1]

A unit whose definition has an unknown word, values beyond 127 bits, and units that do not conform.

  $ file y.units 'x 3|1 y'
  $ apart units --exact -f y.units x x
  unknown unit: y in x
  [1]
  $ file largest.units 'm !' 'a 170141183460469231731687303715884105727|1 m' 'b 2|1 a'
  $ apart units --exact -f largest.units a m
  \t* 170141183460469231731687303715884105727 (esc)
  \t/ 1|170141183460469231731687303715884105727 (esc)
  $ apart units --exact -f largest.units b m
  overflow
  [1]
  $ file planck.units 'm !' 'h 6.62607015e-34 m'
  $ apart units -f planck.units h m
  overflow
  [1]
  $ file two.units 'm !' 's !'
  $ apart units --exact -f two.units m s
  conformability error
  \t1 m (esc)
  \t1 s (esc)
  [1]

Nested includes, and the limit of their depth. A path is relative to the folder of the file that includes it.

  $ mkdir sub
  $ file main.units '!include sub/a.units' '!include gone.units'
  $ file sub/a.units 'm !' '!include b.units'
  $ file sub/b.units 'z 4 m'
  $ apart units -f main.units z m
  \t* 4 (esc)
  \t/ 0.25 (esc)
  err: main.units:2: no file: gone.units
  $ for i in $(seq 0 17); do file in_$i.units "!include in_$((i + 1)).units"; done
  $ apart units -f in_0.units 2
  \tDefinition: 2 (esc)
  err: in_16.units:1: include too deep: in_17.units

Variables are set in the file or in the environment, which takes precedence.

  $ file walk.units 'm !' '!set UNITS_SIZE big' '!var UNITS_SIZE big' 'step 10 m' '!endvar' \
  >   '!varnot UNITS_SIZE big' 'step 1 m' '!endvar' 'walk 3 step'
  $ apart units -f walk.units walk m
  \t* 30 (esc)
  \t/ 0.033333333 (esc)
  $ apart env UNITS_SIZE=small units -f walk.units walk m
  \t* 3 (esc)
  \t/ 0.33333333 (esc)

A variable whose value is not UTF-8 is ignored.

  $ apart env "$(printf 'UNITS_SIZE=sm\377ll')" units -f walk.units walk m
  \t* 30 (esc)
  \t/ 0.033333333 (esc)

Locales.

  $ file g.units 'm !' '!locale en_GB' 'g 2 m' '!endlocale' '!locale en_US' 'g 3 m' '!endlocale'
  $ apart units -f g.units g m
  \t* 3 (esc)
  \t/ 0.33333333 (esc)
  $ apart units -l en_GB -f g.units g m
  \t* 2 (esc)
  \t/ 0.5 (esc)

Lines without effect, each with a notice, and a file that ends in the middle of a block.

  $ file f.units 'm !' '!endvar' 'h- 3' '!nosuch' 'ok m'
  $ apart units -f f.units ok
  \tDefinition: m = 1 m (esc)
  err: f.units:2: stray end
  err: f.units:4: unknown directive
  $ truncate --size 16777217 long.units
  $ nested() { printf "%$1s" | tr ' ' '('; printf 1; printf "%$1s" | tr ' ' ')'; }
  $ file each.units 'm !' '1a m' a 't[m] 1 2' 'b 2 +' 'c 1e10000' "d $(nested 65)" '!nosuch' '!var V' '!endvar' \
  >   '!include none.units' '!include long.units' '!utf8' 'foo2 m' 'ok m'
  $ apart units -f each.units ok
  \tDefinition: m = 1 m (esc)
  err: each.units:2: bad name: 1a
  err: each.units:3: bad definition
  err: each.units:4: bad table
  err: each.units:5: syntax error at 3
  err: each.units:6: numeral too long
  err: each.units:7: nested too deep
  err: each.units:8: unknown directive
  err: each.units:9: bad directive
  err: each.units:10: stray end
  err: each.units:11: no file: none.units
  err: each.units:12: file too long: long.units
  err: each.units:14: bad name: foo2
  err: each.units:13: unclosed block
  $ printf 'm !\n!locale en_US\nx 2 m \\' > t.units
  $ apart units -f t.units x m
  \t* 2 (esc)
  \t/ 0.5 (esc)
  err: t.units:2: unclosed block

A name comes before a prefix, the singular of a plural is looked up, and the longest prefix that leaves a unit is taken.

  $ file km.units 'm !' 'k- 1000' 'km 7 m'
  $ apart units -f km.units km m
  \t* 7 (esc)
  \t/ 0.14285714 (esc)
  $ file berry.units 'm !' 'berry 2 m'
  $ apart units -f berry.units berries m
  \t* 2 (esc)
  \t/ 0.5 (esc)
  $ file p.units 'm !' 'da- 10' 'd- 1|10' 'ab 7 m'
  $ apart units -f p.units dab m
  \t* 0.7 (esc)
  \t/ 1.4285714 (esc)

The chain of a cycle begins with the first of its names that is met. A refused function is reported with the key that
uses it.

  $ file cycle.units 'm !' 'a b' 'b a' 'c 2 a'
  $ apart units -f cycle.units c
  cycle: a -> b -> a
  [1]
  $ apart units -f cycle.units b
  cycle: b -> a -> b
  [1]
  $ file sine.units 'm !' 'a 2 sin'
  $ apart units -f sine.units a m
  refused function: sin in a
  [1]

A chain of 20,001 names, and a ring of them.

  $ { echo 'u_0 !'; for i in $(seq 20000); do echo "u_$i u_$((i - 1))"; done; } > chain.units
  $ apart units -f chain.units u_20000 u_0
  \t* 1 (esc)
  \t/ 1 (esc)
  $ sed 's/^u_0 !$/u_0 u_20000/' chain.units > ring.units
  $ apart units -f ring.units u_0 > ring
  [1]
  $ wc -l < ring; cut -c 1-39 ring; grep -o -e '->' ring | wc -l
  1
  cycle: u_0 -> u_20000 -> u_19999 -> u_1
  20001

A deck may have 100,000 lines, and not one more.

  $ yes 'm !' | head -n 100000 > full.units
  $ apart units -f full.units m
  \tDefinition: 1 m (esc)
  $ yes 'm !' | head -n 100001 > over.units
  $ apart units -f over.units m
  err: units: deck full: over.units
  [3]
