Conversions with the built-in definitions. The expected values are computed by hand from the definitions of the units.
`err: ` marks lines of standard error.

  $ units() { command units "$@" 2> err; status=$?; sed 's/^/err: /' err; return $status; }

Both numbers, with 8 digits, with other numbers of digits, and exactly.

  $ units "10 meters" feet
  \t* 32.808399 (esc)
  \t/ 0.03048 (esc)
  $ units yd m
  \t* 0.9144 (esc)
  \t/ 1.0936133 (esc)
  $ units --exact yd m
  \t* 1143|1250 (esc)
  \t/ 1250|1143 (esc)
  $ units -d 3 --exact yd m
  \t* 1143|1250 (esc)
  \t/ 1250|1143 (esc)
  $ units --digits=36 m yd
  \t* 1.09361329833770778652668416447944007 (esc)
  \t/ 0.9144 (esc)
  $ units "60 miles per hour" m/s
  \t* 26.8224 (esc)
  \t/ 0.037282272 (esc)
  $ units "250 cm3" ml
  \t* 250 (esc)
  \t/ 0.004 (esc)
  $ units "berries" m
  unknown unit: berries
  [1]

Only the first number, and a FROM that begins with a sign.

  $ units -1 "10 meters" feet
  \t* 32.808399 (esc)
  $ units -- "-2 m" m
  \t* -2 (esc)
  \t/ -0.5 (esc)

A FROM of 0, and a TO of 0.

  $ units "0 m" ft
  \t* 0 (esc)
  \t/ inf (esc)
  $ units "1 m" "0 m"
  division by zero
  [1]

Reciprocal conversions, in each layout, and with `-s` and `-t`, which refuse them.

  $ units "2 Hz" s
  \treciprocal conversion (esc)
  \t* 0.5 (esc)
  \t/ 2 (esc)
  $ units "2/s" s
  \treciprocal conversion (esc)
  \t* 0.5 (esc)
  \t/ 2 (esc)
  $ units --compact "2 Hz" s
  reciprocal conversion
  0.5
  2
  $ units -v "2 Hz" s
  \treciprocal conversion (esc)
  \t1 / (2 Hz) = 0.5 s (esc)
  \t1 / (2 Hz) = (1 / 2) s (esc)
  $ units -s "2 Hz" s
  conformability error
  \t2 / s (esc)
  \t1 s (esc)
  [1]
  $ units -t "2 Hz" s
  conformability error
  2 / s
  1 s
  [1]

A verbose reply has the texts of FROM and TO. A compact reply is never verbose.

  $ units -v "10 meters" feet
  \t10 meters = 32.808399 feet (esc)
  \t10 meters = (1 / 0.03048) feet (esc)
  $ units -v --compact "10 meters" feet
  32.808399
  0.03048

The value of an expression, after the text of the definition if it is a unit. A blank TO counts as none, and a comment
is no part of a word.

  $ units "1/2 m"
  \tDefinition: 0.5 / m (esc)
  $ units "m/s s/day"
  \tDefinition: 1.1574074e-05 m / s^3 (esc)
  $ units "J / mol K"
  \tDefinition: 1 kg m^2 / K mol s^2 (esc)
  $ units ft
  \tDefinition: 12 in = 0.3048 m (esc)
  $ units ft " "
  \tDefinition: 12 in = 0.3048 m (esc)
  $ units "ft # a foot" "# nothing"
  \tDefinition: 12 in = 0.3048 m (esc)
  $ units "" m
  syntax error at 0
  [1]
  $ units "2^3^2"
  \tDefinition: 512 (esc)
  $ units "3 - (-2)^2"
  \tDefinition: -1 (esc)

The largest number, a very small one, and numbers beyond the limits.

  $ units --exact "2^126 - 1 + 2^126"
  \tDefinition: 170141183460469231731687303715884105727 (esc)
  $ units --exact "2^127"
  overflow
  [1]
  $ units --exact "2^126 * 3|4"
  \tDefinition: 63802943797675961899382738893456539648 (esc)
  $ units "(2^126 - 1 + 2^126)/2 + (2^126 - 1 + 2^126)/2"
  overflow
  [1]
  $ units --exact 1e-38
  \tDefinition: 1|100000000000000000000000000000000000000 (esc)
  $ units --exact 1e-39
  overflow
  [1]
  $ units 1e9999
  overflow
  [1]
  $ units 1e10000
  numeral too long
  [1]
  $ units 170141183460469231731687303715884105728
  numeral too long
  [1]

Numbers that are written with thousands of digits, and large powers, are evaluated or refused at once.

  $ zeros() { head -c $1 /dev/zero | tr '\0' 0; }
  $ units "0.$(zeros 100000)"
  \tDefinition: 0 (esc)
  $ units "0.$(zeros 100000)1"
  overflow
  [1]
  $ units "1$(zeros 100000)"
  overflow
  [1]
  $ units "5$(zeros 9000)e-9000"
  \tDefinition: 5 (esc)
  $ units 0e10000
  numeral too long
  [1]
  $ units "2^32767"
  overflow
  [1]
  $ units "(1|3)^-32767"
  overflow
  [1]
  $ units "(-1)^32767"
  \tDefinition: -1 (esc)
  $ units "1^32768"
  exponent out of range
  [1]
  $ units "0^0"
  \tDefinition: 1 (esc)
  $ units "0^-1"
  division by zero
  [1]

A number halfway between two others is rounded to the one with an even last digit.

  $ units -d 1 2.5
  \tDefinition: 2 (esc)
  $ units -d 1 3.5
  \tDefinition: 4 (esc)
  $ units -d 2 99.5
  \tDefinition: 1e+02 (esc)

Roots, and exponents that are fractions.

  $ units "sqrt(4 m^2)"
  \tDefinition: 2 m (esc)
  $ units "sqrt(2)"
  no exact root
  [1]
  $ units "2^1|2"
  no exact root
  [1]
  $ units "sqrt(2 m)"
  no exact root
  [1]
  $ units "sqrt(m)"
  \tDefinition: 1 m^1|2 (esc)
  $ units "sqrt(m) sqrt(m)" ft
  \t* 3.2808399 (esc)
  \t/ 0.3048 (esc)
  $ units "1/sqrt(4 s^3)"
  \tDefinition: 0.5 / s^3|2 (esc)
  $ units "sqrt(m)" "1/sqrt(m)"
  \treciprocal conversion (esc)
  \t* 1 (esc)
  \t/ 1 (esc)
  $ units "m^1|61"
  exponent out of range
  [1]
  $ units "m^1|7 m^1|11"
  exponent out of range
  [1]
  $ units "m^32767"
  \tDefinition: 1 m^32767 (esc)
  $ units "m^32768"
  exponent out of range
  [1]
  $ units "m^32767 m"
  exponent out of range
  [1]

Faults of values and of texts. The first fault is the whole reply.

  $ units "2 m + 3 s"
  sum of unlike units: 2 m and 3 s
  [1]
  $ units "m^s"
  exponent is not a number
  [1]
  $ units "2 +"
  syntax error at 3
  [1]
  $ units "m)"
  syntax error at 1
  [1]
  $ units "2 m + 3 s" "2 +"
  sum of unlike units: 2 m and 3 s
  [1]
  $ units m s
  conformability error
  \t1 m (esc)
  \t1 s (esc)
  [1]
  $ nested() { printf "%$1s" | tr ' ' '('; printf 1; printf "%$1s" | tr ' ' ')'; }
  $ units "$(nested 64)"
  \tDefinition: 1 (esc)
  $ units "$(nested 65)"
  nested too deep
  [1]
  $ units "$(printf '%255s' | tr ' ' x)" | cut -c 1-20
  unknown unit: xxxxxx
  $ units "$(printf '%256s' | tr ' ' x)"
  syntax error at 0
  [1]

Names of 15 and 16 bytes, which are stored inline, and of 17 and 255 bytes, which are not: in one product, and asked for
again after edits of one of them.

  $ name() { printf "%$2s" | tr ' ' "$1"; }
  $ for n in 15 16 17 255; do echo "$(name a $n) !"; done > long.units
  $ echo "$(name b 16) 2 $(name a 15)" >> long.units
  $ echo "$(name b 17) 3 $(name b 16) $(name a 16)" >> long.units
  $ units --exact -f long.units "$(name b 17) $(name a 17) / $(name a 255)^2" | sed "s/$(name a 255)/longest/"
  \tDefinition: 6 aaaaaaaaaaaaaaa aaaaaaaaaaaaaaaa aaaaaaaaaaaaaaaaa / longest^2 (esc)
  $ printf '%s\n' "$(name b 17)" '' ":define $(name b 16) 5|2 $(name a 15)" "$(name b 17)" '' ":drop $(name b 16)" \
  >     "$(name b 17)" "$(name a 15) $(name a 16)" "$(name b 17)s" "$(name a 17)" | units -q --exact -f long.units
  \tDefinition: 3 bbbbbbbbbbbbbbbb aaaaaaaaaaaaaaaa = 6 aaaaaaaaaaaaaaa aaaaaaaaaaaaaaaa (esc)
  \tDefinition: 3 bbbbbbbbbbbbbbbb aaaaaaaaaaaaaaaa = 15|2 aaaaaaaaaaaaaaa aaaaaaaaaaaaaaaa (esc)
  \t* 6 (esc)
  \t/ 1|6 (esc)
  conformability error
  \t6 aaaaaaaaaaaaaaa aaaaaaaaaaaaaaaa (esc)
  \t1 aaaaaaaaaaaaaaaaa (esc)

An unknown unit, a refused function, and a function without an argument.

  $ units "sinn(1)"
  unknown unit: sinn
  [1]
  $ units "sin(1)"
  refused function: sin
  [1]
  $ units tempF
  argument needed: tempF
  [1]

The built-in definitions have no faults and no notices. The locale decides what a gallon is.

  $ units --check
  $ units "gallon" liter
  \t* 3.7854118 (esc)
  \t/ 0.26417205 (esc)
  $ units -l en_GB "gallon" liter
  \t* 4.54609 (esc)
  \t/ 0.21996925 (esc)
  $ units -l nowhere "gallon" liter
  unknown unit: gallon
  [1]
