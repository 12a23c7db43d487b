Replies, as `test_calls answers` gives them. The first line, `load FILE`, loads a deck. `convert FROM to TO` and
`define FROM` print a reply, and `value FROM` the exact value of FROM. `options WORD..` sets the options for the
following calls: `exact`, `strict`, `one-line`, `compact`, `quiet`, `round`, `verbose` and a number of digits. The line
`refused` follows a refused reply, and a fault in place of a value.

A conversion to a unit, in each layout.

  $ test_calls answers <<END
  > load $BUILTIN
  > convert 10 meters to feet
  > convert   10 meters   to 	feet 
  > convert 60 miles per hour to m/s
  > convert 250 cm3 to ml
  > convert -2 m to m
  > convert zincgauge(12) to in
  > options quiet
  > convert 10 meters to feet
  > options one-line
  > convert 10 meters to feet
  > options compact
  > convert 10 meters to feet
  > options compact one-line
  > convert 10 meters to feet
  > options verbose
  > convert 10 meters to feet
  > convert   10  meters   to 	feet 
  > options verbose one-line
  > convert 10 meters to feet
  > options verbose compact
  > convert 10 meters to feet
  > END
  ok
  \t* 32.808399 (esc)
  \t/ 0.03048 (esc)
  \t* 32.808399 (esc)
  \t/ 0.03048 (esc)
  \t* 26.8224 (esc)
  \t/ 0.037282272 (esc)
  \t* 250 (esc)
  \t/ 0.004 (esc)
  \t* -2 (esc)
  \t/ -0.5 (esc)
  \t* 0.028 (esc)
  \t/ 35.714286 (esc)
  ok
  \t* 32.808399 (esc)
  \t/ 0.03048 (esc)
  ok
  \t* 32.808399 (esc)
  ok
  32.808399
  0.03048
  ok
  32.808399
  ok
  \t10 meters = 32.808399 feet (esc)
  \t10 meters = (1 / 0.03048) feet (esc)
  \t10  meters = 32.808399 feet (esc)
  \t10  meters = (1 / 0.03048) feet (esc)
  ok
  \t10 meters = 32.808399 feet (esc)
  ok
  32.808399
  0.03048

The number of digits, from 1 to 36, and exact numbers, which it does not affect.

  $ test_calls answers <<END
  > load $BUILTIN
  > options 3
  > convert 10 meters to feet
  > options 36
  > convert m to ft
  > options 1
  > convert 2.5 to 1
  > options exact
  > convert yd to m
  > options 3 exact verbose
  > convert 10 m to ft
  > options exact compact
  > convert 1e38 m to m
  > options 37
  > options 0
  > options loud
  > convert 10 m to ft
  > END
  ok
  ok
  \t* 32.8 (esc)
  \t/ 0.0305 (esc)
  ok
  \t* 3.28083989501312335958005249343832021 (esc)
  \t/ 0.3048 (esc)
  ok
  \t* 2 (esc)
  \t/ 0.4 (esc)
  ok
  \t* 1143|1250 (esc)
  \t/ 1250|1143 (esc)
  ok
  \t10 m = 12500|381 ft (esc)
  \t10 m = (1 / 381|12500) ft (esc)
  ok
  100000000000000000000000000000000000000
  1|100000000000000000000000000000000000000
  bad call
  bad call
  bad call
  12500|381
  381|12500

The second number of a conversion of 0 is `inf`. A conversion to 0 is a division by zero.

  $ test_calls answers <<END
  > load $BUILTIN
  > convert 0 m to ft
  > convert tempF(-459.67) to K
  > convert 1 m to 0 m
  > convert 0 m to 0 m
  > options verbose
  > convert 0 m to ft
  > options compact
  > convert 0 m to ft
  > convert 1 m to 0 m
  > options one-line
  > convert 0 m to ft
  > options verbose strict
  > convert 1e-38 m to 1e38 m
  > END
  ok
  \t* 0 (esc)
  \t/ inf (esc)
  \t* 0 (esc)
  \t/ inf (esc)
  division by zero
  refused
  division by zero
  refused
  ok
  \t0 m = 0 ft (esc)
  \t0 m = (1 / inf) ft (esc)
  ok
  0
  inf
  division by zero
  refused
  ok
  \t* 0 (esc)
  ok
  overflow
  refused

Reciprocal conversions, in each layout. A fault is reported without the line `reciprocal conversion`.

  $ test_calls answers <<END
  > load $BUILTIN
  > convert 2 Hz to s
  > convert sqrt(m) to 1/sqrt(m)
  > convert 0 Hz to s
  > convert 2 Hz to 0 s
  > convert 1e-38 Hz to 1e-38 s
  > options one-line
  > convert 2 Hz to s
  > options compact
  > convert 2 Hz to s
  > convert 0 Hz to s
  > options compact one-line
  > convert 2 Hz to s
  > options verbose
  > convert 2 Hz to s
  > options verbose one-line exact
  > convert 3 Hz to s
  > options compact verbose
  > convert 2 Hz to s
  > END
  ok
  \treciprocal conversion (esc)
  \t* 0.5 (esc)
  \t/ 2 (esc)
  \treciprocal conversion (esc)
  \t* 1 (esc)
  \t/ 1 (esc)
  division by zero
  refused
  division by zero
  refused
  overflow
  refused
  ok
  \treciprocal conversion (esc)
  \t* 0.5 (esc)
  ok
  reciprocal conversion
  0.5
  2
  division by zero
  refused
  ok
  reciprocal conversion
  0.5
  ok
  \treciprocal conversion (esc)
  \t1 / (2 Hz) = 0.5 s (esc)
  \t1 / (2 Hz) = (1 / 2) s (esc)
  ok
  \treciprocal conversion (esc)
  \t1 / (3 Hz) = 1|3 s (esc)
  ok
  reciprocal conversion
  0.5
  2

Units that do not conform. Numbers conform to numbers. With `strict` there is no reciprocal conversion.

  $ test_calls answers <<END
  > load $BUILTIN
  > options strict
  > convert 2 Hz to s
  > convert 2 radian to percent
  > options strict compact
  > convert 2 Hz to s
  > options
  > convert 1|3 m to 2 m / s
  > convert J / mol K to 1/sqrt(4 s^3)
  > options verbose one-line
  > convert 1|3 m to 2 m / s
  > options compact 3
  > convert 1|3 m to 2 m / s
  > options exact
  > convert 1|3 m to 2 m / s
  > convert 7 to m
  > END
  ok
  ok
  conformability error
  \t2 / s (esc)
  \t1 s (esc)
  refused
  \t* 200 (esc)
  \t/ 0.005 (esc)
  ok
  conformability error
  2 / s
  1 s
  refused
  ok
  conformability error
  \t0.33333333 m (esc)
  \t2 m / s (esc)
  refused
  conformability error
  \t1 kg m^2 / K mol s^2 (esc)
  \t0.5 / s^3|2 (esc)
  refused
  ok
  conformability error
  \t0.33333333 m (esc)
  \t2 m / s (esc)
  refused
  ok
  conformability error
  0.333 m
  2 m / s
  refused
  ok
  conformability error
  \t1|3 m (esc)
  \t2 m / s (esc)
  refused
  conformability error
  \t7 (esc)
  \t1 m (esc)
  refused

A TO that is the name of a function, an alias or a table, in each layout. A name with anything after it is an
expression.

  $ test_calls answers <<END
  > load $BUILTIN
  > convert tempF(45) to tempC
  > convert tempcelsius(100) to tempF
  > convert 300 K to tempcelsius
  > convert 0.028 in to zincgauge
  > convert 300 K to   tempC  
  > convert 300 K to tempC()
  > convert 300 K to tempC(2)
  > convert 300 K to (tempC)
  > convert 300 m to tempC
  > convert -1 K to tempC
  > convert 1 in to zincgauge
  > convert tempF(-460) to K
  > convert zincgauge(24) to in
  > options verbose
  > convert tempF(45) to tempC
  > options compact
  > convert tempF(45) to tempC
  > options one-line
  > convert tempF(45) to tempC
  > options exact compact verbose
  > convert tempF(45) to tempC
  > END
  ok
  \t7.2222222 (esc)
  \t212 (esc)
  \t26.85 (esc)
  \t12 (esc)
  \t26.85 (esc)
  syntax error at 6
  refused
  \t* 1.0903144 (esc)
  \t/ 0.91716667 (esc)
  argument needed: tempC
  refused
  wrong argument: tempC
  refused
  not in range: tempC
  refused
  outside table: zincgauge
  refused
  not in domain: tempF
  refused
  outside table: zincgauge
  refused
  ok
  \ttempF(45) = tempC(7.2222222) (esc)
  ok
  7.2222222
  ok
  \t7.2222222 (esc)
  ok
  65|9

As TO, a name means a function before a list, and a list before a unit. The argument of a function may have a unit.

  $ cat > names.units <<'END'
  > m !
  > s !
  > gauge 5 m
  > gauge[m] 1 2, 3 6
  > !unitlist gauge s;m
  > pair 5 s
  > !unitlist pair m;m
  > area(r) units=[m;m^2] r r ; sqrt(area)
  > sq(x) units=[m;m^2] domain=[0,) x^2
  > t[m] 1 5, 2 5, 3 4
  > back[m] 3 1, 4 -1
  > END
  $ test_calls answers <<END
  > load names.units
  > convert 4 m to gauge
  > convert 4 m to pair
  > convert 4 m to 2 gauge
  > define gauge
  > define pair
  > convert 9 m^2 to area
  > convert 5 m to t
  > convert 4.5 m to t
  > convert 0 m to back
  > convert 9 m^2 to sq
  > convert sq(3) to m
  > options verbose
  > convert 9 m^2 to area
  > convert 4 m to gauge
  > convert 9 m^2 to sq
  > options compact
  > convert 9 m^2 to area
  > END
  ok
  \t2 (esc)
  \t4 m + 0 m (esc)
  \t* 0.4 (esc)
  \t/ 2.5 (esc)
  \tDefinition: 5 m = 5 m (esc)
  \tDefinition: 5 s = 5 s (esc)
  \t3 m (esc)
  \t1 (esc)
  \t2.5 (esc)
  \t3.5 (esc)
  no inverse: sq
  refused
  wrong argument: sq
  refused
  ok
  \t9 m^2 = area(3 m) (esc)
  \t4 m = gauge(2) (esc)
  no inverse: sq
  refused
  ok
  3 m

A TO that is a list, by its name or with semicolons, in each layout.

  $ test_calls answers <<END
  > load $BUILTIN
  > convert 1.4 m to ft;in
  > convert 1.4 m to   ft ;  in  
  > convert 1.4 m to ftin
  > convert 1.5 hr to hms
  > convert (-1.5) hr to hms
  > convert 0 m to ft;in
  > convert 1.4 m to 2 ft;1|2 in;in
  > convert 1 m to ft;s
  > convert 1 m to ft;-1 in
  > convert 1.99 ft to ft;in
  > options round
  > convert 1.99 ft to ft;in
  > convert -1.99 ft to ft;in
  > convert 2.5 in to ft;in
  > convert 1.4 m to ft
  > options verbose
  > convert 1.4 m to   ft ;  in  
  > convert 1.5 hr to hms
  > options compact
  > convert 1.4 m to ft;in
  > convert (-1.5) hr to hms
  > options compact verbose round
  > convert 1.99 ft to ft;in
  > options one-line 3
  > convert 1.4 m to ft;in
  > options exact
  > convert 1.4 m to ft;in
  > convert 0.5 to 1;1;1
  > END
  ok
  \t4 ft + 7.1181102 in (esc)
  \t4 ft + 7.1181102 in (esc)
  \t4 ft + 7.1181102 in (esc)
  \t1 hr + 30 min + 0 sec (esc)
  \t-1 hr + -30 min + 0 sec (esc)
  \t0 ft + 0 in (esc)
  \t2 2 ft + 14 1|2 in + 0.11811024 in (esc)
  conformability error
  \t1 m (esc)
  \t1 s (esc)
  refused
  list unit not positive: 2
  refused
  \t1 ft + 11.88 in (esc)
  ok
  \t2 ft + 0 in (esc)
  \t-2 ft + 0 in (esc)
  \t0 ft + 2 in (esc)
  \t* 4.5931759 (esc)
  \t/ 0.21771429 (esc)
  ok
  \t1.4 m = 4 ft + 7.1181102 in (esc)
  \t1.5 hr = 1 hr + 30 min + 0 sec (esc)
  ok
  4;7.1181102
  -1;-30;0
  ok
  2;0
  ok
  \t4 ft + 7.12 in (esc)
  ok
  \t4 ft + 904|127 in (esc)
  \t0 1 + 0 1 + 1|2 1 (esc)

The faults of a list. The syntax of each part comes first, then the names and the value of each part in turn, then the
first part that does not conform, then the first one that is not above 0. An unknown unit in a named list is reported
without the name of the list.

  $ cat > lists.units <<'END'
  > m !
  > s !
  > bad 2 nosuch
  > !unitlist none m;nosuch
  > !unitlist worse bad;m
  > !unitlist one m
  > !unitlist spread  m ; 1|10   m
  > END
  $ test_calls answers <<END
  > load lists.units
  > convert m to nosuch;m+
  > convert m to m;
  > convert m to ;m
  > convert m to ;
  > convert m to 1/0;nosuch
  > convert m to nosuch;1/0
  > convert m to s;1/0
  > convert m to none
  > convert m to worse
  > convert m to m;-1 s
  > convert m to -1 m;s
  > convert m to m;-1 m
  > convert m to m;0 m;-1 m
  > convert s to m;s
  > convert 1e38 m to 1e-38 m;m
  > convert nosuch to m;
  > convert 3|2 m to one
  > convert 1.25 m to spread
  > options compact
  > convert s to m;s
  > convert m to m;-1 m
  > options verbose
  > convert m to m;-1 s
  > convert 1.25 m to spread
  > END
  ok
  syntax error at 2
  refused
  syntax error at 0
  refused
  syntax error at 0
  refused
  syntax error at 0
  refused
  division by zero
  refused
  unknown unit: nosuch
  refused
  division by zero
  refused
  unknown unit: nosuch
  refused
  unknown unit: nosuch in bad
  refused
  conformability error
  \t1 m (esc)
  \t-1 s (esc)
  refused
  conformability error
  \t1 m (esc)
  \t1 s (esc)
  refused
  list unit not positive: 2
  refused
  list unit not positive: 2
  refused
  conformability error
  \t1 s (esc)
  \t1 m (esc)
  refused
  overflow
  refused
  unknown unit: nosuch
  refused
  \t1.5 m (esc)
  \t1 m + 2.5 1|10   m (esc)
  ok
  conformability error
  1 s
  1 m
  refused
  list unit not positive: 2
  refused
  ok
  conformability error
  \t1 m (esc)
  \t-1 s (esc)
  refused
  \t1.25 m = 1 m + 2.5 1|10   m (esc)

Definitions, in each layout. If FROM is the name of a unit that an expression defines, the text of that definition
precedes the value, except in a compact reply.

  $ cat > texts.units <<'END'
  > m !
  > rad !dimensionless
  > d 2   m
  > d 3  (m  +  m)  # of all
  > p- 7
  > END
  $ test_calls answers <<END
  > load texts.units
  > define m
  > define rad
  > define d
  > define   d  
  > define d + m
  > define (d)
  > define d2
  > define pd
  > define p
  > define pds
  > define 0 m
  > options verbose one-line
  > define d
  > define 2 d
  > options compact
  > define d
  > define 2 d
  > options exact
  > define d/4
  > define d/36
  > END
  ok
  \tDefinition: 1 m (esc)
  \tDefinition: 1 (esc)
  \tDefinition: 3  (m  +  m) = 6 m (esc)
  \tDefinition: 3  (m  +  m) = 6 m (esc)
  \tDefinition: 7 m (esc)
  \tDefinition: 6 m (esc)
  \tDefinition: 36 m^2 (esc)
  \tDefinition: 42 m (esc)
  \tDefinition: 7 (esc)
  \tDefinition: 42 m (esc)
  \tDefinition: 0 m (esc)
  ok
  \tDefinition: 3  (m  +  m) = 6 m (esc)
  \tDefinition: 12 m (esc)
  ok
  6 m
  12 m
  ok
  \tDefinition: 3|2 m (esc)
  \tDefinition: 1|6 m (esc)

  $ test_calls answers <<END
  > load $BUILTIN
  > define 1/2 m
  > define m/s s/day
  > define J / mol K
  > define ~tempC(300 K)
  > define ft
  > define feet
  > define sqrt(m)
  > define 1/sqrt(4 s^3)
  > define sqrt(4 m^2)
  > convert sqrt(m) sqrt(m) to ft
  > define m^1|7 m^1|11
  > define 2^1|2
  > options 1
  > define 2.5
  > define 3.5
  > options 2
  > define 99.5
  > options exact
  > define 1e-38
  > define 1e-39
  > define 2^126 - 1 + 2^126
  > define 2^127
  > define 2^126 * 3|4
  > define (2^126 - 1 + 2^126)/2 + (2^126 - 1 + 2^126)/2
  > END
  ok
  \tDefinition: 0.5 / m (esc)
  \tDefinition: 1.1574074e-05 m / s^3 (esc)
  \tDefinition: 1 kg m^2 / K mol s^2 (esc)
  \tDefinition: 26.85 (esc)
  \tDefinition: 12 in = 0.3048 m (esc)
  \tDefinition: ft = 0.3048 m (esc)
  \tDefinition: 1 m^1|2 (esc)
  \tDefinition: 0.5 / s^3|2 (esc)
  \tDefinition: 2 m (esc)
  \t* 3.2808399 (esc)
  \t/ 0.3048 (esc)
  exponent out of range
  refused
  no exact root
  refused
  ok
  \tDefinition: 2 (esc)
  \tDefinition: 4 (esc)
  ok
  \tDefinition: 1e+02 (esc)
  ok
  \tDefinition: 1|100000000000000000000000000000000000000 (esc)
  overflow
  refused
  \tDefinition: 170141183460469231731687303715884105727 (esc)
  overflow
  refused
  \tDefinition: 63802943797675961899382738893456539648 (esc)
  overflow
  refused

The text of each fault is the whole reply, in every layout.

  $ cat > faults.units <<END
  > m !
  > s !
  > bad 2 nosuch
  > q- 2 nosuch
  > g(x) x nosuch
  > y sin(2)
  > a b
  > b a
  > u(x) v(x)
  > v() u
  > k- 2 c
  > c km
  > sq(x) units=[m;m^2] x^2
  > low(x) domain=[0,10] range=[0,50] x^2 ; sqrt(low)
  > odd(x) range=[0,) x m
  > t[m] 1 5, 2 5, 3 4
  > f_1(x) x
  > $(for i in $(seq 2 17); do echo "f_$i(x) f_$((i - 1))(x)"; done)
  > END
  $ test_calls answers <<END
  > load faults.units
  > define 2 +
  > define
  > define (
  > define 1e10000
  > define $(printf '(%.0s' $(seq 66))1
  > define nosuch
  > define bad
  > define qm
  > define g(1)
  > define sin(1)
  > define sinn(1)
  > define y
  > define a
  > define b m
  > define u(1)
  > define v(1)
  > define c
  > define 2^127
  > define 1/0
  > define sqrt(2)
  > define sqrt(2 m)
  > define 2 m + 3 s
  > define m^s
  > define m^1|61
  > define low(11)
  > define low(8)
  > define ~low(81)
  > define sq(3)
  > define odd(2)
  > define ~sq(9 m^2)
  > define t(4)
  > define sq
  > define f_17(1)
  > END
  ok
  syntax error at 3
  refused
  syntax error at 0
  refused
  syntax error at 1
  refused
  numeral too long
  refused
  nested too deep
  refused
  unknown unit: nosuch
  refused
  unknown unit: nosuch in bad
  refused
  unknown unit: nosuch in q-
  refused
  unknown unit: nosuch in g()
  refused
  refused function: sin
  refused
  unknown unit: sinn
  refused
  refused function: sin in y
  refused
  cycle: a -> b -> a
  refused
  cycle: b -> a -> b
  refused
  cycle: u() -> v() -> u()
  refused
  cycle: v() -> u() -> v()
  refused
  cycle: c -> k- -> c
  refused
  overflow
  refused
  division by zero
  refused
  no exact root
  refused
  no exact root
  refused
  sum of unlike units: 2 m and 3 s
  refused
  exponent is not a number
  refused
  exponent out of range
  refused
  not in domain: low
  refused
  not in range: low
  refused
  not in range: low
  refused
  wrong argument: sq
  refused
  wrong result: odd
  refused
  no inverse: sq
  refused
  outside table: t
  refused
  argument needed: sq
  refused
  calls too deep: f_17
  refused

Faults of FROM come before those of TO. A syntax error comes before a fault of a name, and this before one of the value.
The quantities of a fault are written as the options say.

  $ test_calls answers <<END
  > load faults.units
  > convert nosuch to 2 +
  > convert 1/0 to 2 +
  > convert m to 2 +
  > convert m to nosuch
  > convert m to 1/0
  > convert m to  
  > convert m to bad
  > convert 1/0 + nosuch to m
  > convert 1/0 + nosuch + to m
  > convert nosuch to sq
  > convert m to u
  > options verbose
  > convert 1|3 m + 3 s to m
  > convert m to 1|3 m + 3 s
  > options compact 3
  > convert 1|3 m + 3 s to m
  > options exact one-line
  > convert 1|3 m + 3 s to m
  > define 1|3 m + 3 s
  > value 1|3 m + 3 s
  > END
  ok
  unknown unit: nosuch
  refused
  division by zero
  refused
  syntax error at 3
  refused
  unknown unit: nosuch
  refused
  division by zero
  refused
  syntax error at 0
  refused
  unknown unit: nosuch in bad
  refused
  unknown unit: nosuch
  refused
  syntax error at 14
  refused
  unknown unit: nosuch
  refused
  cycle: u() -> v() -> u()
  refused
  ok
  sum of unlike units: 0.33333333 m and 3 s
  refused
  sum of unlike units: 0.33333333 m and 3 s
  refused
  ok
  sum of unlike units: 0.333 m and 3 s
  refused
  ok
  sum of unlike units: 1|3 m and 3 s
  refused
  sum of unlike units: 1|3 m and 3 s
  refused
  sum of unlike units: 1|3 m and 3 s
  refused

`value` is exact whatever the options are. Only the quantities of a fault depend on them.

  $ test_calls answers <<END
  > load $BUILTIN
  > value 2 ft
  > value   2 ft  
  > value 1/3
  > value
  > value nosuch
  > value tempC
  > options compact verbose 2
  > value 2 ft
  > value 1|3 m + s
  > END
  ok
  381|625 m
  381|625 m
  1|3
  syntax error at 0
  refused
  unknown unit: nosuch
  refused
  argument needed: tempC
  refused
  ok
  381|625 m
  sum of unlike units: 0.33 m and 1 s
  refused

Lines that are no calls, and calls without a deck.

  $ test_calls answers <<END
  > load $BUILTIN
  > 
  > load $BUILTIN
  > convert
  > convert m
  > values m
  > END
  ok
  bad call
  bad call
  bad call
  bad call
  bad call

  $ test_calls answers <<END
  > load none.units
  > define m
  > END
  no deck

  $ test_calls answers <<END
  > define m
  > END
  no deck
