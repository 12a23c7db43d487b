Definition lines, as `test_calls entries` reads them. For each definition and each list of a file, it prints the number
of the line, the key, the kind and the text of the entry, or why the line is refused. The keys, entries and faults are
found by hand from the rules of the format.

Each form: a unit, a prefix, a function with its options, an alias, a table and a list.

  $ test_calls entries <<'END'
  > m !
  > radian !dimensionless
  > yard  3 ft 
  > giga- 1e9
  > + m !
  > +m	!
  > a 2  m
  > f (x) x
  > f(x) units=[m;m^2] x^2
  > f(x) domain=[1,2) x
  > f(x) domain=(,] x
  > f( x )noerror range=[ -1|2 , +3 ]x ; f
  > f() g
  > f() g()
  > g[in] 1 0.002, 10 0.02
  > t[m] noerror 1 2 3 4
  > t[m]1 2 , 3 4,
  > !unitlist hms hr;min;sec
  > ! unitlist  z	m 
  > END
  1: m | primitive | !
  2: radian | dimensionless | !dimensionless
  3: yard | body | 3 ft
  4: giga- | body | 1e9
  5: m | primitive | !
  6: m | primitive | !
  7: a | body | 2  m
  8: f | body | (x) x
  9: f() | function in out | (x) units=[m;m^2] x^2
  10: f() | function domain | (x) domain=[1,2) x
  11: f() | function domain | (x) domain=(,] x
  12: f() | function range inverse | ( x )noerror range=[ -1|2 , +3 ]x ; f
  13: f() | alias of g | () g
  14: f() | alias of g | () g()
  15: g() | table | [in] 1 0.002, 10 0.02
  16: t() | table | [m] noerror 1 2 3 4
  17: t() | table | [m]1 2 , 3 4,
  18: !unitlist hms | list of 3 | hr;min;sec
  19: !unitlist z | list of 1 | m
  19 lines, 0 refused

Options may be in any order. The parts that a function has are listed.

  $ test_calls entries <<'END'
  > f(x) units=[m;] noerror domain=[0,1] x
  > f(x) domain=[0,1] units=[m;] noerror x
  > f(x) noerror domain=[0,1] units=[m;] x
  > f(x) range=(0,) units=[;s] domain=(,0) x
  > f(x) units=[;] noerror x
  > f(x) x;f
  > f(x) units=[m;m] domain=[1,2] range=[3,4] noerror x;f
  > END
  1: f() | function in domain | (x) units=[m;] noerror domain=[0,1] x
  2: f() | function in domain | (x) domain=[0,1] units=[m;] noerror x
  3: f() | function in domain | (x) noerror domain=[0,1] units=[m;] x
  4: f() | function out domain range | (x) range=(0,) units=[;s] domain=(,0) x
  5: f() | function | (x) units=[;] noerror x
  6: f() | function inverse | (x) x;f
  7: f() | function in out domain range inverse | (x) units=[m;m] domain=[1,2] range=[3,4] noerror x;f
  7 lines, 0 refused

The first fault of each line. A bad name, parameter or alias target comes before a bad form, this before a bad table,
and this before a fault in an expression. Blanks at the ends of a line are dropped, so ` m !` is `m !`.

  $ test_calls entries <<'END'
  > foo2 m
  > 2foo(
  > sin
  > - 3
  > f(2 x) units=[
  > f(a(b) x
  > k-(x) 3
  > a-b 2
  > f() g ()
  > +!unitlist z m;s
  > !unitlist foo2 m
  > +
  > m
  > k-
  > f(x)
  > f(x
  > f(x) noerror
  > f(x) ; x
  > f(x) x ;
  > f() 
  > f() ()
  > f(x) domain= [0,1] x
  > f(x) domain=[0 1] x
  > f(x) range=[1|0,2] x
  > f(x) noerror noerror x
  > f(x) range=[0,1] range=[0,1] x
  > f(x) units=[m] x ; y
  > t[m 1 2 3 4
  > t[] 1 2 3 4
  > !unitlist
  > !unitlist z
  > t[m]
  > t[m] noerror
  > t[m] 1 2
  > t[m] 1 2, 1 3
  > t[m] 1 2,, 3 4
  > t[m] 1, 2 3 4
  > t[(] 1 2
  > t[(] 1 2 3 4
  > !unitlist z ;
  > !unitlist z m;;s
  > f(x) units=[(;)] x
  > a 1e10000
  > END
  1: refused: bad name: foo2
  2: refused: bad name: 2foo
  3: refused: bad name: sin
  4: refused: bad name:\x20 (esc)
  5: refused: bad name: 2 x
  6: refused: bad name: a(b
  7: refused: bad name: k-
  8: refused: bad name: a-b
  9: refused: bad name: g\x20 (esc)
  10: refused: bad name: !unitlist
  11: refused: bad name: foo2
  12: refused: bad name:\x20 (esc)
  13: refused: bad definition
  14: refused: bad definition
  15: refused: bad definition
  16: refused: bad definition
  17: refused: bad definition
  18: refused: bad definition
  19: refused: bad definition
  20: refused: bad definition
  21: refused: bad definition
  22: refused: bad definition
  23: refused: bad definition
  24: refused: bad definition
  25: refused: bad definition
  26: refused: bad definition
  27: refused: bad definition
  28: refused: bad definition
  29: refused: bad definition
  30: refused: bad definition
  31: refused: bad definition
  32: refused: bad table
  33: refused: bad table
  34: refused: bad table
  35: refused: bad table
  36: refused: bad table
  37: refused: bad table
  38: refused: bad table
  39: refused: syntax error at 1
  40: refused: syntax error at 0
  41: refused: syntax error at 0
  42: refused: syntax error at 1
  43: refused: numeral too long
  43 lines, 43 refused

Places count from 0. Parentheses are at most 64 deep.

  $ { printf 'a '; printf '1%.0s' $(seq 20); printf ' m%.0s' $(seq 592); echo ' +'; } > places
  $ test_calls entries < places
  1: refused: syntax error at 1206
  1 lines, 1 refused
  $ nested() { printf 'a '; printf '(%.0s' $(seq $1); printf m; printf ')%.0s' $(seq $1); echo; }
  $ nested 64 | test_calls entries | cut -c 1-12
  1: a | body\x20 (esc)
  1 lines, 0 r
  $ nested 65 | test_calls entries
  1: refused: nested too deep
  1 lines, 1 refused

Comments, blank lines and other directives are not counted. A continued line is one line.

  $ printf '' | test_calls entries
  0 lines, 0 refused
  $ printf 'm !' | test_calls entries
  1: m | primitive | !
  1 lines, 0 refused
  $ printf 'm !\nfoo2 m\n' | test_calls entries
  1: m | primitive | !
  2: refused: bad name: foo2
  2 lines, 1 refused
  $ printf '+foo2 m\n' | test_calls entries
  1: refused: bad name: foo2
  1 lines, 1 refused
  $ printf '# foo2 m\n\n!include\n!nothing\n!var A\n' | test_calls entries
  0 lines, 0 refused
  $ printf '!unitlist hms hr;min;sec\n!unitlist z m;;s\n' | test_calls entries
  1: !unitlist hms | list of 3 | hr;min;sec
  2: refused: syntax error at 0
  2 lines, 1 refused
  $ printf 'a \\\n!\nfoo2 m' | test_calls entries
  1: a | primitive | !
  3: refused: bad name: foo2
  2 lines, 1 refused
  $ printf 'f(x) \\\r\n;x\r\n' | test_calls entries
  1: refused: bad definition
  1 lines, 1 refused
  $ printf 't[m] 1 2' | test_calls entries
  1: refused: bad table
  1 lines, 1 refused
  $ printf 'm 2 +' | test_calls entries
  1: refused: syntax error at 3
  1 lines, 1 refused
  $ printf 'm 1e10000\nm /s' | test_calls entries
  1: refused: numeral too long
  2: refused: syntax error at 0
  2 lines, 2 refused

A file of more than 16 MiB is not read.

  $ head -c 16777216 /dev/zero | tr '\0' '#' > long; test_calls entries < long
  0 lines, 0 refused
  $ printf '#' >> long; test_calls entries < long
  file too long

A table has at most 1,000 points. If more follows, the table is refused without reading it.

  $ points() { printf 't[m]'; seq 0 $1 | sed 's/.*/ & 1|3,/' | tr -d '\n'; }
  $ points 999 | test_calls entries | cut -c 1-42
  1: t() | table | [m] 0 1|3, 1 1|3, 2 1|3,\x20 (esc)
  1 lines, 0 refused
  $ { points 999; echo ' 1000 2'; } | test_calls entries
  1: refused: bad table
  1 lines, 1 refused
  $ { points 999; echo ' 1000'; } | test_calls entries
  1: refused: bad table
  1 lines, 1 refused
  $ { points 999; echo ' ,'; } | test_calls entries
  1: refused: bad table
  1 lines, 1 refused

Long lines.

  $ long() { printf "$1"; yes "$2" | head -n 50000 | tr -d '\n'; }
  $ long '!unitlist z m' ';m' | test_calls entries | cut -c 1-40
  1: !unitlist z | list of 50001 | m;m;m;m
  1 lines, 0 refused
  $ long 't[m] 1 2' ' 3 4' | test_calls entries
  1: refused: bad table
  1 lines, 1 refused
  $ long n n | test_calls entries | cut -c 1-26
  1: refused: bad name: nnnn
  1 lines, 1 refused
  $ long 'a m' ' m' | test_calls entries | cut -c 1-25
  1: a | body | m m m m m m
  1 lines, 0 refused

Two entries of one key are equal if and only if their texts are. Of each three lines, the first two are equal, and the
third differs.

  $ test_calls entries <<'END'
  > a 2 m
  > + a	2 m
  > a 2  m
  > f(x) x
  > +f(x) x
  > f(x)  x
  > !unitlist z m;s
  > !  unitlist z	m;s
  > !unitlist z m; s
  > k- 10
  > +k- 10
  > k- 1e1
  > f(x) x
  > +f(x) x
  > f (x) x
  > END
  1: a | body | 2 m
  2: a | body | 2 m
  3: a | body | 2  m
  4: f() | function | (x) x
  5: f() | function | (x) x
  6: f() | function | (x)  x
  7: !unitlist z | list of 2 | m;s
  8: !unitlist z | list of 2 | m;s
  9: !unitlist z | list of 2 | m; s
  10: k- | body | 10
  11: k- | body | 10
  12: k- | body | 1e1
  13: f() | function | (x) x
  14: f() | function | (x) x
  15: f | body | (x) x
  15 lines, 0 refused

The built-in definitions.

  $ test_calls entries <<'END'
  > # primitives
  > m !
  > kg !
  > s !
  > A !
  > K !
  > mol !
  > radian !dimensionless
  > # prefixes
  > giga- 1e9
  > mega- 1e6
  > kilo- 1000
  > deca- 10
  > deci- 1|10
  > centi- 1|100
  > milli- 1|1000
  > micro- 1e-6
  > nano- 1e-9
  > G- giga
  > M- mega
  > k- kilo
  > da- deca
  > d- deci
  > c- centi
  > m- milli
  > u- micro
  > n- nano
  > # units
  > meter m
  > gram 1|1000 kg
  > g gram
  > second s
  > sec s
  > minute 60 s
  > min minute
  > hour 60 min
  > hr hour
  > day 24 hr
  > Hz 1/s
  > newton kg m/s^2
  > N newton
  > J N m
  > W J/s
  > Pa N/m^2
  > liter 1|1000 m^3
  > l liter
  > L liter
  > in 254|10000 m
  > inch in
  > ft 12 in
  > foot ft
  > feet ft
  > yd 3 ft
  > yard yd
  > mile 5280 ft
  > lb 0.45359237 kg
  > pound lb
  > percent 1|100
  > % percent
  > !locale en_US
  > gallon 231 in^3
  > !endlocale
  > !locale en_GB
  > gallon 4.54609 liter
  > !endlocale
  > quart 1|4 gallon
  > pint 1|2 quart
  > # nonlinear
  > degF 5|9 K
  > stdtemp 273.15 K
  > tempC(x) units=[1;K] domain=[-273.15,) range=[0,) x K + stdtemp ; (tempC +(-stdtemp))/K
  > tempF(x) units=[1;K] domain=[-459.67,) range=[0,) (x+(-32)) degF + stdtemp ; \
  >     (tempF+(-stdtemp))/degF + 32
  > tempcelsius() tempC
  > zincgauge[in] 1 0.002, 10 0.02, 15 0.04, \
  >     19 0.06, 23 0.1
  > !unitlist hms hr;min;sec
  > !unitlist ftin ft;in
  > END
  2: m | primitive | !
  3: kg | primitive | !
  4: s | primitive | !
  5: A | primitive | !
  6: K | primitive | !
  7: mol | primitive | !
  8: radian | dimensionless | !dimensionless
  10: giga- | body | 1e9
  11: mega- | body | 1e6
  12: kilo- | body | 1000
  13: deca- | body | 10
  14: deci- | body | 1|10
  15: centi- | body | 1|100
  16: milli- | body | 1|1000
  17: micro- | body | 1e-6
  18: nano- | body | 1e-9
  19: G- | body | giga
  20: M- | body | mega
  21: k- | body | kilo
  22: da- | body | deca
  23: d- | body | deci
  24: c- | body | centi
  25: m- | body | milli
  26: u- | body | micro
  27: n- | body | nano
  29: meter | body | m
  30: gram | body | 1|1000 kg
  31: g | body | gram
  32: second | body | s
  33: sec | body | s
  34: minute | body | 60 s
  35: min | body | minute
  36: hour | body | 60 min
  37: hr | body | hour
  38: day | body | 24 hr
  39: Hz | body | 1/s
  40: newton | body | kg m/s^2
  41: N | body | newton
  42: J | body | N m
  43: W | body | J/s
  44: Pa | body | N/m^2
  45: liter | body | 1|1000 m^3
  46: l | body | liter
  47: L | body | liter
  48: in | body | 254|10000 m
  49: inch | body | in
  50: ft | body | 12 in
  51: foot | body | ft
  52: feet | body | ft
  53: yd | body | 3 ft
  54: yard | body | yd
  55: mile | body | 5280 ft
  56: lb | body | 0.45359237 kg
  57: pound | body | lb
  58: percent | body | 1|100
  59: % | body | percent
  61: gallon | body | 231 in^3
  64: gallon | body | 4.54609 liter
  66: quart | body | 1|4 gallon
  67: pint | body | 1|2 quart
  69: degF | body | 5|9 K
  70: stdtemp | body | 273.15 K
  71: tempC() | function in out domain range inverse | (x) units=[1;K] domain=[-273.15,) range=[0,) x K + stdtemp ; (tempC +(-stdtemp))/K
  72: tempF() | function in out domain range inverse | (x) units=[1;K] domain=[-459.67,) range=[0,) (x+(-32)) degF + stdtemp ;      (tempF+(-stdtemp))/degF + 32
  74: tempcelsius() | alias of tempC | () tempC
  75: zincgauge() | table | [in] 1 0.002, 10 0.02, 15 0.04,      19 0.06, 23 0.1
  77: !unitlist hms | list of 3 | hr;min;sec
  78: !unitlist ftin | list of 2 | ft;in
  68 lines, 0 refused

A file of a million lines, and one line of a million continuations.

  $ yes 'm !' | head -n 1000000 | test_calls entries | tail -n 1
  1000000 lines, 0 refused
  $ { printf 'm '; yes '\' | head -n 1000000; echo '!'; } | test_calls entries | tail -n 1
  1 lines, 0 refused
