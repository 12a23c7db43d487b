The first word on the command line of `test_calls` names the kind of its calls. A missing or unknown word is refused.
The program has a stored run of the kind `values`; this file has runs of the others, except
that runs.t and streams.t have those of `runs` and `streams`.

  $ echo count | test_calls
  test_calls: no kind of calls is named; the kinds are numbers, amounts, texts, entries, decks, edges, values, history, answers, runs and streams
  [2]
  $ echo count | test_calls units
  test_calls: unknown kind of calls: units; the kinds are numbers, amounts, texts, entries, decks, edges, values, history, answers, runs and streams
  [2]

Fractions, numerals and their texts.

  $ test_calls numbers <<'END'
  > new -6 4
  > negate 1|3
  > floor -7|2
  > add 1|2 1|3
  > sub 1|2 1|3
  > add 85070591730234615865843651857942052864 85070591730234615865843651857942052864
  > mul 85070591730234615865843651857942052864 3|4
  > div 5 0
  > div 1 -7|3
  > pow -2|3 3
  > pow 0 -1
  > root -8|27 3
  > root 2 2
  > cmp -1|2 1|3
  > cmp 2|4 1|2
  > zero 0|3
  > zero 1|3
  > exact 10|4
  > digits 1 19|2
  > digits 8 1|86400
  > digits 2 1000
  > length 5eV
  > numeral 1.50e3
  > numeral .
  > numeral 1e10000
  > numeral 1e39
  > root 4 0
  > negate 1|0
  > half 3
  > END
  -3|2
  -1|3
  -4
  5|6
  1|6
  overflow
  63802943797675961899382738893456539648
  division by zero
  -3|7
  -8|27
  division by zero
  -2|3
  no exact root
  less
  equal
  true
  false
  5|2
  1e+01
  1.1574074e-05
  1e+03
  1
  1500
  not a numeral
  too long
  overflow
  bad call
  bad call
  bad call

Quantities, lists of units and tables of points.

  $ test_calls amounts <<'END'
  > add 1|2 m;1|3 m
  > plus 1|2 m;1|3 s
  > mul 2 m;3 m^2
  > times 2 m;3 m^-1
  > div 2 m;3 m^2
  > over 2 m;0
  > pow 4 m^2;1|2
  > raised 2 m;1|2
  > negate 2|3 m^-3|2
  > negated 2|3 m^-3|2
  > copy 1 m^2 s^-2 mol^-1 kg K^-1
  > digits 8;1|86400 m s^-3
  > conforms 2 m;3 m
  > reciprocal 2 m;3 m^-1
  > number 2
  > exponent 2 m^1|2;m
  > split 7|5 m;381|1250 m;127|5000 m
  > round 7|5 m;381|1250 m;127|5000 m
  > at 12;1 1|500;10 1|50;15 1|25
  > back 7|250;1 1|500;10 1|50;15 1|25
  > at 1;1 1
  > half 3
  > END
  5|6 m
  not conformable: 1|2 m and 1|3 s
  6 m^3
  6
  2|3 / m
  division by zero
  2 m
  no exact root
  -2|3 / m^3|2
  -2|3 / m^3|2
  1 kg m^2 / K mol s^2
  1.1574074e-05 m / s^3
  yes
  yes
  yes
  1|2
  counts 4 904|127
  counts 4 7
  7|250
  12
  no table
  bad call

Expressions, their words, and the keys that a word leads to.

  $ test_calls texts <<'END'
  > plain 2^3^2
  > plain -2^2
  > plain 3 - (-2)^2
  > plain 1/2 m
  > plain m/s s/day
  > plain 5eV m2 x_2
  > plain 1|2 m * sqrt(4)
  > plain f(2) f (2) ~f(2)
  > plain 2 +
  > plain sqrt 4
  > plain 1..2
  > plain 1|2|3
  > plain 2^1e10000
  > with x x2 + x (2) + x(3) + ~x(x)
  > parse 2 m + 3
  > parse 2 m +
  > words a + b(c2 / ~d(2 - 1))
  > copy -a (b|c)
  > copy -a (b|2)
  > copy -a (3|2)
  > name x_2
  > name m2
  > name sin
  > find plain km k-;m
  > END
  (power 2 (power 3 2))
  (negate (power 2 2))
  (sum + 3 - (power (group (negate 2)) 2))
  (product * 1 / (side 2 [m]))
  (product * [m] / (side [s] [s]) / [day])
  (side 5 [eV] (power [m] 2) [x_2])
  (product * (side (bar 1 2) [m]) * (root 2 4))
  (side (call [f] 2) [f] (group 2) (inverse [f] 2))
  syntax error at 3
  syntax error at 5
  syntax error at 2
  syntax error at 3
  numeral too long
  (sum + (power [] 2) + (side [] (group 2)) + (group (side [] 3)) + (inverse [x] []))
  tree
  syntax error at 5
  words [a] call [b] [c] inverse [d]
  syntax error at 5
  syntax error at 5
  (negate (side [a] (group (bar 3 2))))
  name
  no name
  refused name
  found k- m; looked at km km() km- k- m

The lines of a definition file.

  $ test_calls entries <<'END'
  > # units of length
  > m !
  > ft 381|1250 m	# a foot
  > yard3 3 ft
  > !set UNITS_ENGLISH US
  > !nothing
  > hour \
  >   60 min
  > area(d) units=[m;m^2] \
  >   range=[0,) d^2 ; area^2 ;
  > per_foot /ft
  > steps[m] 1 2 1 3
  > !unitlist ftin ft;in
  > !unitlist parts ft;;in
  > !unitlist
  > END
  2: m | primitive | !
  3: ft | body | 381|1250 m
  4: refused: bad name: yard3
  7: hour | body | 60 min
  9: refused: syntax error at 7
  11: refused: syntax error at 0
  12: refused: bad table
  13: !unitlist ftin | list of 2 | ft;in
  14: refused: syntax error at 0
  15: refused: bad definition
  10 lines, 6 refused

Decks.

  $ cat > deck.units <<'END'
  > # a few units
  > m !
  > !include more.units
  > in 254|10000 m
  > ft 12 in
  > !locale en_GB
  > gallon 4.54609 liter
  > !endlocale
  > !var FEET on
  > h_1 3 ft
  > !endvar
  > 1a m
  > !utf8
  > END
  $ cat > more.units <<'END'
  > liter 1|1000 m^3
  > gallon 231 in^3
  > kilo- 1000
  > f(x) units=[1;1] x+1 ; f-1
  > !unitlist ftin ft;in
  > !message hello
  > !endvar
  > END
  $ test_calls decks <<'END'
  > lines
  > load deck.units
  > lines
  > notices
  > keys
  > count
  > messages
  > entry gallon
  > place gallon
  > locale en_GB
  > set FEET on
  > snapshot
  > switch
  > settings
  > compare
  > entry gallon
  > define ft 12 in
  > define yd 3 ft
  > define 3 ft
  > drop gallon
  > append more.units
  > defining
  > load none.units
  > foo
  > END
  no deck
  ok
  2 m ! | 3 !include more.units | 1 liter 1|1000 m^3 | 2 gallon 231 in^3 | 3 kilo- 1000 | 4 f(x) units=[1;1] x+1 ; f-1 | 5 !unitlist ftin ft;in | 6 !message hello | 7 ~!endvar | 4 in 254|10000 m | 5 ft 12 in | 6 !locale en_GB | 7 gallon 4.54609 liter | 8 !endlocale | 9 !var FEET on | 10 h_1 3 ft | 11 !endvar | 12 ~1a m | 13 !utf8 | 13 !endutf8
  more.units:7: stray end | deck.units:12: bad name: 1a | deck.units:13: unclosed block
  f() | ft | !unitlist ftin | gallon | in | kilo- | liter | m
  5 units, 1 prefixes, 1 functions, 1 lists, 20 lines, 3 notices
  hello
  231 in^3
  3
  ok
  ok
  ok
  changed: gallon | h_1
  en_GB | FEET on
  different
  4.54609 liter
  changed: none
  changed: yd
  bad name: 3
  changed: gallon
  changed: none
  m ! | liter 1|1000 m^3 | gallon 231 in^3 | kilo- 1000 | f(x) units=[1;1] x+1 ; f-1 | !unitlist ftin ft;in | in 254|10000 m | ft 12 in | h_1 3 ft | ft 12 in | yd 3 ft | liter 1|1000 m^3 | gallon 231 in^3 | kilo- 1000 | f(x) units=[1;1] x+1 ; f-1 | !unitlist ftin ft;in
  absent
  bad call

Linked edges.

  $ test_calls edges <<'END'
  > node
  > node
  > node
  > reserve 2
  > spare
  > link 1 0
  > link 2 1
  > spare
  > users 0
  > unsettle 0
  > users 0
  > spare
  > link 3 0
  > forget 0
  > END
  0
  1
  2
  ok
  2
  ok
  ok
  0
  1
  0 1 2
  none
  2
  refused
  bad call

Edits that are undone and redone.

  $ cat > history.units <<'END'
  > m !
  > a 2 m
  > b 3 a
  > c 5 m
  > a 2 m
  > b 3 a
  > END
  $ test_calls history <<'END'
  > load history.units
  > value b
  > define a 7 m
  > value b
  > undo
  > value b
  > redo
  > value b
  > redo
  > drop a
  > lines
  > undo
  > lines
  > switch en_GB
  > undo
  > undo
  > undo
  > drop zz
  > undo
  > append history.units
  > lines
  > undo
  > lines
  > redo
  > undo
  > foo
  > END
  ok
  6 m
  ok
  21 m
  ok
  6 m
  ok
  21 m
  nothing to redo
  ok
  m !;a 2 m;b 3 a;c 5 m;a 2 m;b 3 a;
  ok
  m !;a 2 m;b 3 a;c 5 m;a 2 m;b 3 a;a 7 m;
  ok
  ok
  ok
  nothing to undo
  refused
  nothing to undo
  ok
  m !;a 2 m;b 3 a;c 5 m;a 2 m;b 3 a;m !;a 2 m;b 3 a;c 5 m;a 2 m;b 3 a;
  ok
  m !;a 2 m;b 3 a;c 5 m;a 2 m;b 3 a;
  ok
  ok
  no call

Replies and reports.

  $ cat > small.units <<'END'
  > m !
  > s !
  > ft 3|10 m
  > yd 3 ft
  > square(x) units=[m;m^2] x^2 ; sqrt(square)
  > !unitlist yards yd;ft
  > bad 2 nosuch
  > END
  $ test_calls answers <<'END'
  > load small.units
  > convert 3 ft to m
  > options verbose exact
  > convert 2 / s to s
  > convert 9 m^2 to square
  > options
  > convert 5 m to yd;ft
  > convert 5 m to yards
  > define ft
  > value 2 ft + s
  > value 2 ft
  > convert m to s
  > yards
  > check
  > search y
  > search zz
  > conformable 2 ft
  > conformable nosuch
  > END
  ok
  \t* 0.9 (esc)
  \t/ 1.1111111 (esc)
  ok
  \treciprocal conversion (esc)
  \t1 / (2 / s) = 1|2 s (esc)
  \t1 / (2 / s) = (1 / 2) s (esc)
  \t9 m^2 = square(3 m) (esc)
  ok
  \t5 yd + 1.6666667 ft (esc)
  \t5 yd + 1.6666667 ft (esc)
  \tDefinition: 3|10 m = 0.3 m (esc)
  sum of unlike units: 0.6 m and 1 s
  refused
  3|5 m
  conformability error
  \t1 m (esc)
  \t1 s (esc)
  refused
  bad call
  bad: unknown unit: nosuch in bad
  \t!unitlist yards\tyd;ft (esc)
  \tyd\t3 ft (esc)
  no matching names
  \tft\t3|10 m (esc)
  \tm\t! (esc)
  \tyd\t3 ft (esc)
  unknown unit: nosuch
  refused
