Expressions, and the tree or the fault of each, found by hand. `test_calls texts` reads one call a line; these
functions write each text before its answer. A tree has its kind before its parts, words are in brackets, `[]` is the
argument, and a numeral is its digits and a power of ten.

  $ answers() { while IFS= read -r text; do printf '%s => ' "$text"; printf '%s\n' "$1 $text" | test_calls texts; done; }
  $ trees() { answers plain; }
  $ bound() { answers "with $1"; }
  $ naming() { answers name; }

Empty texts, and texts with a part that is no word, numeral or mark.

  $ trees <<'END'
  > 
  >   
  > .
  > 1..2
  > 1.5.2
  > 1e5.
  > m1
  > m22
  > m_
  > _m
  > a m.
  > sin2
  > 2 ; 3
  > 2[3]
  > END
   => syntax error at 0
     => syntax error at 2
  . => syntax error at 0
  1..2 => syntax error at 2
  1.5.2 => syntax error at 3
  1e5. => syntax error at 3
  m1 => syntax error at 0
  m22 => syntax error at 0
  m_ => syntax error at 0
  _m => syntax error at 0
  a m. => syntax error at 2
  sin2 => syntax error at 0
  2 ; 3 => syntax error at 2
  2[3] => syntax error at 1
  $ printf 'plain a\001b\n' | test_calls texts
  syntax error at 1

Tokens in wrong places, and texts that end too early.

  $ trees <<'END'
  > 2 +
  > * 2
  > 2 * / 3
  > 2***3
  > 2 * *3
  > 2^
  > m)
  > f ()
  > f(
  > per
  > sqrt 4
  > ~x
  > ~~f(2)
  > ~(2)
  > ~m2(3)
  > ~per(3)
  > END
  2 + => syntax error at 3
  * 2 => syntax error at 0
  2 * / 3 => syntax error at 4
  2***3 => syntax error at 3
  2 * *3 => syntax error at 4
  2^ => syntax error at 2
  m) => syntax error at 1
  f () => syntax error at 3
  f( => syntax error at 2
  per => syntax error at 0
  sqrt 4 => syntax error at 5
  ~x => syntax error at 1
  ~~f(2) => syntax error at 1
  ~(2) => syntax error at 1
  ~m2(3) => syntax error at 1
  ~per(3) => syntax error at 1

A bar is allowed only between two numerals.

  $ trees <<'END'
  > 1|2 m
  > 1 | 2^2
  > 1|2|3
  > 1 |
  > a|b
  > m2|3
  > (1)|2
  > END
  1|2 m => (side (bar 1 2) [m])
  1 | 2^2 => (power (bar 1 2) 2)
  1|2|3 => syntax error at 3
  1 | => syntax error at 3
  a|b => syntax error at 1
  m2|3 => syntax error at 2
  (1)|2 => syntax error at 3

The first fault is reported. A numeral is reported as too long only if a numeral is allowed there.

  $ trees <<'END'
  > 1e10000
  > 1e10000)
  > ) 1e10000
  > ~1e10000
  > 170141183460469231731687303715884105728
  > END
  1e10000 => numeral too long
  1e10000) => numeral too long
  ) 1e10000 => syntax error at 0
  ~1e10000 => syntax error at 1
  170141183460469231731687303715884105728 => numeral too long
  $ printf 'plain \t1e39 \n' | test_calls texts
  1e39

Numerals and words: a point after a blank begins a numeral, the parenthesis of a call directly follows the name, and a
digit from 2 to 9 at the end of a name is a power, unless an underscore precedes the digits.

  $ trees <<'END'
  > 1 .5
  > 5eV
  > f (2)
  > f(2)
  > sin(2)
  > log2
  > m2
  > m2(3)
  > x_2
  > x_22
  > x_a2
  > m0
  > END
  1 .5 => (side 1 5e-1)
  5eV => (side 5 [eV])
  f (2) => (side [f] (group 2))
  f(2) => (call [f] 2)
  sin(2) => (call [sin] 2)
  log2 => [log2]
  m2 => (power [m] 2)
  m2(3) => (side (power [m] 2) (group 3))
  x_2 => [x_2]
  x_22 => [x_22]
  x_a2 => (power [x_a] 2)
  m0 => [m0]

Powers group to the right and bind tighter than a sign.

  $ trees <<'END'
  > 2^3^2
  > 2**3
  > -2^2
  > 2^-3^2
  > 3 - (-2)^2
  > END
  2^3^2 => (power 2 (power 3 2))
  2**3 => (power 2 3)
  -2^2 => (negate (power 2 2))
  2^-3^2 => (power 2 (negate (power 3 2)))
  3 - (-2)^2 => (sum + 3 - (power (group (negate 2)) 2))

Signs, and operands side by side, which bind tighter than a slash.

  $ trees <<'END'
  > +2
  > 2 - +-3
  > 2 -a
  > -a b
  > 1/2 m
  > m/s s/day
  > m per s
  > 60 per(2)
  > END
  +2 => 2
  2 - +-3 => (sum + 2 - (negate 3))
  2 -a => (sum + 2 - [a])
  -a b => (negate (side [a] [b]))
  1/2 m => (product * 1 / (side 2 [m]))
  m/s s/day => (product * [m] / (side [s] [s]) / [day])
  m per s => (product * [m] / [s])
  60 per(2) => (product * 6e1 / (group 2))

Roots and inverses.

  $ trees <<'END'
  > sqrt(4 m^2)
  > cuberoot (8)
  > ~f(1 + 2)
  > END
  sqrt(4 m^2) => (root 2 (side 4 (power [m] 2)))
  cuberoot (8) => (root 3 8)
  ~f(1 + 2) => (inverse [f] (sum + 1 + 2))

`x` is the argument.

  $ bound x <<'END'
  > x x2 y
  > x(2) + y(2)
  > ~x(2)
  > END
  x x2 y => (side [] (power [] 2) [y])
  x(2) + y(2) => (sum + (group (side [] 2)) + (call [y] 2))
  ~x(2) => (inverse [x] 2)

Different trees are written differently: a bar is not a quotient, and numerals beyond the largest fraction are
distinguished.

  $ trees <<'END'
  > 1|2
  > .5
  > 0.50
  > 1e39
  > 1e40
  > 1e-40
  > 0e9
  > 2 3
  > (2 3)
  > 2 (3)
  > END
  1|2 => (bar 1 2)
  .5 => 5e-1
  0.50 => 5e-1
  1e39 => 1e39
  1e40 => 1e40
  1e-40 => 1e-40
  0e9 => 0
  2 3 => (side 2 3)
  (2 3) => (group (side 2 3))
  2 (3) => (side 2 (group 3))

A name has at most 255 bytes, and a word with a power has at most 256.

  $ repeated() { yes -- "$2" | head -n "$1" | tr -d '\n'; }
  $ verdict() { printf 'parse %s\n' "$1" | test_calls texts; }
  $ verdict "$(repeated 255 a)"
  tree
  $ verdict "$(repeated 255 a)2"
  tree
  $ verdict "$(repeated 256 a)"
  syntax error at 0
  $ verdict "$(repeated 256 a)2"
  syntax error at 0

A token is at most 64 deep. Parentheses, signs and powers add to the depth; a power digit and an operator do not.

  $ verdict "$(repeated 64 '(')1"
  syntax error at 65
  $ verdict "$(repeated 65 '(')1"
  nested too deep
  $ verdict "$(repeated 64 -)1"
  tree
  $ verdict "$(repeated 65 -)1"
  nested too deep
  $ verdict "m$(repeated 64 ' m^2')"
  tree
  $ verdict "m$(repeated 65 ' m^2')"
  nested too deep
  $ verdict "m$(repeated 65 ' m2')"
  tree
  $ verdict "1$(repeated 1000 +1)"
  tree
  $ verdict "(1)$(repeated 100 '(1)')"
  tree
  $ verdict "$(repeated 100 'f(1)+')1"
  tree

The words of a tree from left to right, each after its use as a call or an inverse, and the tree of a copy.

  $ test_calls texts <<'END'
  > words a + b(c2 / ~d(2 - 1)) sqrt(-e) ^ 2 | 3 (f 3) g * 4
  > words 2 + 1|2
  > words 2 +
  > copy a + b(c2 / ~d(2 - 1)) sqrt(-e) ^ 2 | 3 (f 3) g * 4
  > copy 2 +
  > neither of them
  > END
  words [a] call [b] [c] inverse [d] [e] [f] [g]
  words
  syntax error at 3
  (sum + [a] + (product * (side (call [b] (product * (power [c] 2) / (inverse [d] (sum + 2 - 1)))) (power (root 2 (negate [e])) (bar 2 3)) (group (side [f] 3)) [g]) * 4))
  syntax error at 3
  bad call

Names, words that are no names, and refused names. A byte above 127 may be part of a name.

  $ naming <<'END'
  > m
  > %
  > a.b
  > x_2
  > x_1.2,3
  > x_a2
  > m2
  > m0
  > 2m
  > 
  > _m
  > ,m
  > .m
  > !m
  > m,
  > a b
  > per
  > sqrt
  > sin
  > log2
  > sinn
  > END
  m => name
  % => name
  a.b => name
  x_2 => name
  x_1.2,3 => name
  x_a2 => no name
  m2 => no name
  m0 => name
  2m => no name
   => no name
  _m => no name
  ,m => no name
  .m => no name
  !m => no name
  m, => no name
  a b => no name
  per => no name
  sqrt => no name
  sin => refused name
  log2 => refused name
  sinn => name

  $ printf 'name m\310\n' | test_calls texts
  name

A million operands are parsed, copied, listed and freed without a nested call for each.

  $ for pattern in 'm ' m+ 'm*' m-; do
  >     { printf 'words '; repeated 1000000 "$pattern"; echo m; } | test_calls texts | wc -w
  > done
  1000002
  1000002
  1000002
  1000002
  $ { printf 'copy '; repeated 1000000 'm '; echo m; } | test_calls texts | wc -w
  1000002
