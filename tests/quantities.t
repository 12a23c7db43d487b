Operations on quantities, by `test_calls amounts`, which reads one call a line. The expected values were worked out by
hand and with Python's fractions. Each operation has two forms: one borrows its left operand, the other consumes it.

Products: the exponents are added. A fault of the number comes before one of an exponent.

  $ test_calls amounts <<END
  > mul 2 m;3 m^2
  > times 2 m;3 m^2
  > mul 1 m^1|2;1 m^1|2
  > times 1 m^1|2;1 m^1|2
  > mul 1 m^1|7;1 m^1|11
  > times 1 m^1|7;1 m^1|11
  > mul 1 m^1|4;1 m^1|15
  > times 1 m^1|4;1 m^1|15
  > mul 1 m^32767;1 m
  > times 1 m^32767;1 m
  > mul 1 m^-32767;1 m
  > times 1 m^-32767;1 m
  > mul 2 m^32767;0 m
  > times 2 m^32767;0 m
  > mul 170141183460469231731687303715884105727 m^32767;2 m
  > times 170141183460469231731687303715884105727 m^32767;2 m
  > END
  6 m^3
  6 m^3
  1 m
  1 m
  exponent out of range
  exponent out of range
  1 m^19|60
  1 m^19|60
  exponent out of range
  exponent out of range
  1 / m^32766
  1 / m^32766
  exponent out of range
  exponent out of range
  overflow
  overflow

Quotients: the exponents are subtracted.

  $ test_calls amounts <<END
  > div 2 m;3 m^2
  > over 2 m;3 m^2
  > div 1 m^1|2;1 m^1|2
  > over 1 m^1|2;1 m^1|2
  > div 1 m^1|7;1 m^1|11
  > over 1 m^1|7;1 m^1|11
  > div 1 m^1|4;1 m^1|15
  > over 1 m^1|4;1 m^1|15
  > div 1 m^32767;1 m
  > over 1 m^32767;1 m
  > div 1 m^-32767;1 m
  > over 1 m^-32767;1 m
  > div 2 m^32767;0 m
  > over 2 m^32767;0 m
  > div 170141183460469231731687303715884105727 m^32767;2 m
  > over 170141183460469231731687303715884105727 m^32767;2 m
  > END
  2|3 / m
  2|3 / m
  1
  1
  exponent out of range
  exponent out of range
  1 m^11|60
  1 m^11|60
  1 m^32766
  1 m^32766
  exponent out of range
  exponent out of range
  division by zero
  division by zero
  170141183460469231731687303715884105727|2 m^32766
  170141183460469231731687303715884105727|2 m^32766

Sums and differences: the exponents have to be equal, which is tested before the numbers are added.

  $ test_calls amounts <<END
  > add 1|2 m;1|3 m
  > plus 1|2 m;1|3 m
  > add 1|2 m;1|3 m^1|2
  > plus 1|2 m;1|3 m^1|2
  > add 170141183460469231731687303715884105727 m;170141183460469231731687303715884105727 m
  > plus 170141183460469231731687303715884105727 m;170141183460469231731687303715884105727 m
  > add 170141183460469231731687303715884105727 m;170141183460469231731687303715884105727
  > plus 170141183460469231731687303715884105727 m;170141183460469231731687303715884105727
  > add 1;1
  > plus 1;1
  > END
  5|6 m
  5|6 m
  not conformable: 1|2 m and 1|3 m^1|2
  not conformable: 1|2 m and 1|3 m^1|2
  overflow
  overflow
  not conformable: 170141183460469231731687303715884105727 m and 170141183460469231731687303715884105727
  not conformable: 170141183460469231731687303715884105727 m and 170141183460469231731687303715884105727
  2
  2

  $ test_calls amounts <<END
  > sub 1|2 m;1|3 m
  > minus 1|2 m;1|3 m
  > sub 1|2 m;1|3 m^1|2
  > minus 1|2 m;1|3 m^1|2
  > sub 170141183460469231731687303715884105727 m;170141183460469231731687303715884105727 m
  > minus 170141183460469231731687303715884105727 m;170141183460469231731687303715884105727 m
  > sub 170141183460469231731687303715884105727 m;170141183460469231731687303715884105727
  > minus 170141183460469231731687303715884105727 m;170141183460469231731687303715884105727
  > sub 1;1
  > minus 1;1
  > END
  1|6 m
  1|6 m
  not conformable: 1|2 m and 1|3 m^1|2
  not conformable: 1|2 m and 1|3 m^1|2
  0 m
  0 m
  not conformable: 170141183460469231731687303715884105727 m and 170141183460469231731687303715884105727
  not conformable: 170141183460469231731687303715884105727 m and 170141183460469231731687303715884105727
  0
  0

If two quantities do not conform, both are reported with all their names.

  $ test_calls amounts <<END
  > add 2 m;3 s
  > plus 2 m;3 s
  > END
  not conformable: 2 m and 3 s
  not conformable: 2 m and 3 s

Powers with a fraction as exponent: its numerator is a power of the number and its denominator a root, and each exponent
is multiplied by it. It has to be a number without names, which is tested first.

  $ test_calls amounts <<END
  > pow 1 m;32767
  > raised 1 m;32767
  > pow 1 m;32768
  > raised 1 m;32768
  > pow 1 m;-32768
  > raised 1 m;-32768
  > pow 1 m;1|32768
  > raised 1 m;1|32768
  > pow 1 m^32767;32767
  > raised 1 m^32767;32767
  > pow 1 m;1|60
  > raised 1 m;1|60
  > pow 1 m;1|61
  > raised 1 m;1|61
  > pow 1 m^61;1|61
  > raised 1 m^61;1|61
  > pow 4 m^2;1|2
  > raised 4 m^2;1|2
  > pow 2 m;1|2
  > raised 2 m;1|2
  > pow -8|27 m^3;1|3
  > raised -8|27 m^3;1|3
  > pow -4 m^2;1|2
  > raised -4 m^2;1|2
  > pow 4|9 m;-3|2
  > raised 4|9 m;-3|2
  > pow 3 m;0
  > raised 3 m;0
  > pow 0 m^1|60;-1|2
  > raised 0 m^1|60;-1|2
  > pow 2 m;127
  > raised 2 m;127
  > pow 2 m^1|60;1|2
  > raised 2 m^1|60;1|2
  > pow 4 m^1|60;1|2
  > raised 4 m^1|60;1|2
  > pow 2 m;1|40000 m
  > raised 2 m;1|40000 m
  > pow 2 m;2 m
  > raised 2 m;2 m
  > END
  1 m^32767
  1 m^32767
  exponent out of range
  exponent out of range
  exponent out of range
  exponent out of range
  exponent out of range
  exponent out of range
  exponent out of range
  exponent out of range
  1 m^1|60
  1 m^1|60
  exponent out of range
  exponent out of range
  1 m
  1 m
  2 m
  2 m
  no exact root
  no exact root
  -2|3 m
  -2|3 m
  no exact root
  no exact root
  27|8 / m^3|2
  27|8 / m^3|2
  1
  1
  division by zero
  division by zero
  overflow
  overflow
  no exact root
  no exact root
  exponent out of range
  exponent out of range
  exponent not a number
  exponent not a number
  exponent not a number
  exponent not a number

Names are sorted by their bytes. Those with negative exponents follow a slash.

  $ test_calls amounts <<END
  > copy 1 m^2 s^-2 mol^-1 kg K^-1
  > digits 8;1 m^2 s^-2 mol^-1 kg K^-1
  > END
  1 kg m^2 / K mol s^2
  1 kg m^2 / K mol s^2

Numbers and exponents, to eight digits and exactly.

  $ test_calls amounts <<END
  > digits 8;1|2 m^-1
  > copy 1|2 m^-1
  > digits 8;1 m^1|2
  > copy 1 m^1|2
  > digits 8;1|2 m^-3|2
  > copy 1|2 m^-3|2
  > digits 8;-7|3
  > copy -7|3
  > digits 8;1|86400 m s^-3
  > copy 1|86400 m s^-3
  > END
  0.5 / m
  1|2 / m
  1 m^1|2
  1 m^1|2
  0.5 / m^3|2
  1|2 / m^3|2
  -2.3333333
  -7|3
  1.1574074e-05 m / s^3
  1|86400 m / s^3

Copies, negations, and the exponent of a name.

  $ test_calls amounts <<END
  > digits 8;2|3 m^-3|2
  > copy 2|3 m^-3|2
  > digits 8;-2|3 m^-3|2
  > negate 2|3 m^-3|2
  > negated 2|3 m^-3|2
  > exponent 2|3 m^-3|2;m
  > exponent 2|3 m^-3|2;mm
  > END
  0.66666667 / m^3|2
  2|3 / m^3|2
  -0.66666667 / m^3|2
  -2|3 / m^3|2
  -2|3 / m^3|2
  -3|2
  0

Two quantities conform if each name has the same exponent in both. They are reciprocal if each name has opposite
exponents.

  $ test_calls amounts <<END
  > conforms 2 m^1|2;2 m^1|2
  > reciprocal 2 m^1|2;2 m^1|2
  > conforms 2 m^1|2;3 m^-1|2
  > reciprocal 2 m^1|2;3 m^-1|2
  > conforms 2 m^1|2;1 mm
  > reciprocal 2 m^1|2;1 mm
  > reciprocal 0;0
  > number 0
  > number 2 m^1|2
  > END
  yes
  no
  no
  yes
  no
  no
  yes
  yes
  no

Lines that are not calls.

  $ test_calls amounts <<END
  > half 3
  > mul 2
  > copy
  > digits 37;1
  > add 1|0;1
  > END
  bad call
  bad call
  bad call
  bad call
  bad call
