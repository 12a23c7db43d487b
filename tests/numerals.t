Numerals, as `test_calls numbers` reads them. The expected values are those of Python's fractions.

The length of the longest numeral at the front of a text, or 0 if there is none.

  $ test_calls numbers <<END
  > length 5.
  > length .5
  > length 0.0254
  > length 00123.4500e2
  > length 1E+3
  > length 1e00001
  > length 1e-38
  > length 1e-39
  > length 1e39
  > length 1e9999
  > length 1e00000000009999
  > length 1e-00000009999
  > length 1e10000
  > length 0e10000
  > length 0.000e-9999
  > length 8.8817841970012523233890533447265625e-16
  > length 170141183460469231731687303715884105727
  > length 1701411834604692317316873037158841057.270
  > length 170141183460469231731687303715884105728
  > length 5eV
  > length 5e+
  > length 1.2.3
  > length 1.5e-2x
  > length -5
  > length .
  > END
  2
  2
  6
  12
  4
  7
  5
  5
  4
  6
  16
  14
  7
  7
  11
  40
  39
  41
  39
  1
  1
  3
  6
  0
  0

The value of a text that is a numeral.

  $ test_calls numbers <<END
  > numeral 5.
  > numeral .5
  > numeral 0.0254
  > numeral 00123.4500e2
  > numeral 1E+3
  > numeral 1e00001
  > numeral 1e-38
  > numeral 1e-39
  > numeral 1e39
  > numeral 1e9999
  > numeral 1e00000000009999
  > numeral 1e-00000009999
  > numeral 1e10000
  > numeral 0e10000
  > numeral 0.000e-9999
  > numeral 8.8817841970012523233890533447265625e-16
  > numeral 170141183460469231731687303715884105727
  > numeral 1701411834604692317316873037158841057.270
  > numeral 170141183460469231731687303715884105728
  > numeral 5eV
  > numeral 5e+
  > numeral 1.2.3
  > numeral 1.5e-2x
  > numeral -5
  > numeral .
  > END
  5
  1|2
  127|5000
  12345
  1000
  10
  1|100000000000000000000000000000000000000
  overflow
  overflow
  overflow
  overflow
  overflow
  too long
  too long
  0
  1|1125899906842624
  170141183460469231731687303715884105727
  170141183460469231731687303715884105727|100
  too long
  not a numeral
  not a numeral
  not a numeral
  not a numeral
  not a numeral
  not a numeral

An empty text is not a numeral.

  $ printf 'length \nnumeral \n' | test_calls numbers
  0
  not a numeral

Zeros before and after the other digits never make a numeral too long.

  $ zeros=$(printf %060000d 0)
  $ for text in "$zeros" "1$zeros" "${zeros}1.5" "2.5$zeros"; do
  >     printf 'length %s\nnumeral %s\n' "$text" "$text"
  > done | test_calls numbers
  60000
  0
  60001
  overflow
  60003
  3|2
  60003
  5|2
