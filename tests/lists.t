Quantities split into counts of units, by `test_calls amounts`. The expected counts come from Python's fractions.

Each unit but the last gets the greatest whole count, and the last gets the rest. A negative quantity has the negated
counts of its magnitude. Faults number the units from 0. A unit that does not conform is reported before one that is not
above 0, and both before an overflow.

  $ test_calls amounts <<END
  > split 7|5 m;381|1250 m;127|5000 m
  > split -7|5 m;381|1250 m;127|5000 m
  > split 0 m;381|1250 m;127|5000 m
  > split -5400 s;3600 s;60 s;1 s
  > split 200001|2 s;86400 s;3600 s;60 s;1 s
  > split 7;2
  > split 1;3;2;1|7
  > split 100;3;7;1|7
  > split 170141183460469231731687303715884105727;170141183460469231731687303715884105726;1|170141183460469231731687303715884105727
  > split 170141183460469231731687303715884105727;1|3
  > split 5|1180591620717411303424;1|717897987691852588770249;1
  > split 1 m;381|1250 m;0 m
  > split 1 m;-1 m;0 m
  > split 1 m;-1 m;127|5000 m;1 s
  > split 1 m;-1;1 s
  > split 170141183460469231731687303715884105727 m;1|3 m;0 m
  > END
  counts 4 904|127
  counts -4 -904|127
  counts 0 0
  counts -1 -30 0
  counts 1 3 46 81|2
  counts 7|2
  counts 0 0 7
  counts 33 0 7
  counts 1 170141183460469231731687303715884105727
  overflow
  overflow
  not positive: 1
  not positive: 0
  not conformable: 2
  not conformable: 0
  not positive: 1

`round` first rounds the quantity to the nearest whole multiple of the last unit, or to the even one of two, and then
splits it.

  $ test_calls amounts <<END
  > round 7|5 m;381|1250 m;127|5000 m
  > round 75819|125000 m;381|1250 m;127|5000 m
  > round -75819|125000 m;381|1250 m;127|5000 m
  > round 5|2 m;1 m
  > round 7|2 m;1 m
  > round -5|2 m;1 m
  > round -7|2 m;1 m
  > round 9|4 m;1 m
  > round 11|4 m;1 m
  > round 1|2 m;1 m
  > round 119|120;1;1|60
  > round 200001|2 s;86400 s;3600 s;60 s;1 s
  > round 170141183460469231731687303715884105727;2
  > round 1 m;381|1250 m;-1 m
  > END
  counts 4 7
  counts 2 0
  counts -2 0
  counts 2
  counts 4
  counts -2
  counts -4
  counts 2
  counts 3
  counts 0
  counts 1 0
  counts 1 3 46 40
  overflow
  not positive: 1
