Tables of points, by `test_calls amounts`: `at` answers the y at an x, and `back` the x at a y. The expected values
come from Python's fractions.

A table that rises.

  $ sed 's:POINTS:1 1|500;10 1|50;15 1|25;19 3|50;23 1|10:' <<END | test_calls amounts
  > at 1;POINTS
  > back 1;POINTS
  > at 10;POINTS
  > back 10;POINTS
  > at 12;POINTS
  > back 12;POINTS
  > at 15;POINTS
  > back 15;POINTS
  > at 33|2;POINTS
  > back 33|2;POINTS
  > at 23;POINTS
  > back 23;POINTS
  > at 24;POINTS
  > back 24;POINTS
  > at 1|500;POINTS
  > back 1|500;POINTS
  > at 1|50;POINTS
  > back 1|50;POINTS
  > at 7|250;POINTS
  > back 7|250;POINTS
  > at 1|10;POINTS
  > back 1|10;POINTS
  > at 1|100;POINTS
  > back 1|100;POINTS
  > at 1|1000;POINTS
  > back 1|1000;POINTS
  > at 11|100;POINTS
  > back 11|100;POINTS
  > END
  1|500
  outside the table
  1|50
  outside the table
  7|250
  outside the table
  1|25
  outside the table
  19|400
  outside the table
  1|10
  outside the table
  outside the table
  outside the table
  outside the table
  1
  outside the table
  10
  outside the table
  12
  outside the table
  23
  outside the table
  5
  outside the table
  outside the table
  outside the table
  outside the table

Flat and falling segments: `back` uses the first segment that contains the y, and gives the left end of a flat one.

  $ sed 's:POINTS:1 5;2 5;3 4;5 -4;6 7:' <<END | test_calls amounts
  > at 1;POINTS
  > back 1;POINTS
  > at 3|2;POINTS
  > back 3|2;POINTS
  > at 5|2;POINTS
  > back 5|2;POINTS
  > at 3;POINTS
  > back 3;POINTS
  > at 4;POINTS
  > back 4;POINTS
  > at 5;POINTS
  > back 5;POINTS
  > at 11|2;POINTS
  > back 11|2;POINTS
  > at 6;POINTS
  > back 6;POINTS
  > at 0;POINTS
  > back 0;POINTS
  > at -4;POINTS
  > back -4;POINTS
  > at 7;POINTS
  > back 7;POINTS
  > at 15|2;POINTS
  > back 15|2;POINTS
  > at -5;POINTS
  > back -5;POINTS
  > END
  5
  15|4
  5
  29|8
  9|2
  27|8
  4
  13|4
  0
  3
  -4
  1
  3|2
  129|22
  7
  65|11
  outside the table
  4
  outside the table
  5
  outside the table
  6
  outside the table
  outside the table
  outside the table
  outside the table

A step that overflows is reported, even if the result would fit.

  $ sed 's:POINTS:0 0;85070591730234615865843651857942052864 85070591730234615865843651857942052864:' <<END | test_calls amounts
  > at 0;POINTS
  > back 0;POINTS
  > at 1;POINTS
  > back 1;POINTS
  > at 3;POINTS
  > back 3;POINTS
  > at 85070591730234615865843651857942052864;POINTS
  > back 85070591730234615865843651857942052864;POINTS
  > at -1;POINTS
  > back -1;POINTS
  > at 170141183460469231731687303715884105727;POINTS
  > back 170141183460469231731687303715884105727;POINTS
  > END
  0
  0
  1
  1
  overflow
  overflow
  overflow
  overflow
  outside the table
  outside the table
  outside the table
  outside the table

  $ sed 's:POINTS:0 -170141183460469231731687303715884105727;1 1;2 1|2:' <<END | test_calls amounts
  > at 0;POINTS
  > back 0;POINTS
  > at 1|2;POINTS
  > back 1|2;POINTS
  > at 3|2;POINTS
  > back 3|2;POINTS
  > at -170141183460469231731687303715884105727;POINTS
  > back -170141183460469231731687303715884105727;POINTS
  > END
  overflow
  overflow
  overflow
  overflow
  3|4
  outside the table
  outside the table
  overflow

A table has 2 to 1,000 points, whose x increase strictly.

  $ test_calls amounts <<END
  > at 1|2;
  > at 1|2;1 1
  > at 1|2;1|3 1;1|2 1
  > at 1|2;1|2 1;2|4 2
  > at 1|2;1|2 1;1|3 2
  > at 1|2;1 1;2 2;3 1;3 1
  > END
  no table
  no table
  1
  no table
  no table
  no table

  $ { printf 'at 0'; for i in $(seq 0 998); do printf ';%d %d|7' $i $i; done; echo; } | test_calls amounts
  0
  $ { printf 'at 0'; for i in $(seq 0 999); do printf ';%d %d|7' $i $i; done; echo; } | test_calls amounts
  0
  $ { printf 'at 0'; for i in $(seq 0 1000); do printf ';%d %d|7' $i $i; done; echo; } | test_calls amounts
  no table
