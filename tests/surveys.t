Reports on all definitions, by `test_calls answers`. The first call, `load FILE`, loads a deck. `check` answers a line
for each key that has a fault, `search TEXT` a row for each key whose name contains TEXT, and `conformable FROM` a row
for each unit that conforms to FROM. If a fault takes the place of a report, `refused` follows it. `options` sets the
options of replies.

The built-in definitions have no faults.

  $ test_calls answers <<END
  > load $BUILTIN
  > check
  > options
  > check
  > END
  ok
  ok

Faults of units: unknown words in their own definition or in another one, refused functions, and cycles, which are
reported for each of their names.

  $ cat > names.units <<'END'
  > m !
  > unknown 2 nosuch
  > behind 3 unknown
  > refused sin(2)
  > bare 2 ln
  > beside 2 refused m
  > itself 2 itself
  > one 2 two
  > two three
  > three 5 one
  > tail m / three
  > first nosuch sin(2)
  > second sin(2) nosuch
  > later nosuch
  > later 7 m
  > END
  $ test_calls answers <<END
  > load names.units
  > check
  > define two
  > define tail
  > define three
  > check
  > END
  ok
  bare: refused function: ln in bare
  behind: unknown unit: nosuch in unknown
  beside: refused function: sin in refused
  first: unknown unit: nosuch in first
  itself: cycle: itself -> itself
  one: cycle: one -> two -> three -> one
  refused: refused function: sin in refused
  second: refused function: sin in second
  tail: cycle: three -> one -> two -> three
  three: cycle: three -> one -> two -> three
  two: cycle: two -> three -> one -> two
  unknown: unknown unit: nosuch in unknown
  cycle: two -> three -> one -> two
  refused
  cycle: three -> one -> two -> three
  refused
  cycle: three -> one -> two -> three
  refused
  bare: refused function: ln in bare
  behind: unknown unit: nosuch in unknown
  beside: refused function: sin in refused
  first: unknown unit: nosuch in first
  itself: cycle: itself -> itself
  one: cycle: one -> two -> three -> one
  refused: refused function: sin in refused
  second: refused function: sin in second
  tail: cycle: three -> one -> two -> three
  three: cycle: three -> one -> two -> three
  two: cycle: two -> three -> one -> two
  unknown: unknown unit: nosuch in unknown

Units without a value. A name fault is reported before a value fault. The options set the form of the quantities of a
sum.

  $ cat > values.units <<'END'
  > m !
  > s !
  > one !dimensionless
  > past 1e39
  > tiny 6.62607015e-34 m
  > over 1/(one - 1)
  > root sqrt(2)
  > half sqrt(m)
  > sum m/3 + s
  > sums 2 sum
  > power 2^m
  > high m^32767 m
  > both 1e39 nosuch
  > square(x) units=[m;m^2] x^2
  > scale(x) units=[1;1] domain=[0,10] range=[0,4] x/2
  > odd(x) units=[m;m] x^2
  > gauge[m] 1 2, 3 6
  > needs 2 square
  > wrong square(3 s)
  > outside scale(11)
  > beyond scale(9)
  > back ~square(4 m^2)
  > result odd(2 m)
  > off gauge(4)
  > good gauge(2) square(3 m)
  > END
  $ test_calls answers <<END
  > load values.units
  > check
  > options exact
  > check
  > END
  ok
  back: no inverse: square
  beyond: not in range: scale
  both: unknown unit: nosuch in both
  high: exponent out of range
  needs: argument needed: square
  off: outside table: gauge
  outside: not in domain: scale
  over: division by zero
  past: overflow
  power: exponent is not a number
  result: wrong result: odd
  root: no exact root
  sum: sum of unlike units: 0.33333333 m and 1 s
  sums: sum of unlike units: 0.33333333 m and 1 s
  tiny: overflow
  wrong: wrong argument: square
  ok
  back: no inverse: square
  beyond: not in range: scale
  both: unknown unit: nosuch in both
  high: exponent out of range
  needs: argument needed: square
  off: outside table: gauge
  outside: not in domain: scale
  over: division by zero
  past: overflow
  power: exponent is not a number
  result: wrong result: odd
  root: no exact root
  sum: sum of unlike units: 1|3 m and 1 s
  sums: sum of unlike units: 1|3 m and 1 s
  tiny: overflow
  wrong: wrong argument: square

Faults in the bodies of prefixes. A chain that contains the prefix begins and ends with it; any other chain is
unchanged.

  $ cat > prefixes.units <<'END'
  > m !
  > kilo- 1000
  > length- 2 m
  > bad- 2 nosuch
  > far- 2 unknown
  > unknown nosuch
  > sine- sin(1)
  > own- own
  > past- 2^127
  > none- 1|0
  > pa- 2 ua
  > ua 3 pam
  > pb- ub
  > ub vb
  > vb 5 pbm
  > pc- uc
  > uc vc
  > vc uc
  > pf- 2 f(3)
  > f(x) pfm x
  > END
  $ test_calls answers <<END
  > load prefixes.units
  > check
  > END
  ok
  bad-: unknown unit: nosuch in bad-
  f(): cycle: f() -> pf- -> f()
  far-: unknown unit: nosuch in unknown
  none-: division by zero
  own-: cycle: own- -> own-
  pa-: cycle: pa- -> ua -> pa-
  past-: overflow
  pb-: cycle: pb- -> ub -> vb -> pb-
  pc-: cycle: uc -> vc -> uc
  pf-: cycle: pf- -> f() -> pf-
  sine-: refused function: sin in sine-
  ua: cycle: ua -> pa- -> ua
  ub: cycle: ub -> vb -> pb- -> ub
  uc: cycle: uc -> vc -> uc
  unknown: unknown unit: nosuch in unknown
  vb: cycle: vb -> pb- -> ub -> vb
  vc: cycle: vc -> uc -> vc

Faults of functions: first those of the names in the in unit, the out unit, the forward and the inverse expression, in
this order, and then those of the values of both units. The expressions themselves are not evaluated.

  $ cat > functions.units <<'END'
  > m !
  > s !
  > unit(x) units=[nosuch;none] none x ; sin(unit)
  > out(x) units=[m;none] nosuch x ; sin(out)
  > forward(x) units=[m;m] nosuch x ; none out(forward)
  > inverse(x) units=[m;m] x ; 2 nosuch inverse
  > refused(x) sin(x)
  > range(x) units=[2^127 m;1/0] x
  > result(x) units=[m;1/0] nosuch(x)
  > later(x) units=[m;m + s] 1/0
  > sound(x) units=[m;s] 1/0 + x ; 2^127
  > plain(x) 1/0 + x
  > loop(x) loop(x) + 1
  > ring(x) 2 rung
  > rung ring(3)
  > inner(x) 2 refused(x)
  > END
  $ test_calls answers <<END
  > load functions.units
  > check
  > END
  ok
  forward(): unknown unit: nosuch in forward()
  inner(): refused function: sin in refused()
  inverse(): unknown unit: nosuch in inverse()
  later(): sum of unlike units: 1 m and 1 s
  loop(): cycle: loop() -> loop()
  out(): unknown unit: none in out()
  range(): overflow
  refused(): refused function: sin in refused()
  result(): unknown unit: nosuch in result()
  ring(): cycle: ring() -> rung -> ring()
  rung: cycle: rung -> ring() -> rung
  unit(): unknown unit: nosuch in unit()

A rank that is too high is not a fault of the function, but of each unit that calls it.

  $ {
  >   echo 'f_1(x) x'
  >   for i in $(seq 2 17); do echo "f_$i(x) f_$((i - 1))(x)"; done
  >   printf '%s\n' 'deep f_17(1)' 'less f_16(1)' 'to() f_17' 'deeper to(1)'
  > } > deep.units
  $ test_calls answers <<END
  > load deep.units
  > check
  > END
  ok
  deep: calls too deep: f_17
  deeper: calls too deep: to

Aliases and tables. An alias has no unit of its own, so the check covers only the names that its target uses.

  $ cat > tables.units <<'END'
  > m !
  > s !
  > worth(x) units=[2^127;m] m x
  > name(x) nosuch x
  > alias() worth
  > again() name
  > gone() missing
  > unit() m
  > aa() ab
  > ab() aa()
  > past[2^127 m] 1 2, 3 4
  > sum[m + s] 1 2, 3 4
  > word[nosuch] 1 2, 3 4
  > sine[sin(1) m] 1 2, 3 4
  > ring[rung] 1 2, 3 4
  > rung ring(2)
  > flat[0 m] 1 2, 3 4
  > to() sum
  > END
  $ test_calls answers <<END
  > load tables.units
  > check
  > END
  ok
  aa(): cycle: aa() -> ab() -> aa()
  ab(): cycle: ab() -> aa() -> ab()
  again(): unknown unit: nosuch in name()
  gone(): unknown unit: missing in gone()
  name(): unknown unit: nosuch in name()
  past(): overflow
  ring(): cycle: ring() -> rung -> ring()
  rung: cycle: rung -> ring() -> rung
  sine(): refused function: sin in sine()
  sum(): sum of unlike units: 1 m and 1 s
  unit(): unknown unit: m in unit()
  word(): unknown unit: nosuch in word()
  worth(): overflow

Lists: the parts are checked in order for faults of their names and values, then the first that does not conform to the
first part is reported, then the first that is not above 0. An unknown word of a part is reported without a key.

  $ cat > lists.units <<'END'
  > m !
  > s !
  > unknown nosuch
  > ua ub
  > ub ua
  > !unitlist a nosuch;m
  > !unitlist b m;sin(2)
  > !unitlist c m;2 unknown
  > !unitlist d m;ub
  > !unitlist e m;2^127 m;nosuch
  > !unitlist f m;nosuch;2^127 m
  > !unitlist g m;s;nosuch
  > !unitlist h m;1/m
  > !unitlist i 0 m;s
  > !unitlist j m;0 m;-1 m
  > !unitlist k -1 m
  > !unitlist l m;1|2 m;1|3 m
  > !unitlist m m
  > END
  $ test_calls answers <<END
  > load lists.units
  > check
  > END
  ok
  !unitlist a: unknown unit: nosuch
  !unitlist b: refused function: sin
  !unitlist c: unknown unit: nosuch in unknown
  !unitlist d: cycle: ub -> ua -> ub
  !unitlist e: overflow
  !unitlist f: unknown unit: nosuch
  !unitlist g: unknown unit: nosuch
  !unitlist h: conformability error
  !unitlist i: conformability error
  !unitlist j: list unit not positive: 2
  !unitlist k: list unit not positive: 1
  ua: cycle: ua -> ub -> ua
  ub: cycle: ub -> ua -> ub
  unknown: unknown unit: nosuch in unknown

Keys are sorted by the bytes of their names; keys of the same name are in the order unit, prefix, function, list. The
last definition in force counts.

  $ cat > order.units <<'END'
  > m !
  > !unitlist same none
  > same(x) none x
  > same- none
  > same none
  > Z none
  > a none
  > aa none
  > % none
  > µ none
  > B none
  > a 2 m
  > !locale en_GB
  > Z 3 m
  > aa 3 m
  > !endlocale
  > END
  $ test_calls answers <<END
  > load order.units
  > check
  > search a
  > search same
  > END
  ok
  %: unknown unit: none in %
  B: unknown unit: none in B
  Z: unknown unit: none in Z
  aa: unknown unit: none in aa
  same: unknown unit: none in same
  same-: unknown unit: none in same-
  same(): unknown unit: none in same()
  !unitlist same: unknown unit: none
  \xc2\xb5: unknown unit: none in \xc2\xb5 (esc)
  \ta\t2 m (esc)
  \taa\tnone (esc)
  \tsame\tnone (esc)
  \tsame-\tnone (esc)
  \tsame()\t(x) none x (esc)
  \t!unitlist same\tnone (esc)
  \tsame\tnone (esc)
  \tsame-\tnone (esc)
  \tsame()\t(x) none x (esc)
  \t!unitlist same\tnone (esc)

A search finds the text anywhere in a name, and only in names. It evaluates nothing.

  $ cat > search.units <<'END'
  > m !
  > s !
  > min 60 s
  > mil 5 m
  > milli- 1|1000
  > END
  $ test_calls answers <<END
  > load search.units
  > search mil
  > search in
  > search m
  > search i
  > search 
  > search mill
  > search milli-
  > search 60
  > search M
  > search milliseconds and more
  > search l m
  > END
  ok
  \tmil\t5 m (esc)
  \tmilli-\t1|1000 (esc)
  \tmin\t60 s (esc)
  \tm\t! (esc)
  \tmil\t5 m (esc)
  \tmilli-\t1|1000 (esc)
  \tmin\t60 s (esc)
  \tmil\t5 m (esc)
  \tmilli-\t1|1000 (esc)
  \tmin\t60 s (esc)
  \tm\t! (esc)
  \tmil\t5 m (esc)
  \tmilli-\t1|1000 (esc)
  \tmin\t60 s (esc)
  \ts\t! (esc)
  \tmilli-\t1|1000 (esc)
  no matching names
  no matching names
  no matching names
  no matching names
  no matching names

  $ test_calls answers <<END
  > load $BUILTIN
  > search temp
  > search tempC()
  > search gauge
  > search hms
  > search !unitlist
  > search xyz
  > END
  ok
  \tstdtemp\t273.15 K (esc)
  \ttempC()\t(x) units=[1;K] domain=[-273.15,) range=[0,) x K + stdtemp ; (tempC +(-stdtemp))/K (esc)
  \ttempF()\t(x) units=[1;K] domain=[-459.67,) range=[0,) (x+(-32)) degF + stdtemp ;      (tempF+(-stdtemp))/degF + 32 (esc)
  \ttempcelsius()\t() tempC (esc)
  no matching names
  \tzincgauge()\t[in] 1 0.002, 10 0.02, 15 0.04,      19 0.06, 23 0.1 (esc)
  \t!unitlist hms\thr;min;sec (esc)
  no matching names
  no matching names

  $ printf '' > empty.units
  $ test_calls answers <<END
  > load empty.units
  > check
  > search 
  > search m
  > conformable 1
  > END
  ok
  no matching names
  no matching names
  no matching names

The units that conform to a quantity. Only units that have a value are listed. The size of the quantity does not matter.

  $ test_calls answers <<END
  > load search.units
  > conformable 2 s
  > conformable   0 m  
  > conformable -3 mins
  > conformable 1/s
  > conformable m s
  > conformable 7
  > conformable 2 nosuch
  > conformable 2 +
  > conformable m + s
  > conformable 
  > END
  ok
  \tmin\t60 s (esc)
  \ts\t! (esc)
  \tm\t! (esc)
  \tmil\t5 m (esc)
  \tmin\t60 s (esc)
  \ts\t! (esc)
  no matching names
  no matching names
  no matching names
  unknown unit: nosuch
  refused
  syntax error at 3
  refused
  sum of unlike units: 1 m and 1 s
  refused
  syntax error at 0
  refused

  $ test_calls answers <<END
  > load $BUILTIN
  > conformable 3 K
  > conformable tempC(20)
  > conformable 1
  > conformable radian
  > conformable J
  > conformable m^2
  > END
  ok
  \tK\t! (esc)
  \tdegF\t5|9 K (esc)
  \tstdtemp\t273.15 K (esc)
  \tK\t! (esc)
  \tdegF\t5|9 K (esc)
  \tstdtemp\t273.15 K (esc)
  \t%\tpercent (esc)
  \tpercent\t1|100 (esc)
  \tradian\t!dimensionless (esc)
  \t%\tpercent (esc)
  \tpercent\t1|100 (esc)
  \tradian\t!dimensionless (esc)
  \tJ\tN m (esc)
  no matching names

  $ cat > fractions.units <<'END'
  > m !
  > bad nosuch m
  > ring ring
  > past 2^127 m
  > root sqrt(m)
  > roots 3 root
  > back 1/root
  > odd m^3|2
  > under m root
  > f(x) m x
  > p- sqrt(m)
  > !unitlist l m
  > END
  $ test_calls answers <<END
  > load fractions.units
  > conformable sqrt(m)
  > conformable odd
  > conformable m/root
  > conformable 1/p
  > conformable m
  > END
  ok
  \troot\tsqrt(m) (esc)
  \troots\t3 root (esc)
  \todd\tm^3|2 (esc)
  \tunder\tm root (esc)
  \troot\tsqrt(m) (esc)
  \troots\t3 root (esc)
  \tback\t1/root (esc)
  \tm\t! (esc)
