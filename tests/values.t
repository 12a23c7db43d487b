Values of expressions and functions. The function `values` asks one session of `units` for the value of each line of
its input, over the definitions in t.units. The expected values come from Python's fractions
(tools/comparisons/compare_values.py).

  $ values() { sed 'a\\' | units -q -t --exact -f t.units 2>&1; }

Numerals, units and prefixes.

  $ cat > t.units <<'END'
  > m !
  > s !
  > rad !dimensionless
  > k- 1000
  > ft 0.3048 m
  > inch 1|12 ft
  > END
  $ values <<'END'
  > m
  > s
  > rad
  > k
  > ft
  > inch
  > 3 km
  > 3|4
  > 1e3 / 4
  > inch
  > rad
  > 2 ft inch / s
  > m^2 m^-3 s^0
  > ft2 / m
  > -ft + 1 m
  > -(-2)
  > +-+2
  > k 2
  > m(3 s)
  > km(2)
  > END
  1 m
  1 s
  1
  1000
  381|1250 m
  127|5000 m
  3000 m
  3|4
  250
  127|5000 m
  1
  48387|3125000 m^2 / s
  1 / m
  145161|1562500 m
  869|1250 m
  2
  -2
  2000
  3 m s
  2000 m

The value of a dimensionless primitive is 1. A name keeps its value or its fault.

  $ cat > t.units <<'END'
  > rad !dimensionless
  > deg 1|180 rad
  > zero 0
  > wrong 1 / zero
  > worse wrong + zero^-1
  > END
  $ values <<'END'
  > rad
  > deg
  > zero
  > wrong
  > worse
  > deg
  > wrong
  > worse
  > 2 worse
  > END
  1
  1|180
  0
  division by zero
  division by zero
  1|180
  division by zero
  division by zero
  division by zero

Each fault of a value, before another fault: the first is reported.

  $ cat > t.units <<'END'
  > m !
  > s !
  > big 170141183460469231731687303715884105727
  > f(x) domain=[0,1] x ; f
  > g(x) range=[0,1] 3 x ; g / 3
  > h(x) units=[m;s] x s / m
  > i(x) units=[m;s] x
  > t[m] 1 2, 3 5
  > END
  $ values <<'END'
  > m
  > s
  > big
  > 1 / 0 + big 2
  > big 2 + 1 / 0
  > 2^0.5 + 1 / 0
  > m + s + 1 / 0
  > 2^m + 1 / 0
  > 2^40000 + 1 / 0
  > 1^40000 + 1 / 0
  > f(2) + 1 / 0
  > g(1) + 1 / 0
  > h(s) + 1 / 0
  > i(m) + 1 / 0
  > ~h(s) + 1 / 0
  > t(0) + 1 / 0
  > t + 1 / 0
  > 1 / 0 + t
  > END
  1 m
  1 s
  170141183460469231731687303715884105727
  division by zero
  overflow
  no exact root
  sum of unlike units: 1 m and 1 s
  exponent is not a number
  exponent out of range
  exponent out of range
  not in domain: f
  not in range: g
  wrong argument: h
  wrong result: i
  no inverse: h
  outside table: t
  argument needed: t
  division by zero

The first fault from left to right is reported: in a prefix with its unit, in a sum of three, in a power, and in a call
whose argument and in unit both have faults.

  $ cat > t.units <<'END'
  > m !
  > s !
  > zero- 1 / 0
  > wide- 170141183460469231731687303715884105727
  > dark 2^m
  > tall 2
  > f(x) units=[2^m;1 / 0] domain=[0,1] x ; f
  > g(x) units=[1;1 / 0] m + s ; 2^m
  > h(x) units=[1;1 / 0] x ; h
  > i(x) units=[1 / 0;1] x ; 2^m
  > j(x) units=[1 / 0;1] x ; j
  > END
  $ values <<'END'
  > m
  > s
  > zero
  > wide
  > dark
  > tall
  > zerodark
  > widedark
  > widetall
  > dark + m + s
  > m + dark + s
  > m + s + dark
  > m + m + s
  > (1 / 0)^dark
  > 2^dark
  > dark^(1 / 0)
  > f(1 / 0)
  > f(1)
  > f(1 / 0)
  > f(1)
  > ~f(1)
  > g(1)
  > g(m)
  > ~g(1)
  > h(1)
  > ~h(1)
  > i(1)
  > ~i(1)
  > ~i(m)
  > ~j(1)
  > END
  1 m
  1 s
  division by zero
  170141183460469231731687303715884105727
  exponent is not a number
  2
  division by zero
  exponent is not a number
  overflow
  exponent is not a number
  exponent is not a number
  sum of unlike units: 1 m and 1 s
  sum of unlike units: 2 m and 1 s
  division by zero
  exponent is not a number
  exponent is not a number
  division by zero
  exponent is not a number
  division by zero
  exponent is not a number
  division by zero
  sum of unlike units: 1 m and 1 s
  wrong argument: g
  division by zero
  division by zero
  division by zero
  division by zero
  exponent is not a number
  wrong argument: i
  division by zero

tempC, tempF and their inverses are exact, at their bounds and beyond.

  $ cat > t.units <<'END'
  > K !
  > degF 5|9 K
  > stdtemp 273.15 K
  > tempC(x) units=[1;K] domain=[-273.15,) range=[0,) x K + stdtemp ; (tempC +(-stdtemp))/K
  > tempF(x) units=[1;K] domain=[-459.67,) range=[0,) (x+(-32)) degF + stdtemp ; (tempF+(-stdtemp))/degF + 32
  > END
  $ values <<'END'
  > K
  > degF
  > stdtemp
  > tempC(25)
  > tempC(-273.15)
  > tempC(-273.150000000000000000000001)
  > tempC(1 K)
  > tempC(0)
  > ~tempC(0 K)
  > ~tempC(-1e-24 K)
  > ~tempC(300 K)
  > ~tempC(300)
  > tempF(212)
  > tempF(-459.67)
  > tempF(-459.670000000000000000000001)
  > ~tempF(0 K)
  > ~tempF(-1e-24 K)
  > ~tempF(300 K)
  > ~tempF(tempC(100))
  > ~tempC(tempF(-40))
  > tempC(-300) + 1 / 0
  > tempC
  > ~tempC(tempC(~tempC(300 K)))
  > END
  1 K
  5|9 K
  5463|20 K
  5963|20 K
  0 K
  not in domain: tempC
  wrong argument: tempC
  5463|20 K
  -5463|20
  not in range: tempC
  537|20
  wrong argument: tempC
  7463|20 K
  0 K
  not in domain: tempF
  -45967|100
  not in range: tempF
  8033|100
  212
  -40
  not in domain: tempC
  argument needed: tempC
  537|20

Domains and ranges without units: open, closed and unbounded.

  $ cat > t.units <<'END'
  > m !
  > open(x) domain=(0,1) x ; open
  > closed(x) domain=[0,1] range=[0,1] x ; closed
  > half(x) domain=[0,1) x ; half
  > low(x) domain=(,0] x ; low
  > all(x) domain=(,) x ; all
  > free(x) x^2 ; free^1|2
  > result(x) range=[1,4] x^2 ; result^1|2
  > away(x) range=(1,4) x m / m ; away m
  > END
  $ values <<'END'
  > m
  > open(0)
  > open(1e-30)
  > open(1)
  > open(1 m)
  > ~open(0)
  > ~open(1|2)
  > closed(0)
  > closed(1)
  > closed(1.000000000000000000000000000001)
  > closed(-1e-30)
  > half(0)
  > half(1)
  > low(-1e30)
  > low(1e-30)
  > all(1e30)
  > all(m)
  > free(3 m)
  > ~free(9 m^2)
  > ~free(8 m^2)
  > result(1)
  > result(3)
  > result(1 m)
  > ~result(4)
  > ~result(5)
  > ~result(4 m)
  > ~away(2)
  > away(1)
  > END
  1 m
  not in domain: open
  1|1000000000000000000000000000000
  not in domain: open
  wrong argument: open
  not in domain: open
  1|2
  0
  1
  not in domain: closed
  not in domain: closed
  0
  not in domain: half
  -1000000000000000000000000000000
  not in domain: low
  1000000000000000000000000000000
  wrong argument: all
  9 m^2
  3 m
  no exact root
  1
  not in range: result
  wrong result: result
  2
  not in range: result
  wrong argument: result
  2 m
  not in range: away

Domains and ranges with units. The value is divided by the unit before it is compared with the bounds.

  $ cat > t.units <<'END'
  > m !
  > s !
  > ft 0.3048 m
  > f(x) units=[ft;s] domain=[1,2] range=(2,6) 10 x s / m ; f m / (10 s)
  > g(x) units=[;s] domain=[0,1] x s ; g / s
  > h(x) units=[m;] range=[0,1] x / m ; h m
  > i(x) units=[m;] range=[0,1] x ; h
  > j(x) units=[m;s] domain=[0,1] x s / m ; 5 j
  > k(x) units=[m;s] domain=[0,1] x s / m ; 5 k m / s
  > zero 0 m
  > l(x) units=[zero;m] domain=[0,1] x ; l
  > n(x) units=[zero;zero] x ; n
  > END
  $ values <<'END'
  > m
  > s
  > ft
  > f(1 ft)
  > f(0.3048 m)
  > f(0.3047 m)
  > f(2 ft)
  > f(2.0000000001 ft)
  > f(1 s)
  > f(1)
  > ~f(4 s)
  > ~f(2 s)
  > ~f(6 s)
  > ~f(3.048 s)
  > ~f(3 s)
  > ~f(4 m)
  > g(1)
  > g(2)
  > g(m)
  > ~g(1 s)
  > ~g(2 s)
  > ~g(1)
  > h(1 m)
  > h(2 m)
  > h(1)
  > ~h(1)
  > ~h(2)
  > ~h(m)
  > i(1 m)
  > ~j(1 s)
  > ~k(1 s)
  > ~k(1|5 s)
  > zero
  > l(m)
  > ~l(m)
  > n(m)
  > ~n(m)
  > END
  1 m
  1 s
  381|1250 m
  381|125 s
  381|125 s
  not in domain: f
  not in range: f
  not in domain: f
  wrong argument: f
  wrong argument: f
  2|5 m
  not in range: f
  not in range: f
  381|1250 m
  not in domain: f
  wrong argument: f
  1 s
  not in domain: g
  wrong argument: g
  1
  not in domain: g
  wrong argument: g
  1
  not in range: h
  wrong argument: h
  1 m
  not in range: h
  wrong argument: h
  wrong result: i
  wrong result: j
  not in domain: k
  1 m
  0 m
  division by zero
  division by zero
  1 m
  1 m

In the inverse expression, the name of the function is its value. A function without an inverse expression has no
inverse.

  $ cat > t.units <<'END'
  > m !
  > sq(x) units=[m;m^2] domain=[0,) x^2
  > cube(x) x^3 ; cuberoot(cube)
  > twice(x) x(2) ; twice(1|2)
  > END
  $ values <<'END'
  > m
  > sq(3 m)
  > ~sq(9 m^2)
  > ~sq(1 / 0)
  > ~sq(m)
  > ~sq(1 / 0)
  > ~cube(-27 m^3)
  > cube(2)
  > twice(4 m)
  > ~twice(4 m)
  > END
  1 m
  9 m^2
  no inverse: sq
  division by zero
  no inverse: sq
  division by zero
  -3 m
  8
  8 m
  2 m

Tables that rise, fall, are flat, and turn, at their ends and outside.

  $ cat > t.units <<'END'
  > m !
  > s !
  > rise[m] 1 2, 3 5, 7 6
  > fall[1|2 m] 0 10, 4 2
  > flat[1] 0 1, 2 3, 5 3, 6 4
  > turn[1] 0 0, 1 10, 2 0
  > hold[1] 1 4, 2 4
  > none[0 m] 0 1, 2 3
  > bad[m + s] 0 1, 2 3
  > gauge[m] 1 0.002, 10 0.02, 15 0.04, 19 0.06, 23 0.1
  > END
  $ values <<'END'
  > m
  > s
  > rise(1)
  > rise(2)
  > rise(3)
  > rise(5)
  > rise(7)
  > rise(7.000001)
  > rise(0.999999)
  > rise(1 m)
  > ~rise(2 m)
  > ~rise(3 m)
  > ~rise(5 m)
  > ~rise(6 m)
  > ~rise(6.000001 m)
  > ~rise(1.999999 m)
  > ~rise(2)
  > fall(1)
  > ~fall(4 m)
  > ~fall(1 m)
  > ~fall(5 m)
  > ~fall(5.1 m)
  > flat(3)
  > ~flat(3)
  > ~flat(3.5)
  > turn(1.5)
  > ~turn(5)
  > ~turn(0)
  > ~hold(4)
  > none(1)
  > ~none(0 m)
  > ~none(1 m)
  > ~none(1)
  > bad(5)
  > bad(m)
  > ~bad(m)
  > rise
  > gauge(12)
  > ~gauge(0.05 m)
  > ~gauge(m / 20)
  > END
  1 m
  1 s
  2 m
  7|2 m
  5 m
  11|2 m
  6 m
  outside table: rise
  outside table: rise
  wrong argument: rise
  1
  5|3
  3
  7
  outside table: rise
  outside table: rise
  wrong argument: rise
  4 m
  1
  4
  0
  outside table: fall
  3
  2
  11|2
  5
  1|2
  0
  1
  0 m
  division by zero
  division by zero
  wrong argument: none
  sum of unlike units: 1 m and 1 s
  wrong argument: bad
  sum of unlike units: 1 m and 1 s
  argument needed: rise
  7|250 m
  17
  17

An alias calls its target, and so does an alias of an alias. A fault of the call names the target.

  $ cat > t.units <<'END'
  > K !
  > degF 5|9 K
  > stdtemp 273.15 K
  > tempC(x) units=[1;K] domain=[-273.15,) range=[0,) x K + stdtemp ; (tempC +(-stdtemp))/K
  > tempF(x) units=[1;K] domain=[-459.67,) range=[0,) (x+(-32)) degF + stdtemp ; (tempF+(-stdtemp))/degF + 32
  > celsius() tempC
  > degreeC() celsius()
  > sq(x) x^2
  > square() sq
  > END
  $ values <<'END'
  > K
  > degF
  > stdtemp
  > degreeC(25)
  > ~degreeC(300 K)
  > degreeC(-300)
  > ~degreeC(-1 K)
  > ~celsius(degreeC(7))
  > degreeC
  > ~square(4)
  > END
  1 K
  5|9 K
  5463|20 K
  5963|20 K
  537|20
  not in domain: tempC
  not in range: tempC
  7
  argument needed: degreeC
  no inverse: sq

A call of rank 16 is made, and one of rank 17 is refused after the faults of its argument. An alias and a table have a
rank too, one above that of the function that they use.

  $ cat > t.units <<'END'
  > aa(x) x + 1 ; aa - 1
  > ab(x) aa(x) + 1 ; ~aa(ab - 1)
  > ac(x) ab(x) + 1 ; ~ab(ac - 1)
  > ad(x) ac(x) + 1 ; ~ac(ad - 1)
  > ae(x) ad(x) + 1 ; ~ad(ae - 1)
  > af(x) ae(x) + 1 ; ~ae(af - 1)
  > ag(x) af(x) + 1 ; ~af(ag - 1)
  > ah(x) ag(x) + 1 ; ~ag(ah - 1)
  > ai(x) ah(x) + 1 ; ~ah(ai - 1)
  > aj(x) ai(x) + 1 ; ~ai(aj - 1)
  > ak(x) aj(x) + 1 ; ~aj(ak - 1)
  > al(x) ak(x) + 1 ; ~ak(al - 1)
  > am(x) al(x) + 1 ; ~al(am - 1)
  > an(x) am(x) + 1 ; ~am(an - 1)
  > ao(x) an(x) + 1 ; ~an(ao - 1)
  > ap(x) ao(x) + 1 ; ~ao(ap - 1)
  > aq(x) ap(x) + 1 ; ~ap(aq - 1)
  > deep() ap
  > shallow() ao
  > over[ap(0)] 0 1, 2 3
  > under[ao(0)] 0 1, 2 3
  > use aq(0)
  > END
  $ values <<'END'
  > ap(0)
  > aq(0)
  > ~ap(16)
  > ~aq(17)
  > aq(1 / 0)
  > aq(0) + 1 / 0
  > aq
  > deep(0)
  > ~deep(0)
  > shallow(0)
  > ~shallow(15)
  > over(1)
  > ~over(1)
  > under(1)
  > ~under(30)
  > use
  > 2 use
  > END
  16
  calls too deep: aq
  0
  calls too deep: aq
  division by zero
  calls too deep: aq
  argument needed: aq
  calls too deep: deep
  calls too deep: deep
  15
  0
  calls too deep: over
  calls too deep: over
  30
  1
  calls too deep: aq
  calls too deep: aq

Powers and roots: exponents that are fractions, exponents at their limits, and powers of 0 and of negative numbers.

  $ cat > t.units <<'END'
  > m !
  > s !
  > rad !dimensionless
  > END
  $ values <<'END'
  > m
  > s
  > 8^(2|3)
  > 8^-1|3
  > (9 m^2)^0.5
  > (m^32767)^1|32767
  > (m^1|32767)^32767
  > m^32767 m
  > m^-32767 / m
  > 1^32767
  > 1^32768
  > 1^-32767
  > 1^-32768
  > 1^(1|32767)
  > 1^(1|32768)
  > (m^2)^(1|4)
  > (m^4)^(1|4)
  > 0^0
  > 0^2
  > 0^(1|2)
  > 0^-1
  > (0 m)^-1
  > (0 m)^2
  > (-8)^(1|3)
  > (-8)^(2|3)
  > (-8)^(1|2)
  > (-1)^(1|2)
  > (-2)^3
  > (-2)^-3
  > -2^2
  > 2^3^2
  > 2^-1|2
  > 2^(1|2)
  > (1|2)^(1|2)
  > (4|9)^(3|2)
  > (4 m)^(1|2)
  > 2^(m / m)
  > 2^m
  > rad
  > 2^(3 rad)
  > sqrt(2)
  > sqrt(4 m^2)
  > sqrt(m)
  > sqrt(-4)
  > cuberoot(-27 m^3)
  > cuberoot(4)
  > cuberoot(m^2)
  > cuberoot(27 m^-6)
  > m2
  > (2 m)^100
  > m2^2
  > END
  1 m
  1 s
  4
  1|2
  3 m
  1 m
  exponent out of range
  exponent out of range
  exponent out of range
  1
  exponent out of range
  1
  exponent out of range
  1
  exponent out of range
  1 m^1|2
  1 m
  1
  0
  0
  division by zero
  division by zero
  0 m^2
  -2
  4
  no exact root
  no exact root
  -8
  -1|8
  -4
  512
  no exact root
  no exact root
  no exact root
  8|27
  2 m^1|2
  2
  exponent is not a number
  1
  8
  no exact root
  2 m
  1 m^1|2
  no exact root
  -3 m
  no exact root
  1 m^2|3
  3 / m^2
  1 m^2
  1267650600228229401496703205376 m^100
  1 m^4

Exponents of names are fractions too, here at their limits. A fault of the number comes before one of an exponent.

  $ cat > t.units <<'END'
  > m !
  > s !
  > big 170141183460469231731687303715884105727
  > f(x) units=[m^1|2;m^1|3] domain=[0,4] range=[0,2] x^2|3 ; f^3|2
  > END
  $ values <<'END'
  > m
  > s
  > big
  > m^1|60
  > m^1|61
  > m^(59|60)
  > m^32767|60
  > m^1|60 m^1|60
  > m^1|60 / m^1|60
  > m^1|4 m^1|15
  > m^1|7 m^1|11
  > m^1|7 / m^1|8
  > m^1|60 m^1|59
  > (m^1|60)^60
  > (m^1|60)^-1
  > (m^1|30)^1|2
  > (m^1|60)^1|2
  > (m^2|3)^3|2
  > m^-1|2
  > 1 / sqrt(4 s^3)
  > sqrt(m) sqrt(m)
  > sqrt(m) / sqrt(s)
  > sqrt(m) + sqrt(4 m)
  > sqrt(m) + m
  > sqrt(sqrt(sqrt(m)))
  > sqrt(sqrt(sqrt(sqrt(sqrt(sqrt(m))))))
  > 2^sqrt(m)
  > m^32767 sqrt(m)
  > m^16383 sqrt(m)
  > (2 m^1|60)^1|2
  > (4 m^1|60)^1|2
  > (big m^32767)^2
  > big m^1|7 (2 m^1|11)
  > m^1|7 (0 m^1|11)
  > m^1|7 / (0 m^1|11)
  > (0 m^1|60)^1|2
  > (0 m^1|60)^0
  > f(m^1|2)
  > f(8 m^1|2)
  > f(m)
  > ~f(m^1|3)
  > ~f(m^1|2)
  > END
  1 m
  1 s
  170141183460469231731687303715884105727
  1 m^1|60
  exponent out of range
  1 m^59|60
  1 m^32767|60
  1 m^1|30
  1
  1 m^19|60
  exponent out of range
  1 m^1|56
  exponent out of range
  1 m
  1 / m^1|60
  1 m^1|60
  exponent out of range
  1 m
  1 / m^1|2
  1|2 / s^3|2
  1 m
  1 m^1|2 / s^1|2
  3 m^1|2
  sum of unlike units: 1 m^1|2 and 1 m
  1 m^1|8
  exponent out of range
  exponent is not a number
  exponent out of range
  1 m^32767|2
  no exact root
  exponent out of range
  overflow
  overflow
  exponent out of range
  division by zero
  exponent out of range
  1
  1 m^1|3
  not in domain: f
  wrong argument: f
  1 m^1|2
  wrong argument: f

Each kind of step can overflow. A product or quotient that fits once it is reduced does not.

  $ cat > t.units <<'END'
  > big 170141183460469231731687303715884105727
  > m !
  > f(x) units=[1|2;1] domain=[0,1] x ; f
  > t[170141183460469231731687303715884105727] 0 0, 1 2
  > w[1|2] 0 0, 1 2
  > u[1] 0 -170141183460469231731687303715884105727, 1 170141183460469231731687303715884105727
  > END
  $ values <<'END'
  > big
  > m
  > big 2
  > big + 1
  > -big - 1
  > -big - 2
  > big / (1|2)
  > 1 / big / 2
  > 2^127
  > 2^126
  > 2^-126
  > 2^-127
  > big (1 / big)
  > big / big
  > (big / 3) (3 / big)
  > big m / (big m)
  > big - big
  > 1e38
  > 1.8e38
  > 1e-38
  > 1|1e39
  > big / 7 + 6 big / 7
  > big / 2 - big / 3
  > (big - 1) / 2 + (big - 1) / 2
  > 2^64 2^64
  > 2^64 2^62
  > 2^64 / 2^-62
  > (2^64 m)^2
  > (2^63 m)^2
  > (1|2^63)^2
  > f(big)
  > f(1|2)
  > t(1)
  > t(1|2)
  > ~t(big)
  > ~w(big)
  > ~w(2)
  > u(1|2)
  > sqrt(big)
  > 10^38
  > 10^39
  > END
  170141183460469231731687303715884105727
  1 m
  overflow
  overflow
  overflow
  overflow
  overflow
  overflow
  overflow
  85070591730234615865843651857942052864
  1|85070591730234615865843651857942052864
  overflow
  1
  1
  1
  1
  0
  100000000000000000000000000000000000000
  overflow
  1|100000000000000000000000000000000000000
  overflow
  overflow
  overflow
  170141183460469231731687303715884105726
  overflow
  85070591730234615865843651857942052864
  85070591730234615865843651857942052864
  overflow
  85070591730234615865843651857942052864 m^2
  1|85070591730234615865843651857942052864
  overflow
  1|2
  overflow
  170141183460469231731687303715884105727
  1|2
  overflow
  outside table: w
  overflow
  no exact root
  100000000000000000000000000000000000000
  overflow

Factors and terms that are numbers, before and after names, and products of a number and a quantity with names.

  $ cat > t.units <<'END'
  > kg !
  > m !
  > s !
  > big 170141183460469231731687303715884105727
  > N 1|3 kg m / s^2
  > END
  $ values <<'END'
  > kg
  > m
  > s
  > big
  > N
  > 2 N * 3 N
  > 2 N / 2 N
  > 2 N / (2 N)
  > 2 (3 N)
  > 2 / (3 N)
  > (3 N) 2
  > 1 * (N N) * (1 / N)
  > 2 / 3 * N
  > N / 3 * 3 / N
  > N / 0
  > 0 N / N
  > 0 / N
  > N * 1|7 / 1|7
  > N 1e2 / 1e-2
  > N s^2 m / kg
  > m s * s kg / m
  > 2 + 3 - 4
  > 2 - m
  > m + 2
  > m - 2
  > m / m + 2 - 3
  > (m + m) 2 / 2
  > N + 2 N - N
  > big m * 2
  > m * 2 * big
  > big m / 2 * 2
  > m / big / 2
  > m 1e39
  > m / 1e39
  > m^32767 * 2 * m
  > m^32767 / 2 * m^-1
  > 2 (m^32767 s) * m / 0
  > m / 0 * m^32768
  > END
  1 kg
  1 m
  1 s
  170141183460469231731687303715884105727
  1|3 kg m / s^2
  2|3 kg^2 m^2 / s^4
  1
  1
  2 kg m / s^2
  2 s^2 / kg m
  2 kg m / s^2
  1|3 kg m / s^2
  2|9 kg m / s^2
  1
  division by zero
  0
  0 s^2 / kg m
  1|3 kg m / s^2
  10000|3 kg m / s^2
  1|3 m^2
  1 kg s^2
  1
  sum of unlike units: 2 and 1 m
  sum of unlike units: 1 m and 2
  sum of unlike units: 1 m and 2
  0
  2 m
  2|3 kg m / s^2
  overflow
  overflow
  170141183460469231731687303715884105727 m
  overflow
  overflow
  overflow
  exponent out of range
  1|2 m^32766
  exponent out of range
  division by zero

A unit, and a function that returns its argument.

  $ cat > t.units <<'END'
  > m !
  > n(x) x ; n
  > END
  $ values <<'END'
  > m
  > n(2)
  > END
  1 m
  2
