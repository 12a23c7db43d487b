Live tables, by `test_calls values`, which reads one call a line. The first call, `load FILE`, makes the table of a
file's deck. `value EXPRESSION` and `unapply NAME EXPRESSION` (the inverse of a function at the value of the expression)
are queries. `settle` queries every name. `counts` answers how many names are settled, how many have an entry, and how
many times a name has been settled since the load. Edits are `define LINE`, `drop KEY`, `switch LOCALE`, `append FILE`,
`splice AT CUT LINE;LINE..`, and `back`, which undoes the last splice. Values are exact. The expected answers are those
of plain recursion in Python (tools/comparisons/compare_live.py --answer).

The chain of a cycle begins with the name at which the cycle is entered. Name faults are not kept: each query finds its
own.

  $ cat > cycle.units <<'END'
  > m !
  > a 2 b
  > b 3 c
  > c m a
  > d c b
  > s s
  > END
  $ test_calls values <<'END'
  > load cycle.units
  > counts
  > value a
  > value b
  > value c
  > value d
  > value s
  > value m a
  > value b a
  > value d s
  > value as
  > counts
  > value m
  > value a
  > counts
  > END
  ok
  0 settled, 6 names, 0 reductions
  cycle: a -> b -> c -> a
  cycle: b -> c -> a -> b
  cycle: c -> a -> b -> c
  cycle: c -> a -> b -> c
  cycle: s -> s
  cycle: a -> b -> c -> a
  cycle: b -> c -> a -> b
  cycle: c -> a -> b -> c
  unknown unit: as
  0 settled, 6 names, 0 reductions
  1 m
  cycle: a -> b -> c -> a
  1 settled, 6 names, 1 reductions

Cycles through the forward and the inverse expression of a function, its in unit and its out unit, an alias, the unit of
a table of points, and a prefix. The parts of a function are searched in the order in unit, out unit, forward, inverse.

  $ cat > cycles.units <<'END'
  > m !
  > f(x) x + 1 ; ~g(f)
  > g(x) x ; h
  > h ~f(2)
  > in(x) units=[u;m] x ; in
  > u 2 in(3)
  > out(x) units=[m;v] x ; out
  > v ~out(3)
  > both(x) units=[w;nosuch] both(x) ; sin(both)
  > w 3 m
  > al() other
  > other() third
  > third() al
  > self() self
  > t[tu] 1 2, 3 4
  > tu t(1) m
  > k- 2 kilo
  > kilo 10 km
  > p- p
  > q- pq
  > END
  $ test_calls values <<'END'
  > load cycles.units
  > value f(1)
  > value ~f(1)
  > value f
  > value g(1)
  > value h
  > value in(1 m)
  > value u
  > value ~out(1)
  > value v
  > value both(1)
  > value al(1)
  > value ~other(1)
  > value third
  > value self(1)
  > value ~t(1)
  > value tu
  > value km
  > value kilo
  > value k
  > value p
  > value q
  > unapply f 1
  > unapply g 1 m
  > unapply al 1
  > unapply t tu
  > counts
  > settle
  > counts
  > END
  ok
  cycle: f() -> g() -> h -> f()
  cycle: f() -> g() -> h -> f()
  cycle: f() -> g() -> h -> f()
  cycle: g() -> h -> f() -> g()
  cycle: h -> f() -> g() -> h
  cycle: in() -> u -> in()
  cycle: u -> in() -> u
  cycle: out() -> v -> out()
  cycle: v -> out() -> v
  unknown unit: nosuch in both()
  cycle: al() -> other() -> third() -> al()
  cycle: other() -> third() -> al() -> other()
  cycle: third() -> al() -> other() -> third()
  cycle: self() -> self()
  cycle: t() -> tu -> t()
  cycle: tu -> t() -> tu
  cycle: k- -> kilo -> k-
  cycle: kilo -> k- -> kilo
  cycle: k- -> kilo -> k-
  cycle: p- -> p-
  unknown unit: pq in q-
  cycle: f() -> g() -> h -> f()
  cycle: g() -> h -> f() -> g()
  cycle: al() -> other() -> third() -> al()
  cycle: tu -> t() -> tu
  1 settled, 20 names, 1 reductions
  ok
  2 settled, 20 names, 2 reductions

A word that leads nowhere is reported with the key whose entry has it: a unit, a prefix, a function, an alias or a
table. A word of the query itself is reported without a key. Only a function can follow `~`, and a list leads nowhere.

  $ cat > unknown.units <<'END'
  > m !
  > d- 2 nosuch
  > dm2x m
  > da- 10
  > x d
  > y 3 dm
  > f(x) x nosuch(2)
  > g(x) ~m(x)
  > al() m
  > t[nosuch] 1 2, 3 4
  > !unitlist hm m;x
  > z 2 hm
  > ln2x(x) x
  > r 2 ln(3)
  > r_f(x) sin
  > r_a() cos
  > r_l- exp m
  > END
  $ test_calls values <<'END'
  > load unknown.units
  > value nosuch
  > value 2 m nosuch
  > value d
  > value dm
  > value dam
  > value x
  > value y
  > value f(1)
  > value g(1)
  > value al(1)
  > value t(1)
  > value hm
  > value hm(2)
  > value z
  > value r
  > value r_f(1)
  > value r_a(1)
  > value r_lm
  > value sin(x)
  > value ~tan(x)
  > value log2
  > value ~m(2)
  > value nosuch sin
  > value sin nosuch
  > unapply f 1
  > unapply al 2
  > unapply m 2
  > unapply hm 2
  > unapply g nosuch
  > counts
  > END
  ok
  unknown unit: nosuch
  unknown unit: nosuch
  unknown unit: nosuch in d-
  unknown unit: nosuch in d-
  10 m
  unknown unit: nosuch in d-
  unknown unit: nosuch in d-
  unknown unit: nosuch in f()
  unknown unit: m in g()
  unknown unit: m in al()
  unknown unit: nosuch in t()
  unknown unit: hm
  unknown unit: hm
  unknown unit: hm in z
  refused function: ln in r
  refused function: sin in r_f()
  unknown unit: r_a
  refused function: exp in r_l-
  refused function: sin
  refused function: tan
  refused function: log2
  unknown unit: m
  unknown unit: nosuch
  refused function: sin
  unknown unit: nosuch in f()
  unknown unit: m in al()
  no function
  no function
  unknown unit: nosuch
  2 settled, 15 names, 2 reductions

Refused functions inside a call, an inverse and a root, and at the head of a call, in a query and in an entry of each
kind. If there are several faults, the first in the text is reported.

  $ cat > under.units <<'END'
  > m !
  > f(x) 2 x ; f / 2
  > u 3 f(ln)
  > v f(2 cos(3) nosuch)
  > w ~f(sqrt(tan))
  > x m(exp 2)
  > k- 2 f(log2)
  > h(x) f(sin(x))
  > p[f(sin) m] 0 1, 1 2
  > a() h
  > END
  $ test_calls values <<'END'
  > load under.units
  > value f(sin)
  > value f(2 cos(1) nosuch)
  > value f(nosuch cos(1))
  > value m(ln 2)
  > value sin(nosuch)
  > value nosuch(sin)
  > value ~f(tan)
  > value sqrt(exp)
  > value u
  > value v
  > value w
  > value x
  > value km
  > value h(1)
  > value p(1)
  > value a(1)
  > unapply a 1
  > counts
  > value f(3)
  > counts
  > END
  ok
  refused function: sin
  refused function: cos
  unknown unit: nosuch
  refused function: ln
  refused function: sin
  unknown unit: nosuch
  refused function: tan
  refused function: exp
  refused function: ln in u
  refused function: cos in v
  refused function: tan in w
  refused function: exp in x
  refused function: log2 in k-
  refused function: sin in h()
  refused function: sin in p()
  refused function: sin in h()
  refused function: sin in h()
  0 settled, 10 names, 0 reductions
  6
  1 settled, 10 names, 1 reductions

A word of a prefix and a unit has two targets. The prefix comes first, and so does its fault.

  $ cat > targets.units <<'END'
  > m !
  > good- 2
  > bad- nosuch
  > ring- ringa
  > a b
  > b a
  > v 1/0
  > w m + 1
  > END
  $ test_calls values <<'END'
  > load targets.units
  > value goodm
  > counts
  > value gooda
  > value bada
  > value badm
  > value ringa
  > value ringb
  > value goodv
  > value goodw
  > value 3 m gooda nosuch
  > counts
  > END
  ok
  2 m
  2 settled, 8 names, 2 reductions
  cycle: a -> b -> a
  unknown unit: nosuch in bad-
  unknown unit: nosuch in bad-
  cycle: ring- -> ring-
  cycle: ring- -> ring-
  division by zero
  sum of unlike units: 1 m and 1
  cycle: a -> b -> a
  4 settled, 8 names, 4 reductions

Lookup: a name comes before its parts, the stem of a plural before prefixes, and the longest prefix that leaves a unit
is taken. A function comes before a unit in a call, and after it elsewhere. A unit at the head of a call multiplies.

  $ cat > lookup.units <<'END'
  > m !
  > s !
  > da- 10
  > d- 1|10
  > ab 7 m
  > berry 2 m
  > foot 3 m
  > ms 5 s
  > glass 11 m
  > f(x) 2 x ; f / 2
  > f 13 m
  > g(x) units=[m;] x / m
  > gs 17 m
  > END
  $ test_calls values <<'END'
  > load lookup.units
  > value dab
  > value daab
  > value berries
  > value dberries
  > value foots
  > value ms
  > value dms
  > value glass
  > value glasses
  > value dam
  > value da
  > value d(3 m)
  > value m(3 s)
  > value f(2)
  > value f
  > value fs
  > value 3 f f(4)
  > value ~f(4)
  > value g
  > value gs
  > value gs(3)
  > value g(5 m)
  > value ~g(5 m)
  > counts
  > END
  ok
  7|10 m
  70 m
  2 m
  1|5 m
  3 m
  5 s
  1|10 m
  11 m
  11 m
  10 m
  10
  3|10 m
  3 m s
  4
  13 m
  unknown unit: fs
  312 m
  2
  argument needed: g
  17 m
  51 m
  5
  no inverse: g
  13 settled, 13 names, 13 reductions

The counts after queries. A name that a query reaches is settled once, however many words reach it. A query with a name
fault settles nothing, not even the names before the fault. A query with a value fault settles all names that it
reaches, since all of them lead somewhere. A syntax error is reported before any name is looked up.

  $ cat > counts.units <<'END'
  > m !
  > s !
  > a m
  > b a m
  > c a b
  > d 1/0
  > e d c nosuch
  > k- 1000
  > f(x) units=[m;s] c x / m^3 s ; f / s c m
  > g() f
  > t[b] 0 1, 2 3
  > !unitlist l m;a
  > END
  $ test_calls values <<'END'
  > load counts.units
  > counts
  > value a
  > counts
  > value c
  > counts
  > value c + c a
  > counts
  > value s e
  > counts
  > value e
  > counts
  > value s d
  > counts
  > value s /
  > value 2 kk
  > value kk s nosuch
  > counts
  > value km
  > counts
  > value g(2 s)
  > counts
  > value g(2 m)
  > unapply g 3
  > unapply t m^2
  > counts
  > unapply t 3 nosuch
  > unapply t d
  > unapply nosuch a
  > counts
  > settle
  > counts
  > settle
  > counts
  > END
  ok
  0 settled, 11 names, 0 reductions
  1 m
  2 settled, 11 names, 2 reductions
  1 m^3
  4 settled, 11 names, 4 reductions
  sum of unlike units: 1 m^3 and 1 m^4
  4 settled, 11 names, 4 reductions
  unknown unit: nosuch in e
  4 settled, 11 names, 4 reductions
  unknown unit: nosuch in e
  4 settled, 11 names, 4 reductions
  division by zero
  6 settled, 11 names, 6 reductions
  syntax error at 3
  unknown unit: kk
  unknown unit: kk
  6 settled, 11 names, 6 reductions
  1000 m
  7 settled, 11 names, 7 reductions
  wrong argument: f
  9 settled, 11 names, 9 reductions
  wrong result: f
  wrong argument: f
  0
  10 settled, 11 names, 10 reductions
  unknown unit: nosuch
  division by zero
  no function
  10 settled, 11 names, 10 reductions
  ok
  10 settled, 11 names, 10 reductions
  ok
  10 settled, 11 names, 10 reductions
  $ test_calls values <<'END'
  > load counts.units
  > counts
  > settle
  > counts
  > END
  ok
  0 settled, 11 names, 0 reductions
  ok
  10 settled, 11 names, 10 reductions

Queries of settled names give the same answers, and the order of queries does not matter.

  $ test_calls values > forth <<'END'
  > load counts.units
  > value a
  > value d
  > value e
  > value g(2 m)
  > value ~g(3 s)
  > value t(1)
  > counts
  > END
  $ test_calls values > back <<'END'
  > load counts.units
  > value t(1)
  > value ~g(3 s)
  > value g(2 m)
  > value e
  > value d
  > value a
  > counts
  > END
  $ sort forth > forth.sorted; sort back | diff forth.sorted -
  $ cat forth
  ok
  1 m
  division by zero
  unknown unit: nosuch in e
  wrong result: f
  wrong result: f
  2 m^2
  9 settled, 11 names, 9 reductions

Value faults of functions that names lead to, in the order of their tests. A name keeps its value fault. The first fault
of an expression is reported.

  $ cat > faults.units <<'END'
  > m !
  > sq(x) units=[m;m^2] domain=[0,) x^2 ; sqrt(sq)
  > no(x) x + 1
  > al() no
  > t[m] 1 5, 2 5, 3 4
  > f0(x) x
  > neg sq(-2 m)
  > far neg + 1
  > call sq
  > big 1e30 1e30
  > root m^(1|61)
  > END
  $ test_calls values <<'END'
  > load faults.units
  > value sq(3 m)
  > unapply sq 9 m^2
  > unapply sq -9 m^2
  > unapply sq 9
  > value neg
  > value far
  > value neg + sq(2)
  > unapply no 2
  > unapply al 2
  > unapply t 5 m
  > unapply t 4.5 m
  > unapply t 6 m
  > unapply t neg
  > value call
  > value m call
  > value big
  > value root
  > value 2 m + 3
  > value no
  > unapply no no
  > counts
  > END
  ok
  9 m^2
  3 m
  no exact root
  wrong argument: sq
  not in domain: sq
  not in domain: sq
  not in domain: sq
  no inverse: no
  no inverse: no
  1
  5|2
  outside table: t
  not in domain: sq
  argument needed: sq
  argument needed: sq
  overflow
  exponent out of range
  sum of unlike units: 2 m and 3
  argument needed: no
  argument needed: no
  10 settled, 11 names, 10 reductions

Functions that call one another can be called up to rank 16.

  $ (echo 'f_1(x) x + 1 ; f_1 - 1'; for i in $(seq 2 16); do echo "f_$i(x) f_$((i - 1))(x) ; ~f_$((i - 1))(f_$i)"; done) > deep.units
  $ printf 'g() f_16\nt[f_16(1)] 0 1, 1 2\nh(x) g\nu f_16(2)\nw g(2)\n' >> deep.units
  $ test_calls values <<'END'
  > load deep.units
  > value f_16(2)
  > unapply f_16 2
  > value g(2)
  > unapply g 2
  > value t(1)
  > value h(1)
  > value u
  > value w
  > counts
  > END
  ok
  3
  1
  calls too deep: g
  calls too deep: g
  calls too deep: t
  calls too deep: h
  3
  calls too deep: g
  21 settled, 21 names, 21 reductions

Loads, and lines that are not calls. If nothing is loaded, the reason is the only answer.

  $ printf 'value 2\ncounts\n' | test_calls values
  no deck
  $ printf 'load nosuch.units\nvalue 2\n' | test_calls values
  absent
  $ printf 'load counts.units' | test_calls values
  ok
  $ printf '' | test_calls values
  no deck
  $ printf 'load counts.units\nvalue c' | test_calls values
  ok
  1 m^3
  $ head -c 16777217 /dev/zero | tr '\0' '\n' > long.units
  $ mkdir folder
  $ printf 'load long.units\ncounts\n' | test_calls values
  too long
  $ printf 'load folder\ncounts\n' | test_calls values
  read failed
  $ test_calls values <<'END'
  > load lookup.units
  > load counts.units
  > values
  > 
  > value
  > value  m
  > value m)
  > unapply
  > unapply f
  > unapply f  
  > counts 2
  > settle m
  > END
  ok
  bad call
  bad call
  bad call
  syntax error at 0
  1 m
  syntax error at 1
  no function
  syntax error at 0
  syntax error at 1
  1 settled, 13 names, 1 reductions
  ok

A locale and variables select entries. A line with a bad name is refused and defines nothing.

  $ printf 'm !\n!locale en_US\ng 3 m\n!endlocale\n!locale en_GB\ng 2 m\n!endlocale\n1a m\nb 1a\n!set V x\n!var V x\nh 5 m\n!endvar\n' > blocks.units
  $ test_calls values <<'END'
  > load blocks.units
  > value g h
  > value b
  > counts
  > END
  ok
  15 m^2
  unknown unit: a in b
  3 settled, 4 names, 3 reductions

A ring of 20,000 names. The chain from each of its names is the whole ring, and nothing is settled. If a name leads to
the ring, the chain begins where it enters. Each name in the chain is followed by the one before it in the ring.

  $ (echo 'u_0 2 u_19999'; for i in $(seq 1 19999); do echo "u_$i 3 u_$((i - 1))"; done; echo 'in u_12345') > ring.units
  $ test_calls values > answers <<'END'
  > load ring.units
  > value u_0
  > value u_12345
  > value u_19999 m
  > value in
  > value ins
  > counts
  > END
  $ cut -c 1-60 answers
  ok
  cycle: u_0 -> u_19999 -> u_19998 -> u_19997 -> u_19996 -> u_
  cycle: u_12345 -> u_12344 -> u_12343 -> u_12342 -> u_12341 -
  cycle: u_19999 -> u_19998 -> u_19997 -> u_19996 -> u_19995 -
  cycle: u_12345 -> u_12344 -> u_12343 -> u_12342 -> u_12341 -
  cycle: u_12345 -> u_12344 -> u_12343 -> u_12342 -> u_12341 -
  0 settled, 20001 names, 0 reductions
  $ rev answers | cut -c 1-40 | rev
  ok
  > u_5 -> u_4 -> u_3 -> u_2 -> u_1 -> u_0
  u_12348 -> u_12347 -> u_12346 -> u_12345
  4 -> u_3 -> u_2 -> u_1 -> u_0 -> u_19999
  u_12348 -> u_12347 -> u_12346 -> u_12345
  u_12348 -> u_12347 -> u_12346 -> u_12345
  0 settled, 20001 names, 0 reductions
  $ tr -cd '>\n' < answers | awk '{ print length }'
  0
  20000
  20000
  20000
  20000
  20000
  0
  $ sed -n 2p answers | sed 's/cycle: //; s/ -> /\n/g' > chain
  $ (echo u_0; seq 19999 -1 0 | sed 's/^/u_/') | cmp chain -
  $ sed -n 3p answers | sed 's/cycle: //; s/ -> /\n/g' > chain
  $ (seq 12345 -1 0; seq 19999 -1 12345) | sed 's/^/u_/' | cmp chain -

A chain of 20,001 names. Queries settle each name once, and a query of settled names settles nothing.

  $ (echo 'u_0 !'; for i in $(seq 1 20000); do echo "u_$i $((2 - i % 2))|$((1 + i % 2)) u_$((i - 1))"; done) > chain.units
  $ test_calls values <<'END'
  > load chain.units
  > value u_10001
  > counts
  > value u_20000
  > counts
  > value u_20000 / u_19999 + u_3 / u_2
  > value u_20001
  > settle
  > counts
  > END
  ok
  1|2 u_0
  10002 settled, 20001 names, 10002 reductions
  1 u_0
  20001 settled, 20001 names, 20001 reductions
  5|2
  unknown unit: u_20001
  ok
  20001 settled, 20001 names, 20001 reductions

Edits. If a name is redefined, it and its users are forgotten, and no other name. An equal definition adds its line and
forgets nothing, and so dropping it forgets nothing either. A drop uncovers the line before. A refused edit changes
nothing.

  $ printf 'm !\na 2 m\nb 3 a\nc 5 m\n' > edits.units
  $ test_calls values <<'END'
  > load edits.units
  > value b
  > value c
  > counts
  > define a 5 m
  > counts
  > value b
  > counts
  > define a 5 m
  > counts
  > drop a
  > counts
  > drop a
  > counts
  > value b
  > drop zz
  > drop 1
  > define q
  > append none.units
  > counts
  > END
  ok
  6 m
  5 m
  4 settled, 4 names, 4 reductions
  ok
  2 settled, 4 names, 4 reductions
  15 m
  4 settled, 4 names, 6 reductions
  ok
  4 settled, 4 names, 6 reductions
  ok
  4 settled, 4 names, 6 reductions
  ok
  2 settled, 4 names, 6 reductions
  6 m
  refused
  not a key
  refused
  refused
  4 settled, 4 names, 8 reductions

A name shadows a prefix and uncovers it again, a name that was absent when it was looked up is defined, and a cycle is
made and broken.

  $ printf 'm !\nk- 1000\nx 2 km\ny zz\np q\nq 4 m\n' > shadow.units
  $ test_calls values <<'END'
  > load shadow.units
  > value x
  > counts
  > define km 7 m
  > counts
  > value x
  > counts
  > drop km
  > counts
  > value x
  > value y
  > define zz 3 m
  > value y
  > value p
  > define q p
  > value p
  > value q
  > drop q
  > value p
  > END
  ok
  2000 m
  3 settled, 6 names, 3 reductions
  ok
  2 settled, 7 names, 3 reductions
  14 m
  4 settled, 7 names, 5 reductions
  ok
  2 settled, 6 names, 5 reductions
  2000 m
  unknown unit: zz in y
  ok
  3 m
  4 m
  ok
  cycle: p -> q -> p
  cycle: q -> p -> q
  ok
  4 m

A change of a prefix that was tried and left no unit, and of the name that it would have left: a name that looked them
up is forgotten, a query that did is answered anew, and no other name is affected. A cycle is made and broken.

  $ printf 'm !\nda- 10\nd- 1|10\nab 7 m\nx dab\ny ab\np q\nq 4 m\n' > nowhere.units
  $ test_calls values <<'END'
  > load nowhere.units
  > value x
  > value y
  > counts
  > define da- 20
  > counts
  > value dab
  > counts
  > value x
  > counts
  > define b 3 m
  > counts
  > value dab
  > value x
  > counts
  > drop b
  > counts
  > value x
  > drop da-
  > counts
  > drop da-
  > counts
  > value x
  > counts
  > value p
  > counts
  > define q p
  > counts
  > value p
  > value q
  > counts
  > drop q
  > counts
  > value p
  > counts
  > END
  ok
  7|10 m
  7 m
  5 settled, 8 names, 5 reductions
  ok
  4 settled, 8 names, 5 reductions
  7|10 m
  4 settled, 8 names, 5 reductions
  7|10 m
  5 settled, 8 names, 6 reductions
  ok
  4 settled, 9 names, 6 reductions
  60 m
  60 m
  7 settled, 9 names, 9 reductions
  ok
  5 settled, 8 names, 9 reductions
  7|10 m
  ok
  4 settled, 8 names, 10 reductions
  ok
  4 settled, 7 names, 10 reductions
  7|10 m
  5 settled, 7 names, 11 reductions
  4 m
  7 settled, 7 names, 13 reductions
  ok
  5 settled, 7 names, 13 reductions
  cycle: p -> q -> p
  cycle: q -> p -> q
  5 settled, 7 names, 13 reductions
  ok
  5 settled, 7 names, 13 reductions
  4 m
  7 settled, 7 names, 15 reductions

Switches to the other locale and back, and an append that redefines half of the names.

  $ printf 'm !\n!locale en_US\ngal 3 m\n!endlocale\n!locale en_GB\ngal 4 m\n!endlocale\nv 2 gal\nw 9 m\n' > locales.units
  $ printf 'gal 5 m\nw 8 m\n' > half.units
  $ test_calls values <<'END'
  > load locales.units
  > value v
  > value w
  > counts
  > switch en_GB
  > counts
  > value v
  > switch en_US
  > value v
  > counts
  > append half.units
  > counts
  > value v
  > value w
  > END
  ok
  6 m
  9 m
  4 settled, 4 names, 4 reductions
  ok
  2 settled, 4 names, 4 reductions
  8 m
  ok
  6 m
  4 settled, 4 names, 8 reductions
  ok
  1 settled, 4 names, 8 reductions
  10 m
  8 m

Every splice of a small deck, with a few texts to insert, and its inverse. The three counts are of refused splices, of
refused calls of `back`, and of calls that are done. The checksum is that of all answers.

  $ cat > spliced.units <<'END'
  > m !
  > k- 1000
  > !locale en_GB
  > b 2 m
  > !endlocale
  > b 3 km
  > d b kb
  > f(x) x b
  > END
  $ puts() {
  >   printf '%s\n' '' 'b 7 m' '~b 7 m;kb 4 m' '!locale en_US;k- 10;!endlocale' '!endlocale;!locale en_US' 'km m;d m'
  > }
  $ asked() { printf 'counts\nvalue b\nvalue d\nvalue kd\nvalue f(2)\ncounts\n'; }
  $ splices() {
  >   for at in $(seq 0 9); do
  >     for cut in $(seq 0 $((9 - at))); do
  >       puts | while IFS= read -r put; do
  >         printf 'splice %s %s %s\n' $at $cut "$put"
  >         asked
  >         echo back
  >         asked
  >       done
  >     done
  >   done
  > }
  $ (printf 'load spliced.units\n'; asked; splices) | test_calls values > spliced
  $ grep -c '^no such splice$' spliced
  172
  $ grep -c '^no splice$' spliced
  172
  $ grep -c '^ok$' spliced
  317
  $ md5sum < spliced
  fd5307b16a9b1d78cb6188c3f8efc9ea  -
