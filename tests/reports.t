The report of a check, and the units that conform to an expression. Lines on standard error are marked with `err: `.

  $ apart() { "$@" 2> err; status=$?; sed 's/^/err: /' err; return $status; }
  $ file() { name=$1; shift; printf '%s\n' "$@" > "$name"; }

A check prints notices and then the faults of names and values, all on standard output.

  $ file c.units 'm !' 'bad 2 nosuch' 'h 6.62607015e-34 m'
  $ apart units -c -f c.units
  bad: unknown unit: nosuch in bad
  h: overflow
  [1]
  $ file n.units 'm !' '!endvar' 'bad 2 nosuch' 'foo2 m'
  $ apart units --check -f n.units
  n.units:2: stray end
  n.units:4: bad name: foo2
  bad: unknown unit: nosuch in bad
  [1]
  $ file only.units 'm !' '!endvar'
  $ apart units --check -f only.units
  only.units:2: stray end
  [1]
  $ file ab.units 'm !' 'a b' 'b a'
  $ apart units -c -f ab.units
  a: cycle: a -> b -> a
  b: cycle: b -> a -> b
  [1]
  $ file p.units 'm !' 'p- 2 q' '!unitlist z m;1/m'
  $ apart units -c -f p.units
  p-: unknown unit: q in p-
  !unitlist z: conformability error
  [1]
  $ file good.units 'm !' 'a 2 m'
  $ apart units -c -f good.units
  $ apart units -c
  $ apart units -f none.units -c
  err: units: no file: none.units
  [3]

Each kind of fault in each kind of key: in the body of a unit and of a prefix, in the in unit of a function, in the unit
of a table of points, and in a part of a list. In the target of an alias, only faults of names are reported.

  $ {
  >   printf '%s\n' 'm !' 's !' 'sq(x) units=[m;m^2] x^2' 'low(x) domain=[0,10] range=[0,50] x^2' \
  >     'odd(x) units=[m;m] x^2' 't[m] 1 5, 2 6' 'ring 2 rung' 'rung ring' 'f_1(x) x'
  >   for i in $(seq 2 17); do echo "f_$i(x) f_$((i - 1))(x)"; done
  >   while read -r name body; do
  >     printf '%s\n' "$name $body" "$name- $body" "$name(x) units=[$body;] x" "${name}_a() $name" \
  >       "${name}_t[$body] 0 1, 1 2" "!unitlist $name $body"
  >   done <<END
  > overflow 2^127
  > division 1/0
  > root sqrt(2)
  > sum m + s
  > number m^s
  > exponent m^32768
  > domain low(11)
  > range low(8)
  > argument sq(3)
  > result odd(2 m)
  > inverse ~sq(9 m^2)
  > table t(4)
  > needs sq
  > deep f_17(1)
  > unknown nosuch
  > refused sin(1)
  > cycle ring
  > END
  > } > kinds.units
  $ apart units -c -f kinds.units
  argument: wrong argument: sq
  argument-: wrong argument: sq
  argument(): wrong argument: sq
  !unitlist argument: wrong argument: sq
  argument_t(): wrong argument: sq
  cycle: cycle: ring -> rung -> ring
  cycle-: cycle: ring -> rung -> ring
  cycle(): cycle: ring -> rung -> ring
  !unitlist cycle: cycle: ring -> rung -> ring
  cycle_a(): cycle: ring -> rung -> ring
  cycle_t(): cycle: ring -> rung -> ring
  deep: calls too deep: f_17
  deep-: calls too deep: f_17
  deep(): calls too deep: f_17
  !unitlist deep: calls too deep: f_17
  deep_t(): calls too deep: f_17
  division: division by zero
  division-: division by zero
  division(): division by zero
  !unitlist division: division by zero
  division_t(): division by zero
  domain: not in domain: low
  domain-: not in domain: low
  domain(): not in domain: low
  !unitlist domain: not in domain: low
  domain_t(): not in domain: low
  exponent: exponent out of range
  exponent-: exponent out of range
  exponent(): exponent out of range
  !unitlist exponent: exponent out of range
  exponent_t(): exponent out of range
  inverse: no inverse: sq
  inverse-: no inverse: sq
  inverse(): no inverse: sq
  !unitlist inverse: no inverse: sq
  inverse_t(): no inverse: sq
  needs: argument needed: sq
  needs-: argument needed: sq
  needs(): argument needed: sq
  !unitlist needs: argument needed: sq
  needs_t(): argument needed: sq
  number: exponent is not a number
  number-: exponent is not a number
  number(): exponent is not a number
  !unitlist number: exponent is not a number
  number_t(): exponent is not a number
  overflow: overflow
  overflow-: overflow
  overflow(): overflow
  !unitlist overflow: overflow
  overflow_t(): overflow
  range: not in range: low
  range-: not in range: low
  range(): not in range: low
  !unitlist range: not in range: low
  range_t(): not in range: low
  refused: refused function: sin in refused
  refused-: refused function: sin in refused-
  refused(): refused function: sin in refused()
  !unitlist refused: refused function: sin
  refused_a(): refused function: sin in refused()
  refused_t(): refused function: sin in refused_t()
  result: wrong result: odd
  result-: wrong result: odd
  result(): wrong result: odd
  !unitlist result: wrong result: odd
  result_t(): wrong result: odd
  ring: cycle: ring -> rung -> ring
  root: no exact root
  root-: no exact root
  root(): no exact root
  !unitlist root: no exact root
  root_t(): no exact root
  rung: cycle: rung -> ring -> rung
  sum: sum of unlike units: 1 m and 1 s
  sum-: sum of unlike units: 1 m and 1 s
  sum(): sum of unlike units: 1 m and 1 s
  !unitlist sum: sum of unlike units: 1 m and 1 s
  sum_t(): sum of unlike units: 1 m and 1 s
  table: outside table: t
  table-: outside table: t
  table(): outside table: t
  !unitlist table: outside table: t
  table_t(): outside table: t
  unknown: unknown unit: nosuch in unknown
  unknown-: unknown unit: nosuch in unknown-
  unknown(): unknown unit: nosuch in unknown()
  !unitlist unknown: unknown unit: nosuch
  unknown_a(): unknown unit: nosuch in unknown()
  unknown_t(): unknown unit: nosuch in unknown_t()
  [1]

Each initial part of the text of the built-in definitions is checked. The notices and the faults are those of plain
recursion in Python (tools/comparisons/compare_reports.py --prefixes).

  $ for i in $(seq 0 1057); do head -c $i "$BUILTIN" > p.units; units -c -f p.units; echo $?; done > prefixes
  $ grep -cx 0 prefixes; grep -cx 1 prefixes
  347
  711
  $ grep -o -E 'unknown unit|cycle|conformability error|unclosed block|bad table|syntax error' prefixes | sort | uniq -c
       23 bad table
        1 conformability error
        7 cycle
       87 syntax error
       67 unclosed block
      119 unknown unit
  $ md5sum < prefixes
  bc601fe6c8d51d2964cc48b8065f5c29  -

The units that conform are sorted by name.

  $ file mil.units 'm !' 's !' 'min 60 s' 'mil 5 m' 'milli- 1|1000'
  $ apart units -f mil.units "2 s" "?"
  \tmin\t60 s (esc)
  \ts\t! (esc)
  $ apart units -f mil.units "2 s" "? # which"
  \tmin\t60 s (esc)
  \ts\t! (esc)
  $ apart units -f mil.units "s^2" "?"
  no matching names
  $ apart units -f mil.units "nosuch" "?"
  unknown unit: nosuch
  [1]
