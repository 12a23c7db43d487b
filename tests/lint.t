Faults of definitions, each with its file, line and column.

Sound definitions have no faults.

  $ units_why --lint
  $ printf 'm !\nyard 0.9144 m\n' > sound.units
  $ units_why --lint -f sound.units

Lines without effect come first, as in `units --check`; then the keys, in the order of files and lines. The column is
that of the faulty word or byte, or else of the name.

  $ cat > faults.units <<'end'
  > m !
  > kg !
  > a b m
  > b c
  > c a
  >   sum m + kg
  > unknown 2 missing
  > bad (
  > 3x m
  > !nothing
  > !endlocale
  > pre- 2 missing
  > f(x) units=[1;m] x missing ; f/m
  > t[kg missing] 1 1, 2 2
  > !unitlist list m;kg
  > huge 1e30 1e30
  > !locale en_US
  > end
  $ units_why --lint -f faults.units
  faults.units:8:6: syntax error at 1
  faults.units:9:1: bad name: 3x
  faults.units:10:1: unknown directive
  faults.units:11:1: stray end
  faults.units:17:1: unclosed block
  faults.units:3:3: a: cycle: a -> b -> c -> a
  faults.units:4:3: b: cycle: b -> c -> a -> b
  faults.units:5:3: c: cycle: c -> a -> b -> c
  faults.units:6:3: sum: sum of unlike units: 1 m and 1 kg
  faults.units:7:11: unknown: unknown unit: missing in unknown
  faults.units:12:8: pre-: unknown unit: missing in pre-
  faults.units:13:20: f(): unknown unit: missing in f()
  faults.units:14:6: t(): unknown unit: missing in t()
  faults.units:15:11: !unitlist list: conformability error
  faults.units:16:1: huge: overflow
  [1]
  $ units --check -f faults.units
  faults.units:8: syntax error at 1
  faults.units:9: bad name: 3x
  faults.units:10: unknown directive
  faults.units:11: stray end
  faults.units:17: unclosed block
  a: cycle: a -> b -> c -> a
  b: cycle: b -> c -> a -> b
  c: cycle: c -> a -> b -> c
  f(): unknown unit: missing in f()
  huge: overflow
  !unitlist list: conformability error
  pre-: unknown unit: missing in pre-
  sum: sum of unlike units: 1 m and 1 kg
  t(): unknown unit: missing in t()
  unknown: unknown unit: missing in unknown
  [1]
  $ units_why --lint --json -f faults.units
  {"severity":"error","file":"faults.units","line":8,"column":6,"end":7,"message":"syntax error at 1"}
  {"severity":"error","file":"faults.units","line":9,"column":1,"end":3,"message":"bad name: 3x"}
  {"severity":"error","file":"faults.units","line":10,"column":1,"end":9,"message":"unknown directive"}
  {"severity":"error","file":"faults.units","line":11,"column":1,"end":11,"message":"stray end"}
  {"severity":"error","file":"faults.units","line":17,"column":1,"end":8,"message":"unclosed block"}
  {"severity":"error","file":"faults.units","line":3,"column":3,"end":4,"key":"a","message":"cycle: a -> b -> c -> a"}
  {"severity":"error","file":"faults.units","line":4,"column":3,"end":4,"key":"b","message":"cycle: b -> c -> a -> b"}
  {"severity":"error","file":"faults.units","line":5,"column":3,"end":4,"key":"c","message":"cycle: c -> a -> b -> c"}
  {"severity":"error","file":"faults.units","line":6,"column":3,"end":6,"key":"sum","message":"sum of unlike units: 1 m and 1 kg"}
  {"severity":"error","file":"faults.units","line":7,"column":11,"end":18,"key":"unknown","message":"unknown unit: missing in unknown"}
  {"severity":"error","file":"faults.units","line":12,"column":8,"end":15,"key":"pre-","message":"unknown unit: missing in pre-"}
  {"severity":"error","file":"faults.units","line":13,"column":20,"end":27,"key":"f()","message":"unknown unit: missing in f()"}
  {"severity":"error","file":"faults.units","line":14,"column":6,"end":13,"key":"t()","message":"unknown unit: missing in t()"}
  {"severity":"error","file":"faults.units","line":15,"column":11,"end":15,"key":"!unitlist list","message":"conformability error"}
  {"severity":"error","file":"faults.units","line":16,"column":1,"end":5,"key":"huge","message":"overflow"}
  [1]

A definition that a later one replaces gives a warning. A line for another locale gives none.

  $ cat > twice.units <<'end'
  > m !
  > ell 1 m
  > !locale en_GB
  > 	ell 1.2 m
  > !endlocale
  > ell 2 m
  > end
  $ units_why --lint -f twice.units
  twice.units:2:1: ell: replaced by the definition at twice.units:6
  [1]
  $ units_why --lint -f twice.units -l en_GB
  twice.units:2:1: ell: replaced by the definition at twice.units:6
  twice.units:4:2: ell: replaced by the definition at twice.units:6
  [1]

Included files, in the order in which they are read.

  $ mkdir -p sub
  $ printf 'm !\n!include sub/one.units\nlast 2 gone\n!include absent.units\n' > top.units
  $ printf 'one 2 lost\n!include two.units\nover m ++\n' > sub/one.units
  $ printf '\t two 2 nowhere\n' > sub/two.units
  $ units_why --lint -f top.units
  sub/one.units:3:10: syntax error at 4
  top.units:4:10: no file: absent.units
  top.units:3:8: last: unknown unit: gone in last
  sub/one.units:1:7: one: unknown unit: lost in one
  sub/two.units:1:9: two: unknown unit: nowhere in two
  [1]

The faulty word may be on a continuation line, after a numeral or before a power. The column is that of the name if the
fault is one of another definition, or if the text has the word in another form.

  $ cat > words.units <<'end'
  > m !
  > + first 3 m \
  >     2lost4 / s
  > second 2 first
  > third calls(2)
  > calls(x) units=[m;m] x m ; calls / m
  > fourth 2 calls
  > ring rings / 2
  > end
  $ units_why --lint -f words.units
  words.units:3:6: first: unknown unit: lost in first
  words.units:4:1: second: unknown unit: lost in first
  words.units:5:7: third: wrong argument: calls
  words.units:7:10: fourth: argument needed: calls
  words.units:8:1: ring: cycle: ring -> ring
  [1]

A comment with `#:` names the unit to which definitions must conform: that of its line, or, on a line of its own, those
after it up to a blank line.

  $ cat > noted.units <<'end'
  > m !
  > s !
  > radian !dimensionless
  > kilo- 1000
  > 
  > #: m
  > # lengths
  > yard 0.9144 m
  > hour 3600 s
  > pace 3 s # a step #: s # and no more
  > rod 5 s #: m #: s
  > league 3 s \ # in two lines #: s
  >     2
  > fine 2 m #:
  > 
  > free 2 s
  > turn 2 radian #: 1
  > lax- 2 s #: 1
  > root(x) units=[m;s] x s/m ; root m/s #: m
  > other() root #: s
  > another() other #: m
  > loop() pool #: m
  > pool() loop #: m
  > gauge[m] 1 1, 2 2 #: s
  > !unitlist parts hour;s #: m
  > wrong 2 m #: furlong
  > worse 2 m #: (m
  > broken 2 lost #: s
  > end
  $ units_why --lint -f noted.units
  noted.units:9:1: hour: 3600 s does not conform to m
  noted.units:18:1: lax-: 2 s does not conform to 1
  noted.units:19:1: root(): 1 s does not conform to m
  noted.units:21:1: another(): 1 s does not conform to m
  noted.units:22:8: loop(): cycle: loop() -> pool() -> loop()
  noted.units:23:8: pool(): cycle: pool() -> loop() -> pool()
  noted.units:24:1: gauge(): 1 m does not conform to s
  noted.units:25:11: !unitlist parts: 3600 s does not conform to m
  noted.units:26:1: wrong: the unit of its comment, furlong, has no value: unknown unit: furlong
  noted.units:27:1: worse: the unit of its comment, (m, has no value: syntax error at 2
  noted.units:28:10: broken: unknown unit: lost in broken
  [1]
  $ units_why --lint --json -f noted.units | head -n 1
  {"severity":"warning","file":"noted.units","line":9,"column":1,"end":5,"key":"hour","message":"3600 s does not conform to m"}

Both linters read these comments in the same way.

  $ units-lint noted.units
  noted.units:9: hour conforms to s, not to m
  noted.units:18: lax conforms to s, not to 1
  noted.units:19: root conforms to s, not to m
  noted.units:21: another conforms to s, not to m
  noted.units:24: gauge conforms to m, not to s
  noted.units:25: parts conforms to s, not to m
  noted.units:26: the unit furlong of wrong has no value: unknown unit: furlong
  noted.units:27: the unit (m of worse has no value: syntax error at 4
  noted.units:28: broken has no value: unknown unit: lost in broken
  [1]

Such a comment holds only in its own file, not in those that it includes. A line for another locale is not checked.

  $ printf '#: s\n!include inner.units\nlate 2 m\n' > outer.units
  $ printf 'm !\ns !\nearly 2 m\n!locale en_GB\nlocal 2 m #: s\n!endlocale\n' > inner.units
  $ units_why --lint -f outer.units
  outer.units:3:1: late: 2 m does not conform to s
  [1]
  $ units_why --lint -f outer.units -l en_GB
  outer.units:3:1: late: 2 m does not conform to s
  inner.units:5:1: local: 2 m does not conform to s
  [1]

Words that are read as a plural or with a prefix, and have another reading with other dimensions.

  $ cat > two.units <<'end'
  > m !
  > s !
  > d- 0.1
  > da- 10
  > da 86400 s
  > as 2 m
  > mixed 3 das + 1 da
  > plain 3 das + 1 as
  > end
  $ units_why --lint -f two.units
  two.units:7:9: mixed: das is read as the plural of da, not as d as
  two.units:8:1: plain: sum of unlike units: 259200 s and 2 m
  two.units:8:9: plain: das is read as the plural of da, not as d as
  [1]

`--captures` also reports units that hide a reading with another value. A prefix alone is no such reading.

  $ cat > hidden.units <<'end'
  > m !
  > s !
  > kg !
  > m- 1e-3
  > k- 1000
  > in 0.0254 m
  > min 60 s
  > g 1e-3 kg
  > mg 1e-6 kg
  > ms 5 s
  > end
  $ units_why --lint -f hidden.units
  $ units_why --lint --captures -f hidden.units
  hidden.units:7:1: min: hides m in = 2.54e-05 m
  hidden.units:10:1: ms: hides m s = 0.001 s
  [1]
  $ units_why --lint --captures --json -f hidden.units | head -n 1
  {"severity":"information","file":"hidden.units","line":7,"column":1,"end":4,"key":"min","message":"hides m in = 2.54e-05 m"}

`--unused` also reports what no other definition uses, unless it is a unit of measure or a list.

  $ cat > unused.units <<'end'
  > m !
  > s !
  > radian !dimensionless
  > milli- 1e-3
  > kilo- 1000
  > half 1|2
  > dozen 12
  > pi 3
  > ell 45 in
  > in half millim pi
  > f(x) x
  > g() f
  > !unitlist lengths ell;in
  > self(x) self(x)
  > end
  $ units_why --lint --unused -f unused.units
  unused.units:5:1: kilo-: no other definition uses it
  unused.units:7:1: dozen: no other definition uses it
  unused.units:12:1: g(): no other definition uses it
  unused.units:14:9: self(): cycle: self() -> self()
  unused.units:14:1: self(): no other definition uses it
  [1]
  $ units_why --lint --unused --captures | head -n 2
  builtin:19:1: G-: no other definition uses it
  builtin:20:1: M-: no other definition uses it

The standard library has no findings.

  $ units_why --lint -f "$LIBRARY"
  $ units_why --lint -f "$LIBRARY" -l en_GB

The word at fault may be directly before the backslash that continues the line.

  $ printf 'm !\nberries tan\\\n(2) m\nbird 2 \\\n nosuch\\\n\n' > ends.units
  $ units_why --lint -f ends.units
  ends.units:2:9: berries: refused function: tan in berries
  ends.units:5:2: bird: unknown unit: nosuch in bird
  [1]

A file that cannot be read twice has findings without places.

  $ printf 'm !\nyd 0.9144 q\n' | units_why --lint -f /dev/stdin
  units-why: a file changed while it was read, so no line has a place
  yd: unknown unit: q in yd
  [1]

`units-lint` reads no more lines than the program, however a file includes itself, and no name ends one of its answers.

  $ printf 'm !\n!include twice.units\n!include twice.units\n' > twice.units
  $ units-lint twice.units
  lint_units: twice.units: deck full
  [2]
  $ printf 'm !\na\342\200\250b !\nto 2 m\n' > separator.units
  $ units-lint separator.units
  separator.units:3: to is an English word that a query may contain
  [1]
  $ head -c 16777217 /dev/zero > long.units
  $ units-lint long.units
  lint_units: long.units: file too long
  [2]

Refused arguments and files.

  $ units_why --lint -f absent.units
  units-why: no file: absent.units
  [3]
  $ units_why --unused m
  units-why: usage: units-why [options] EXPRESSION [UNIT], or units-why --lint [options]
  [2]
  $ units_why --lint --nothing
  units-why: usage: units-why [options] EXPRESSION [UNIT], or units-why --lint [options]
  [2]
