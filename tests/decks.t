Decks, as `test_calls decks` answers calls on them. `load FILE` and `text FILE` give a deck; `text` reads this file
alone, and its includes count as absent. `define LINE`, `drop KEY`, `append FILE`, `switch` and
`splice AT CUT LINE;LINE..` edit it and print the keys whose entries differ; `back` makes the inverse of the last
splice. `locale L` and `set VAR VALUE` are settings for later loads and edits. A line is shown with its number, and with
a `~` if it has no effect. The answers come from an independent reading of the format,
tools/comparisons/compare_decks.py --answer.

An include is relative to the folder of its includer, not of the first file. A path that begins with `/` is used as it
is.

  $ mkdir sub sub/deep
  $ printf 'm !\n!include sub/b.units\nlast m\n' > a.units
  $ printf 'b 2 m\n!include c.units\n!include deep/d.units\n' > sub/b.units
  $ printf 'c 3 m\n' > sub/c.units
  $ printf 'wrong 1 m\n' > c.units
  $ printf 'd 4 m\n!include ../c.units\n!include /no/such.units\n' > sub/deep/d.units
  $ test_calls decks <<'END'
  > load a.units
  > lines
  > notices
  > keys
  > count
  > place last
  > entry wrong
  > load ./a.units
  > notices
  > END
  ok
  1 m ! | 2 !include sub/b.units | 1 b 2 m | 2 !include c.units | 1 c 3 m | 3 !include deep/d.units | 1 d 4 m | 2 !include ../c.units | 1 c 3 m | 3 ~!include /no/such.units | 3 last m
  sub/deep/d.units:3: no file: /no/such.units
  b | c | d | last | m
  5 units, 0 prefixes, 0 functions, 0 lists, 11 lines, 1 notices
  10
  none
  ok
  ./sub/deep/d.units:3: no file: /no/such.units

The same files, if only the first one is read.

  $ test_calls decks <<'END'
  > text a.units
  > lines
  > notices
  > END
  ok
  1 m ! | 2 ~!include sub/b.units | 3 last m
  a.units:2: no file: sub/b.units

Absent files and files that are too long. A file of the greatest length is read.

  $ head -c 16777216 /dev/zero | tr '\0' '\n' > longest.units
  $ head -c 16777217 /dev/zero | tr '\0' '\n' > long.units
  $ printf 'm !\n!include none.units\n!include long.units\n!include longest.units\n a m\n' > e.units
  $ test_calls decks <<'END'
  > load none.units
  > lines
  > load long.units
  > load longest.units
  > count
  > load e.units
  > lines
  > notices
  > keys
  > append none.units
  > append long.units
  > lines
  > notices
  > END
  absent
  no deck
  too long
  ok
  0 units, 0 prefixes, 0 functions, 0 lists, 0 lines, 0 notices
  ok
  1 m ! | 2 ~!include none.units | 3 ~!include long.units | 4 !include longest.units | 5 a m
  e.units:2: no file: none.units | e.units:3: file too long: long.units
  a | m
  absent
  too long
  1 m ! | 2 ~!include none.units | 3 ~!include long.units | 4 !include longest.units | 5 a m
  e.units:2: no file: none.units | e.units:3: file too long: long.units

Files that include one another, 16 deep. A deeper include is refused before its file is looked for: in_17.units does not
exist.

  $ for i in $(seq 0 15); do printf 'u_%s0 !\n!include in_%s.units\n' $i $((i + 1)) > in_$i.units; done
  $ printf 'u_160 !\n' > in_16.units
  $ test_calls decks <<'END'
  > load in_0.units
  > count
  > notices
  > load in_1.units
  > count
  > END
  ok
  17 units, 0 prefixes, 0 functions, 0 lists, 33 lines, 0 notices
  none
  ok
  16 units, 0 prefixes, 0 functions, 0 lists, 31 lines, 0 notices
  $ printf '!include in_17.units\nu_160 !\n' > in_16.units
  $ test_calls decks <<'END'
  > load in_0.units
  > count
  > notices
  > place u_160
  > load in_1.units
  > count
  > notices
  > END
  ok
  17 units, 0 prefixes, 0 functions, 0 lists, 34 lines, 1 notices
  in_16.units:1: include too deep: in_17.units
  33
  ok
  16 units, 0 prefixes, 0 functions, 0 lists, 32 lines, 1 notices
  in_16.units:1: no file: in_17.units

A file that includes itself is read 17 times.

  $ printf 'm !\n!include self.units\n!endvar\n' > self.units
  $ test_calls decks <<'END'
  > load self.units
  > count
  > notices
  > END
  ok
  1 units, 0 prefixes, 0 functions, 0 lists, 51 lines, 18 notices
  self.units:2: include too deep: self.units | self.units:3: stray end | self.units:3: stray end | self.units:3: stray end | self.units:3: stray end | self.units:3: stray end | self.units:3: stray end | self.units:3: stray end | self.units:3: stray end | self.units:3: stray end | self.units:3: stray end | self.units:3: stray end | self.units:3: stray end | self.units:3: stray end | self.units:3: stray end | self.units:3: stray end | self.units:3: stray end | self.units:3: stray end

If a file cannot be read, the load or the append fails and leaves the deck as it was.

  $ printf 'm !\n!include sub\n' > f.units
  $ printf 'n !\n!include f.units\n' > g.units
  $ test_calls decks <<'END'
  > load sub
  > load f.units
  > lines
  > text f.units
  > notices
  > set V x
  > load self.units
  > snapshot
  > append sub
  > compare
  > append f.units
  > compare
  > append g.units
  > compare
  > append none.units
  > compare
  > append sub/c.units
  > compare
  > END
  read failed
  read failed
  no deck
  ok
  f.units:2: no file: sub
  ok
  ok
  ok
  read failed
  equal
  read failed
  equal
  read failed
  equal
  absent
  equal
  changed: c
  different

One file of four cannot be read, each in turn; the third is included within an open block. Then the same files, all of
them readable, are appended.

  $ mkdir -p whole/sub
  $ printf 'ell !\n!include sub/b\n!include d\nlast 2 ell\n' > whole/a
  $ printf '!locale en_US\n!include c\n' > whole/sub/b
  $ printf 'ft 3 ell\n' > whole/sub/c
  $ printf 'yd 3 ft\n' > whole/d
  $ for file in a sub/b sub/c d; do
  >   rm -rf cut
  >   cp -r whole cut
  >   rm "cut/$file"
  >   mkdir "cut/$file"
  >   printf '%s\n' 'load cut/a' 'load whole/d' snapshot 'append cut/a' compare 'append whole/a' count | test_calls decks
  > done
  read failed
  ok
  ok
  read failed
  equal
  changed: ell | ft | last
  4 units, 0 prefixes, 0 functions, 0 lists, 10 lines, 1 notices
  read failed
  ok
  ok
  read failed
  equal
  changed: ell | ft | last
  4 units, 0 prefixes, 0 functions, 0 lists, 10 lines, 1 notices
  read failed
  ok
  ok
  read failed
  equal
  changed: ell | ft | last
  4 units, 0 prefixes, 0 functions, 0 lists, 10 lines, 1 notices
  read failed
  ok
  ok
  read failed
  equal
  changed: ell | ft | last
  4 units, 0 prefixes, 0 functions, 0 lists, 10 lines, 1 notices

Stray ends, and blocks that are closed in the wrong order.

  $ printf '!endvar\nm !\n!locale en_US\n!endvar\na m\n!utf8\n!endlocale\n!endutf8\n!endlocale\n!endlocale\n' > h.units
  $ test_calls decks <<'END'
  > load h.units
  > lines
  > notices
  > keys
  > END
  ok
  1 ~!endvar | 2 m ! | 3 !locale en_US | 4 ~!endvar | 5 a m | 6 !utf8 | 7 ~!endlocale | 8 !endutf8 | 9 !endlocale | 10 ~!endlocale
  h.units:1: stray end | h.units:4: stray end | h.units:7: stray end | h.units:10: stray end
  a | m

Blocks that are not closed at the end of an included file, and of the first one. The missing ends are added, innermost
first, with the numbers of the lines that open the blocks. The notices are in the order of these lines.

  $ printf '!locale en_US\n!var V x\nv 1 m\n!endvar\n!varnot V x\n\n!utf8\ni 2 m\n' > open.units
  $ printf 'm !\n!locale en_GB\n!include open.units\n!endutf8\nno 2 m\n' > j.units
  $ test_calls decks <<'END'
  > load j.units
  > lines
  > notices
  > keys
  > locale en_GB
  > switch
  > locale en_US
  > load open.units
  > lines
  > notices
  > defining
  > append open.units
  > notices
  > count
  > END
  ok
  1 m ! | 2 !locale en_GB | 3 !include open.units | 1 !locale en_US | 2 !var V x | 3 v 1 m | 4 !endvar | 5 !varnot V x | 7 !utf8 | 8 i 2 m | 7 !endutf8 | 5 !endvar | 1 !endlocale | 4 ~!endutf8 | 5 no 2 m | 2 !endlocale
  open.units:1: unclosed block | open.units:5: unclosed block | open.units:7: unclosed block | j.units:4: stray end | j.units:2: unclosed block
  m
  ok
  changed: no
  ok
  ok
  1 !locale en_US | 2 !var V x | 3 v 1 m | 4 !endvar | 5 !varnot V x | 7 !utf8 | 8 i 2 m | 7 !endutf8 | 5 !endvar | 1 !endlocale
  open.units:1: unclosed block | open.units:5: unclosed block | open.units:7: unclosed block
  i 2 m
  changed: none
  open.units:1: unclosed block | open.units:5: unclosed block | open.units:7: unclosed block
  1 units, 0 prefixes, 0 functions, 0 lists, 20 lines, 3 notices

All four kinds of blocks are open, one in another, at the end of a first file, and of an included one whose includer
leaves a `!var` block open too.

  $ printf '!utf8\n!varnot V x\n!var V x\na 1 m\n!locale en_US\n' > four.units
  $ printf 'm !\n!var V x\n!include four.units\nb 1 m\n' > five.units
  $ test_calls decks <<'END'
  > load four.units
  > lines
  > notices
  > load five.units
  > lines
  > notices
  > keys
  > set V x
  > switch
  > END
  ok
  1 !utf8 | 2 !varnot V x | 3 !var V x | 4 a 1 m | 5 !locale en_US | 5 !endlocale | 3 !endvar | 2 !endvar | 1 !endutf8
  four.units:1: unclosed block | four.units:2: unclosed block | four.units:3: unclosed block | four.units:5: unclosed block
  ok
  1 m ! | 2 !var V x | 3 !include four.units | 1 !utf8 | 2 !varnot V x | 3 !var V x | 4 a 1 m | 5 !locale en_US | 5 !endlocale | 3 !endvar | 2 !endvar | 1 !endutf8 | 4 b 1 m | 2 !endvar
  four.units:1: unclosed block | four.units:2: unclosed block | four.units:3: unclosed block | four.units:5: unclosed block | five.units:2: unclosed block
  m
  ok
  changed: b

A file that ends within a continued line, and one that ends within a continued include line.

  $ printf 'm !\nft 12 \\\n  in\\' > k.units
  $ printf 'in m\n!include \\\n k.units \\\n' > l.units
  $ test_calls decks <<'END'
  > load k.units
  > lines
  > load l.units
  > lines
  > entry ft
  > END
  ok
  1 m ! | 2 ft 12    in
  ok
  1 in m | 2 !include   k.units | 1 m ! | 2 ft 12    in
  12    in

Refused lines stay in the deck and have no effect.

  $ printf 'm !\nh- \n1a m\n!nosuch\n!var V\n!include\n!locale a b\na 3 *\nt[m] 1 2\nf() \n a 2 m \n\na\t5  m\n' > n.units
  $ test_calls decks <<'END'
  > load n.units
  > lines
  > notices
  > keys
  > entry a
  > place a
  > drop a
  > drop a
  > drop a
  > count
  > END
  ok
  1 m ! | 2 ~h- | 3 ~1a m | 4 ~!nosuch | 5 ~!var V | 6 ~!include | 7 ~!locale a b | 8 ~a 3 * | 9 ~t[m] 1 2 | 10 ~f() | 11 a 2 m | 13 a\t5  m (esc)
  n.units:2: bad definition | n.units:3: bad name: 1a | n.units:4: unknown directive | n.units:5: bad directive | n.units:6: bad directive | n.units:7: bad directive | n.units:8: syntax error at 3 | n.units:9: bad table | n.units:10: bad definition
  a | m
  5  m
  11
  changed: a
  changed: a
  no such key
  1 units, 0 prefixes, 0 functions, 0 lists, 10 lines, 9 notices

A variable is compared with a list of values, which blanks or tabs separate. Each `!varnot` block holds for a variable
that is not set.

  $ printf 'm !\n!var V x y\na 1 m\n!endvar\n!var V y\tz\nb 1 m\n!endvar\n!varnot V x\nc_0 1 m\n!endvar\n!var V xy\nd 1 m\n!endvar\n' > o.units
  $ test_calls decks <<'END'
  > load o.units
  > keys
  > set V x
  > switch
  > set V y
  > switch
  > keys
  > set V x y
  > switch
  > keys
  > settings
  > END
  ok
  c_0 | m
  ok
  changed: a | c_0
  ok
  changed: b | c_0
  a | b | c_0 | m
  ok
  changed: a | b
  c_0 | m
  en_US | V x y

The first of two `!set` lines counts, and a setting takes precedence over both. A `!set` line in a block that does not
hold sets nothing.

  $ printf 'm !\n!set V x\n!set V y\n!var V x\na 1 m\n!endvar\n!var V y\na 2 m\n!endvar\n' > p.units
  $ printf 'm !\n!locale de_DE\n!set V x\n!endlocale\n!var V x\na 1 m\n!endvar\n!set V y z\n!var V y z\na 2 m\n!endvar\n!varnot V y z\na 3 m\n!endvar\n' > q.units
  $ test_calls decks <<'END'
  > load p.units
  > entry a
  > set V y
  > switch
  > entry a
  > load q.units
  > entry a
  > locale de_DE
  > switch
  > entry a
  > load p.units
  > END
  ok
  1 m
  ok
  changed: a
  2 m
  ok
  2 m
  ok
  changed: none
  2 m
  ok
  $ test_calls decks <<'END'
  > load q.units
  > entry a
  > locale de_DE
  > switch
  > entry a
  > END
  ok
  3 m
  ok
  changed: none
  3 m

A variable that a file sets is also set in the files that it includes, and after them. So is one that an included file
sets.

  $ printf '!set V x\n!include s.units\n!var W y\na 1 m\n!endvar\n' > r.units
  $ printf '!var V x\nb 1 m\n!set W y\n!endvar\n' > s.units
  $ test_calls decks <<'END'
  > load r.units
  > keys
  > load s.units
  > keys
  > set V x
  > switch
  > append r.units
  > END
  ok
  a | b
  ok
  none
  ok
  changed: b
  changed: a

Messages in force and not in force, one without text and one with blanks.

  $ printf '!message hello\n!message\n!locale en_GB\n!message  cheerio \n!endlocale\n!message a  b # c\n!prompt no\n!var V x\n!message x\n!endvar\n!endvar\n' > t.units
  $ test_calls decks <<'END'
  > load t.units
  > messages
  > locale en_GB
  > switch
  > messages
  > set V x
  > switch
  > messages
  > count
  > END
  ok
  hello |  | a  b
  ok
  changed: none
  hello |  | cheerio | a  b
  ok
  changed: none
  hello |  | cheerio | a  b | x
  0 units, 0 prefixes, 0 functions, 0 lists, 11 lines, 1 notices

The two gallons of the built-in definitions, to and fro. In another locale there is none.

  $ test_calls decks <<END
  > text $BUILTIN
  > count
  > notices
  > entry gallon
  > place gallon
  > locale en_GB
  > switch
  > entry gallon
  > place gallon
  > switch
  > locale de_DE
  > switch
  > entry gallon
  > entry quart
  > locale en_US
  > switch
  > entry gallon
  > settings
  > count
  > END
  ok
  43 units, 18 prefixes, 4 functions, 2 lists, 72 lines, 0 notices
  none
  231 in^3
  57
  ok
  changed: gallon
  4.54609 liter
  60
  changed: none
  ok
  changed: gallon
  none
  1|4 gallon
  ok
  changed: gallon
  231 in^3
  en_US
  43 units, 18 prefixes, 4 functions, 2 lists, 72 lines, 0 notices

`define` of an entry that exists, of a new entry for an old key, of each kind of key, and of lines that are no
definitions. A line is trimmed, and has the number 0. Two entries are equal if and only if their texts are.

  $ printf 'm !\na 2 m\n' > u.units
  $ test_calls decks <<'END'
  > load u.units
  > define a 2 m
  > define   a 2 m 	
  > define a 2  m
  > define b 3 m
  > define k- 1000
  > define f(x) x
  > define f[m] 1 2 3 4
  > define f() g
  > define !unitlist a m;a
  > define ! unitlist a m;a
  > lines
  > keys
  > count
  > snapshot
  > define
  > define # b
  > define !set V x
  > define !endvar
  > define !unitlist
  > define +!unitlist z m
  > define 1a m
  > define c 3 *
  > define c 1e10000 m
  > define t[m] 1 2
  > define c
  > compare
  > END
  ok
  changed: none
  changed: none
  changed: a
  changed: b
  changed: k-
  changed: f()
  changed: f()
  changed: f()
  changed: !unitlist a
  changed: none
  1 m ! | 2 a 2 m | 0 a 2 m | 0 a 2 m | 0 a 2  m | 0 b 3 m | 0 k- 1000 | 0 f(x) x | 0 f[m] 1 2 3 4 | 0 f() g | 0 !unitlist a m;a | 0 ! unitlist a m;a
  a | !unitlist a | b | f() | k- | m
  3 units, 1 prefixes, 1 functions, 1 lists, 12 lines, 0 notices
  ok
  bad definition
  bad name: #
  bad definition
  bad definition
  bad definition
  bad name: !unitlist
  bad name: 1a
  syntax error at 3
  numeral too long
  bad table
  bad definition
  equal

`drop` removes the last line in force of a key, and the one before it is in force again. A key without a line in force
is not found.

  $ printf 'm !\na 2 m\n!locale en_GB\na 3 m\nb 4 m\n!endlocale\na 2 m\na 5 m\n' > v.units
  $ test_calls decks <<'END'
  > load v.units
  > drop a
  > place a
  > drop a
  > place a
  > snapshot
  > drop b
  > drop a-
  > drop a()
  > drop 3
  > drop
  > drop !unitlist a
  > compare
  > locale en_GB
  > switch
  > drop b
  > drop a
  > drop a
  > drop a
  > lines
  > END
  ok
  changed: a
  6
  changed: none
  1
  ok
  no such key
  no such key
  no such key
  not a key
  not a key
  no such key
  equal
  ok
  changed: a | b
  changed: b
  changed: a
  changed: a
  no such key
  1 m ! | 3 !locale en_GB | 6 !endlocale

`append` of lines that the deck has changes no key, and of other lines the keys that they define. Its notices replace
the earlier ones, and a block of the deck does not continue in it.

  $ printf 'a 7 m\n!locale en_GB\nb 4 m\n!nosuch\n' > w.units
  $ test_calls decks <<'END'
  > load v.units
  > append v.units
  > append w.units
  > notices
  > lines
  > locale en_GB
  > switch
  > append u.units
  > notices
  > count
  > END
  ok
  changed: none
  changed: a
  w.units:4: unknown directive | w.units:2: unclosed block
  1 m ! | 2 a 2 m | 3 !locale en_GB | 4 a 3 m | 5 b 4 m | 6 !endlocale | 7 a 2 m | 8 a 5 m | 1 m ! | 2 a 2 m | 3 !locale en_GB | 4 a 3 m | 5 b 4 m | 6 !endlocale | 7 a 2 m | 8 a 5 m | 1 a 7 m | 2 !locale en_GB | 3 b 4 m | 4 ~!nosuch | 2 !endlocale
  ok
  changed: b
  changed: a
  none
  3 units, 0 prefixes, 0 functions, 0 lists, 23 lines, 0 notices

A snapshot does not change with the deck.

  $ test_calls decks <<'END'
  > compare
  > load v.units
  > compare
  > snapshot
  > compare
  > define b 6 m
  > compare
  > drop b
  > compare
  > locale en_GB
  > switch
  > compare
  > locale en_US
  > switch
  > compare
  > set V x
  > switch
  > compare
  > load v.units
  > compare
  > append e.units
  > compare
  > END
  no deck
  ok
  no snapshot
  ok
  equal
  changed: b
  different
  changed: b
  equal
  ok
  changed: b
  different
  ok
  changed: b
  equal
  ok
  changed: none
  different
  ok
  different
  changed: a
  different

  $ printf 'm !\na 2 m\nb 3 a\nc 5 m\n' > abc.units
  $ test_calls decks <<'END'
  > load abc.units
  > snapshot
  > define a 7 m
  > compare
  > entry a
  > define a 7 m
  > drop zz
  > count
  > lines
  > drop a
  > drop a
  > compare
  > entry a
  > END
  ok
  ok
  changed: a
  different
  7 m
  changed: none
  no such key
  4 units, 0 prefixes, 0 functions, 0 lists, 6 lines, 0 notices
  1 m ! | 2 a 2 m | 3 b 3 a | 4 c 5 m | 0 a 7 m | 0 a 7 m
  changed: none
  changed: a
  equal
  2 m

A deck has at most 100,000 lines. Blank lines and comments do not count. A refused edit changes nothing.

  $ yes 'm !' | head -n 99999 > most.units
  $ (cat most.units; printf '\n# no line\n   \n!nosuch\n') > full.units
  $ (cat full.units; echo '!endvar') > over.units
  $ (cat most.units; echo '!utf8') > added.units
  $ (cat most.units; printf '!include none.units\n!include sub\n') > order.units
  $ (cat most.units; printf '!include sub\n!include none.units\nm !\n') > fails.units
  $ test_calls decks <<'END'
  > load over.units
  > load added.units
  > load order.units
  > load fails.units
  > load most.units
  > count
  > define x m
  > count
  > snapshot
  > define x m
  > define y m
  > define 3
  > append u.units
  > append longest.units
  > compare
  > drop x
  > load full.units
  > notices
  > define x m
  > append longest.units
  > drop m
  > drop m
  > define x m
  > count
  > END
  deck full
  deck full
  deck full
  read failed
  ok
  1 units, 0 prefixes, 0 functions, 0 lists, 99999 lines, 0 notices
  changed: x
  2 units, 0 prefixes, 0 functions, 0 lists, 100000 lines, 0 notices
  ok
  deck full
  deck full
  bad name: 3
  deck full
  changed: none
  equal
  changed: x
  ok
  full.units:100003: unknown directive
  deck full
  changed: none
  changed: none
  changed: none
  changed: x
  2 units, 0 prefixes, 0 functions, 0 lists, 99999 lines, 0 notices

The texts of a deck's lines, include lines too, have at most 67,108,864 bytes.

  $ message() { printf '!message '; head -c $1 /dev/zero | tr '\0' x; }
  $ message 16777207 > w; message 16777167 > r; message 16777168 > o; message 16777164 > l
  $ for end in r o l; do printf '!include w\n!include w\n!include w\n!include %s\n' $end > all_$end; done
  $ test_calls decks <<'END'
  > load all_o
  > load all_r
  > count
  > define a !
  > load all_l
  > define ab !
  > define a !
  > define a !
  > count
  > END
  deck full
  ok
  0 units, 0 prefixes, 0 functions, 0 lists, 8 lines, 0 notices
  deck full
  ok
  deck full
  changed: a
  deck full
  1 units, 0 prefixes, 0 functions, 0 lists, 9 lines, 0 notices

Each prefix of the text of the built-in definitions gives a deck. Its notices report an incomplete last line and open
blocks.

  $ test_calls decks > prefixes <<END
  > $(for i in $(seq 0 1057); do head -c $i $BUILTIN > p_$i; echo "text p_$i"; echo notices; echo count; echo lines; done)
  > END
  $ grep -c '^ok$' prefixes
  1058
  $ grep '^p_' prefixes | sed 's/p_[0-9]*:[0-9]*: //g; s/: .*//; s/ at .*//' | sort | uniq -c
      376 bad definition
       14 bad definition | unclosed block
        4 bad directive
        1 bad name
       23 bad table
       87 syntax error
       34 unclosed block
       28 unknown directive
       18 unknown directive | unclosed block
  $ md5sum < prefixes
  2d71187fd283c8a9e8a28c21d99fe13a  -

Every splice of a small deck, with a few lines to insert: its result, its inverse, and that this restores the deck. A
splice is refused if it is out of range, leaves a block open, or ends one that is not open.

  $ cat > x.units <<'END'
  > a !
  > !locale en_GB
  > b 2 a
  > !endlocale
  > b 3 a
  > !set V x
  > !var V x
  > d b
  > !endvar
  > !endvar
  > a 5
  > END
  $ puts() {
  >   printf '%s\n' '' 'b 7' '~!endvar;d 2 a' '!locale en_US;a 9;!endlocale' '!endvar;!varnot V x' '!endlocale;!locale en_GB' '!set V y;e 3'
  > }
  $ splices() {
  >   for at in $(seq 0 12); do
  >     for cut in $(seq 0 $((12 - at))); do
  >       puts | while IFS= read -r put; do
  >         printf 'splice %s %s %s\nlines\nkeys\nplace a\nplace b\nplace d\nback\ncompare\n' $at $cut "$put"
  >       done
  >     done
  >   done
  > }
  $ (printf 'load x.units\nsnapshot\n'; splices) | test_calls decks > spliced
  $ grep -c '^no such splice$' spliced
  421
  $ grep -c '^changed' spliced
  432
  $ sort spliced | uniq -c | grep -E 'equal|different'
      637 equal
  $ md5sum < spliced
  2e710e04e162de009268bdafb790d277  -

The same splices, which also switch to other settings. Their inverses switch back.

  $ (printf 'load x.units\nsnapshot\nlocale en_GB\nset V y\n'; splices) | test_calls decks > spliced
  $ sort spliced | uniq -c | grep -E 'equal|different'
      637 equal
  $ md5sum < spliced
  a77439fb7d24720f183638c4a92b673d  -

Lines that are no calls, and calls without a deck.

  $ test_calls decks <<'END'
  > 
  > nothing
  > load
  > lines
  > define a !
  > snapshot
  > compare
  > splice 0
  > END
  bad call
  bad call
  absent
  no deck
  no deck
  no deck
  no deck
  bad call
