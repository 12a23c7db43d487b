Sessions: the answer to each line, edits of the definitions, and the stream of each output. `apart` marks the lines of
standard error by `err: `.

  $ file() { name=$1; shift; printf '%s\n' "$@" > "$name"; }
  $ apart() { "$@" 2> err; status=$?; sed 's/^/err: /' err; return $status; }

`session OPTIONS -- LINES` runs a session. The options precede `--`, and each word after it is a line.

  $ session() {
  >   options=
  >   while [ "$1" != -- ]; do options="$options $1"; shift; done
  >   shift
  >   printf '%s\n' "$@" | apart units $options
  > }

`ms` is a prefix with a unit until it is defined, and again after that definition is dropped.

  $ session -q -- '1 s' ms ':define ms 7 s' '1 s' ms ':drop ms' '1 s' ms
  \t* 1000 (esc)
  \t/ 0.001 (esc)
  \t* 0.14285714 (esc)
  \t/ 7 (esc)
  \t* 1000 (esc)
  \t/ 0.001 (esc)

A cycle is reported from the name in it that is met first. A definition breaks it.

  $ file cycle.units 'm !' 'a b' 'b a' 'c 2 a'
  $ session -q -f cycle.units -- c b ':define b m' c ''
  cycle: a -> b -> a
  cycle: b -> a -> b
  \tDefinition: 2 a = 2 m (esc)

The counts of `:stats` show which values are kept and which are forgotten.

  $ file chain.units 'm !' 'a 2 m' 'b 3 a' 'c 5 m'
  $ session -q -f chain.units -- b m c m ':define a 7 m' :stats b m :stats
  \t* 6 (esc)
  \t/ 0.16666667 (esc)
  \t* 5 (esc)
  \t/ 0.2 (esc)
  settled 2 of 4, reductions 4
  \t* 21 (esc)
  \t/ 0.047619048 (esc)
  settled 4 of 4, reductions 6
  $ file kx.units 'm !' 'k- 10' 'kx 2 m' 'x 5 m' 'y kx'
  $ session -q -f kx.units -- y m ':define k- 20' :stats ':drop kx' y m ':define kx 3 m' y m
  \t* 2 (esc)
  \t/ 0.5 (esc)
  settled 3 of 5, reductions 3
  \t* 100 (esc)
  \t/ 0.01 (esc)
  \t* 3 (esc)
  \t/ 0.33333333 (esc)
  $ file absent.units 'm !' 'a b'
  $ session -q -f absent.units -- a :stats ':define b 2 m' a m :stats
  unknown unit: b in a
  settled 0 of 2, reductions 0
  \t* 2 (esc)
  \t/ 0.5 (esc)
  settled 3 of 3, reductions 3
  $ file p.units 'm !' 'da- 10' 'd- 1|10' 'ab 7 m'
  $ session -q -f p.units -- dab m ':define b 2 m' dab m ':drop b' dab m
  \t* 0.7 (esc)
  \t/ 1.4285714 (esc)
  \t* 20 (esc)
  \t/ 0.05 (esc)
  \t* 0.7 (esc)
  \t/ 1.4285714 (esc)
  $ session -q -f p.units -- dab m ':define da- 20' :stats
  \t* 0.7 (esc)
  \t/ 1.4285714 (esc)
  settled 3 of 4, reductions 3

Edits of `da-`, which is tried before `d-` without success, and of `b`, the unit that was missing after `da-`: only the
names that looked at them are forgotten.

  $ file x.units 'm !' 'da- 10' 'd- 1|10' 'ab 7 m' 'x dab' 'y ab'
  $ session -q -f x.units -- x m y m :stats ':define da- 20' :stats x m :stats \
  >   ':define b 3 m' :stats x m :stats ':drop b' :stats x m :stats
  \t* 0.7 (esc)
  \t/ 1.4285714 (esc)
  \t* 7 (esc)
  \t/ 0.14285714 (esc)
  settled 5 of 6, reductions 5
  settled 4 of 6, reductions 5
  \t* 0.7 (esc)
  \t/ 1.4285714 (esc)
  settled 5 of 6, reductions 6
  settled 4 of 7, reductions 6
  \t* 60 (esc)
  \t/ 0.016666667 (esc)
  settled 7 of 7, reductions 9
  settled 5 of 6, reductions 9
  \t* 0.7 (esc)
  \t/ 1.4285714 (esc)
  settled 6 of 6, reductions 10

One edit makes a cycle, and another one breaks it.

  $ file pq.units 'm !' 'p q' 'q 4 m'
  $ session -q -f pq.units -- p m :stats ':define q p' :stats p q :stats ':drop q' p m :stats
  \t* 4 (esc)
  \t/ 0.25 (esc)
  settled 3 of 3, reductions 3
  settled 1 of 3, reductions 3
  cycle: p -> q -> p
  cycle: q -> p -> q
  settled 1 of 3, reductions 3
  \t* 4 (esc)
  \t/ 0.25 (esc)
  settled 3 of 3, reductions 5

Locales and variables.

  $ session -q -l en_US -- quart liter ':locale en_GB' quart liter
  \t* 0.94635295 (esc)
  \t/ 1.0566882 (esc)
  \t* 1.1365225 (esc)
  \t/ 0.87987699 (esc)
  $ file walk.units 'm !' '!set UNITS_SIZE big' '!var UNITS_SIZE big' 'step 10 m' '!endvar' \
  >   '!varnot UNITS_SIZE big' 'step 1 m' '!endvar' 'walk 3 step'
  $ session -q -f walk.units -- walk m ':set UNITS_SIZE small' walk m
  \t* 30 (esc)
  \t/ 0.033333333 (esc)
  \t* 3 (esc)
  \t/ 0.33333333 (esc)

A variable opens a block, in which one name is redefined and another one is defined for the first time, and closes it
again. A value that no block asks for changes nothing.

  $ file block.units 'm !' 'a 2 m' '!var V x' 'a 3 m' 'n 5 m' '!endvar' 'b a' 'c 7 m' 'e n'
  $ session -q -f block.units -- e b m c m :stats ':set V x' :stats b m e m :stats ':set V y' :stats b m :stats \
  >   ':set V z' :stats e
  unknown unit: n in e
  \t* 2 (esc)
  \t/ 0.5 (esc)
  \t* 7 (esc)
  \t/ 0.14285714 (esc)
  settled 4 of 5, reductions 4
  settled 2 of 6, reductions 4
  \t* 3 (esc)
  \t/ 0.33333333 (esc)
  \t* 5 (esc)
  \t/ 0.2 (esc)
  settled 6 of 6, reductions 8
  settled 2 of 5, reductions 8
  \t* 2 (esc)
  \t/ 0.5 (esc)
  settled 4 of 5, reductions 10
  settled 4 of 5, reductions 10
  unknown unit: n in e

The banner, the messages and the prompts.

  $ file one.units 'm !'
  $ units -f one.units < /dev/null
  1 units, 0 prefixes, 0 nonlinear units
  You have:  (no-eol)
  $ units -q -f one.units < /dev/null
  $ file hello.units '!message hello' 'm !'
  $ units -f hello.units < /dev/null
  hello
  1 units, 0 prefixes, 0 nonlinear units
  You have:  (no-eol)
  $ printf '2 m\nm\nquit\nm\n' | units -f one.units
  1 units, 0 prefixes, 0 nonlinear units
  You have: You want: \t* 2 (esc)
  \t/ 0.5 (esc)
  You have:  (no-eol)

Messages in force, one without text and one with blanks, are printed only at the start, and not at all with `-q`.

  $ file messages.units '!locale en_GB' '!message cheerio' '!endlocale' '!message' '!message  a  b ' 'm !'
  $ printf ':load messages.units\n:locale en_GB\n' | apart units -f messages.units
  
  a  b
  1 units, 0 prefixes, 0 nonlinear units
  You have: You have: You have:  (no-eol)
  $ units -l en_GB -f messages.units < /dev/null
  cheerio
  
  a  b
  1 units, 0 prefixes, 0 nonlinear units
  You have:  (no-eol)
  $ units -q -l en_GB -f messages.units < /dev/null

A pending FROM is evaluated again for the reply.

  $ session -q -- '1 ft' ':define ft 2 m' m
  \t* 2 (esc)
  \t/ 0.5 (esc)
  $ session -q -- '1 ft' ':drop in' m '1 ft'
  unknown unit: in in ft
  unknown unit: in in ft
  $ session -q -- ':drop ft()' ':drop m-' '1 ms' s
  no such definition: ft()
  unknown unit: ms

It stays pending after each command, accepted or refused, after a line that is too long, and after `?`, even if that
reports a fault of FROM.

  $ session -q -- '1 ft' 'search no such name' ':define foo2 m' ':define w 1 m' ':drop zz' ':drop w' ':set V x' \
  >   ':set V' ':locale en_US' ':load gone.units' ':load one.units' :stats :nosuch \
  >   "$(printf '%65537s' | tr ' ' x)" '? # which' in
  no matching names
  bad name: foo2
  no such definition: zz
  bad command: :set
  no file: gone.units
  settled 3 of 65, reductions 3
  unknown command: :nosuch
  line too long
  \tfeet\tft (esc)
  \tfoot\tft (esc)
  \tft\t12 in (esc)
  \tin\t254|10000 m (esc)
  \tinch\tin (esc)
  \tm\t! (esc)
  \tmeter\tm (esc)
  \tmile\t5280 ft (esc)
  \tyard\tyd (esc)
  \tyd\t3 ft (esc)
  \t* 12 (esc)
  \t/ 0.083333333 (esc)
  $ printf '1 ft\n:drop in\n?\n\nm\nquit\ns\n' | apart units
  43 units, 18 prefixes, 4 nonlinear units
  You have: You want: You want: unknown unit: in in ft
  You want: unknown unit: in in ft
  You have: You want:  (no-eol)

A faulty FROM is reported at once, and is not pending.

  $ session -q -- '2 +' nosuch 'sin(1)' '2 m + 3 s' '' m s
  syntax error at 3
  unknown unit: nosuch
  refused function: sin
  sum of unlike units: 2 m and 3 s
  conformability error
  \t1 m (esc)
  \t1 s (esc)

A search, and the units that conform to FROM.

  $ file mil.units 'm !' 's !' 'min 60 s' 'mil 5 m' 'milli- 1|1000'
  $ session -q -f mil.units -- 'search mil' '2 s' '?' ''
  \tmil\t5 m (esc)
  \tmilli-\t1|1000 (esc)
  \tmin\t60 s (esc)
  \ts\t! (esc)
  \tDefinition: 2 s (esc)

Notices are on standard error, refusals on standard output.

  $ file f.units 'm !' 'foo2 m' 'ok m'
  $ session -q -f f.units -- ':define foo2 m' ok m
  bad name: foo2
  \t* 1 (esc)
  \t/ 1 (esc)
  err: f.units:2: bad name: foo2
  $ session -q -- ':drop zz' :nosuch ':define x' :drop ':load gone.units' quit m
  no such definition: zz
  unknown command: :nosuch
  bad definition
  bad command: :drop
  no file: gone.units

Commands with too few or too many words, and words that are no commands.

  $ session -q -- :define :drop ':drop 1' ':drop # ft' :set ':set V' :locale :load ':stats 1' ':stats # all' \
  >   : ':nosuch x' ':definex y' ': define y m' search 'search # x' searching 'quit now' 'exits'
  bad command: :define
  bad command: :drop
  bad command: :drop
  bad command: :drop
  bad command: :set
  bad command: :set
  bad command: :locale
  bad command: :load
  bad command: :stats
  settled 0 of 65, reductions 0
  unknown command: :
  unknown command: :nosuch
  unknown command: :definex
  unknown command: :
  unknown unit: search
  unknown unit: search
  unknown unit: searching
  unknown unit: quit
  unknown unit: exits

Each kind of definition is dropped by its own kind of key. No block names the locale `nowhere`.

  $ session -q -- ':drop hms' ':drop !unitlist  hms' ':drop !unitlist hms' '1.5 hr' hms \
  >   ':drop tempcelsius()' '300 K' tempcelsius ':drop milli-' '1 ms' ':drop m-' '1 ms' \
  >   ':drop tempF' ':drop zincgauge()' ':drop zincgauge()' '1 in' zincgauge \
  >   ':locale nowhere' '1 quart' ':locale en_US' '1 quart' pint
  no such definition: hms
  bad command: :drop
  unknown unit: hms
  unknown unit: tempcelsius
  unknown unit: milli in m-
  unknown unit: ms
  no such definition: tempF
  no such definition: zincgauge()
  unknown unit: zincgauge
  unknown unit: gallon in quart
  \t* 2 (esc)
  \t/ 0.5 (esc)

The reasons to refuse a definition.

  $ nested() { printf "%$1s" | tr ' ' '('; printf 1; printf "%$1s" | tr ' ' ')'; }
  $ session -q -- ':define 1a m' ':define a' ':define a 2 *' ':define a 1e10000' ":define a $(nested 65)" \
  >   ':define t[m] 1 2' ':define !set V x' ':define !endlocale' ':define !unitlist' ':define !unitlist z m;;s' \
  >   ':define +!unitlist z m;s' ':define f() g ()' ':define +  ok 2 m' ok m
  bad name: 1a
  bad definition
  syntax error at 3
  numeral too long
  nested too deep
  bad table
  bad definition
  bad definition
  bad definition
  syntax error at 0
  bad name: !unitlist
  bad name: g  (re)
  \t* 2 (esc)
  \t/ 0.5 (esc)

A file with notices is loaded, and one that is too long is refused. A file that cannot be read ends the session.

  $ truncate --size 16777217 past.units
  $ file more.units 'm !' '!endvar' '!include gone.units' 'foo2 m' 'more 7 m' '!utf8'
  $ session -q -- ':load more.units' more m ':load past.units' ':load gone.units' more m
  \t* 7 (esc)
  \t/ 0.14285714 (esc)
  file too long: past.units
  no file: gone.units
  \t* 7 (esc)
  \t/ 0.14285714 (esc)
  err: more.units:2: stray end
  err: more.units:3: no file: gone.units
  err: more.units:4: bad name: foo2
  err: more.units:6: unclosed block
  $ session -q -- '1 m' ':load .' m
  [4]
  $ apart units -q < .
  [4]

Notices come first: those of the definition file before the banner, those of a loaded file before the next prompt.

  $ file faulty.units 'm !' 'foo2 m' 'ok m'
  $ printf ':load faulty.units\nok\nm\n' | units -f faulty.units 2>&1
  faulty.units:2: bad name: foo2
  2 units, 0 prefixes, 0 nonlinear units
  You have: faulty.units:2: bad name: foo2
  You have: You want: \t* 1 (esc)
  \t/ 1 (esc)
  You have:  (no-eol)
  $ units -f faulty.units ok m 2>&1
  faulty.units:2: bad name: foo2
  \t* 1 (esc)
  \t/ 1 (esc)

A session ends at `quit`, at `exit` or at the end of the input, with or without a last line feed. A carriage return at
the end of a line, comments and outer blanks are dropped. Another carriage return and a NUL byte cannot be part of an
expression. Input that comes byte by byte has the same answers.

  $ session -q -- '1 ft' in ' quit # now' '1 ft' in
  \t* 12 (esc)
  \t/ 0.083333333 (esc)
  $ session -q -- exit m ''
  $ session -q -- '1 ft' exit m
  $ printf '1 ft\r\n\t in # of it\r\nexit\r\nm\r\n\r\n' | apart units -q
  \t* 12 (esc)
  \t/ 0.083333333 (esc)
  $ printf '1 ft\nin' | apart units -q
  \t* 12 (esc)
  \t/ 0.083333333 (esc)
  $ slowly() { for byte in "$@"; do printf "$byte"; sleep 0.02; done; }
  $ slowly 1 ' ' f t '\n' i n '\n' '#' '\n' ' ' '\n' m '\r' '\n' f t | apart units -q
  \t* 12 (esc)
  \t/ 0.083333333 (esc)
  \t* 3.2808399 (esc)
  \t/ 0.3048 (esc)
  $ printf '1 ft\r\r\n1 \rft\n1 ft\0\nm\0m\n\0\n' | apart units -q
  syntax error at 4
  syntax error at 2
  syntax error at 4
  syntax error at 1
  syntax error at 0

Undo and redo of a definition, also with nothing left to undo or redo.

  $ session -q -f chain.units -- ':define a 7 m' b m :undo b m :redo b m :redo
  \t* 21 (esc)
  \t/ 0.047619048 (esc)
  \t* 6 (esc)
  \t/ 0.16666667 (esc)
  \t* 21 (esc)
  \t/ 0.047619048 (esc)
  nothing to redo
  $ session -q -f chain.units -- b m c m ':define a 7 m' :undo :stats ':drop zz' :undo
  \t* 6 (esc)
  \t/ 0.16666667 (esc)
  \t* 5 (esc)
  \t/ 0.2 (esc)
  settled 2 of 4, reductions 4
  no such definition: zz
  nothing to undo

Each kind of edit is undone, including a load with an open block. A new edit discards what could be redone.

  $ file unclosed.units '!locale en_US' 'g 3 m'
  $ session -q -f chain.units -- ':load unclosed.units' ':drop a' ':locale en_GB' ':set x y' ':define a 9 m' \
  >   :undo :undo :undo g m :undo a m :undo g :undo :redo g m ':define a 4 m' :redo
  \t* 3 (esc)
  \t/ 0.33333333 (esc)
  \t* 2 (esc)
  \t/ 0.5 (esc)
  unknown unit: g
  nothing to undo
  \t* 3 (esc)
  \t/ 0.33333333 (esc)
  nothing to redo
  err: unclosed.units:1: unclosed block
  $ session -q -f walk.units -- ':set UNITS_SIZE small' walk m :undo walk m :redo walk m
  \t* 3 (esc)
  \t/ 0.33333333 (esc)
  \t* 30 (esc)
  \t/ 0.033333333 (esc)
  \t* 3 (esc)
  \t/ 0.33333333 (esc)
  $ session -q -l en_US -- ':locale en_GB' quart liter :undo quart liter :redo quart liter
  \t* 1.1365225 (esc)
  \t/ 0.87987699 (esc)
  \t* 0.94635295 (esc)
  \t/ 1.0566882 (esc)
  \t* 1.1365225 (esc)
  \t/ 0.87987699 (esc)

If a variable is set twice, undo restores its first value and then none, and redo sets it again, with another variable
set in between. The same is true of a locale that is switched to and fro.

  $ file sized.units 'm !' 'step 5 m' '!var SIZE big' 'step 10 m' '!endvar' '!var SIZE small' 'step 2 m' '!endvar'
  $ session -q -f sized.units -- ':set SIZE big' ':set OTHER x' ':set SIZE small' step m :undo step m :undo :undo step m \
  >   :redo step m :redo :redo step m :redo
  \t* 2 (esc)
  \t/ 0.5 (esc)
  \t* 10 (esc)
  \t/ 0.1 (esc)
  \t* 5 (esc)
  \t/ 0.2 (esc)
  \t* 10 (esc)
  \t/ 0.1 (esc)
  \t* 2 (esc)
  \t/ 0.5 (esc)
  nothing to redo
  $ file places.units 'm !' '!locale en_GB' 'a 2 m' '!endlocale' '!locale en_US' 'a 5 m' '!endlocale'
  $ session -q -l en_US -f places.units -- ':locale en_GB' ':set SIZE x' ':locale en_US' a m :undo a m :undo a m \
  >   :undo a m :redo a m :redo :redo a m :redo
  \t* 5 (esc)
  \t/ 0.2 (esc)
  \t* 2 (esc)
  \t/ 0.5 (esc)
  \t* 2 (esc)
  \t/ 0.5 (esc)
  \t* 5 (esc)
  \t/ 0.2 (esc)
  \t* 2 (esc)
  \t/ 0.5 (esc)
  \t* 5 (esc)
  \t/ 0.2 (esc)
  nothing to redo

A dropped line comes back at its old place. A load is undone and redone with the lines that close its blocks, and with a
definition made after it.

  $ file twice.units 'm !' 'a 2 m' 'b a'
  $ session -q -f twice.units -- ':drop a' :undo ':save order.units' && cmp twice.units order.units
  $ session -q -f twice.units -- ':define a 7 m' ':load unclosed.units' ':define h 2 g' :undo h :undo :undo b m \
  >   :redo :redo :redo ':locale en_GB' h ':locale en_US' h m
  unknown unit: h
  \t* 2 (esc)
  \t/ 0.5 (esc)
  unknown unit: g in h
  \t* 6 (esc)
  \t/ 0.16666667 (esc)
  err: unclosed.units:1: unclosed block

An edit that changes no key can be undone, and forgets no value. A refused edit cannot be undone, and what was undone
can still be redone.

  $ session -q -f chain.units -- b m ':define a 2 m' ':set x y' ':define a 7 m' :undo :undo :stats :undo :undo :stats
  \t* 6 (esc)
  \t/ 0.16666667 (esc)
  settled 1 of 4, reductions 3
  nothing to undo
  settled 1 of 4, reductions 3
  $ session -q -f chain.units -- ':define a 7 m' ':define b 4 a' :undo ':define foo2 m' ':drop zz' ':load gone.units' \
  >   b m :redo b m :undo :undo :undo b m
  bad name: foo2
  no such definition: zz
  no file: gone.units
  \t* 21 (esc)
  \t/ 0.047619048 (esc)
  \t* 28 (esc)
  \t/ 0.035714286 (esc)
  nothing to undo
  \t* 6 (esc)
  \t/ 0.16666667 (esc)

A FROM stays pending after an undo, a redo and a save, and is evaluated again.

  $ session -q -f chain.units -- '1 a' ':define a 7 m' :undo m
  \t* 2 (esc)
  \t/ 0.5 (esc)
  $ session -q -f chain.units -- '1 a' ':define a 7 m' :undo :redo ':save pending.units' :redo m
  nothing to redo
  \t* 7 (esc)
  \t/ 0.14285714 (esc)
  $ session -q -- ':undo x' ':redo x' :save ':undo # x' ':redo # x' ':save # x'
  bad command: :undo
  bad command: :redo
  bad command: :save
  nothing to undo
  nothing to redo
  bad command: :save

Saved decks: the definitions in force, and a text that ends in a backslash. A load reads what was saved.

  $ file local.units 'm !' '!locale en_US' 'g 3 m' '!endlocale'
  $ session -q -f local.units -- ':define h 2 g' ':save s.units'
  $ cat s.units
  m !
  g 3 m
  h 2 g
  $ units -l en_GB -f s.units h m
  \t* 6 (esc)
  \t/ 0.16666667 (esc)
  $ file slash.units 'm !' '\ 3 m' 'x \\' ''
  $ session -q -f slash.units -- x m ':save t.units' && cmp slash.units t.units
  \t* 3 (esc)
  \t/ 0.33333333 (esc)
  $ session -q -f chain.units -- ':define a 9 m' ':save u.units' :undo ':load u.units' a m
  \t* 9 (esc)
  \t/ 0.11111111 (esc)

A save within the block of a locale that the file did not close, with that locale in force and without it.

  $ session -q -f twice.units -- ':load unclosed.units' ':define h 2 g' ':save us.units' ':locale en_GB' ':save gb.units'
  err: unclosed.units:1: unclosed block
  $ cat us.units
  m !
  a 2 m
  b a
  g 3 m
  h 2 g
  $ cat gb.units
  m !
  a 2 m
  b a
  h 2 g

The built-in definitions are saved and loaded again: there is no notice, and the counts and the saved text are the same.

  $ session -q -- ':save all.units'
  $ session -q -f all.units -- ':save again.units' && cmp all.units again.units
  $ units -l en_GB -f all.units < /dev/null
  43 units, 18 prefixes, 4 nonlinear units
  You have:  (no-eol)

A saved text of the greatest length of a file, and one that is longer by a byte.

  $ longest() { printf 'm !\nx %*sm%b' "$1" '' "$2"; }
  $ longest 16777208 '\n' > longest.units
  $ longest 16777209 '' > unended.units
  $ stat -c %s longest.units unended.units
  16777216
  16777216
  $ session -q -f longest.units -- ':save saved.units' x m && cmp longest.units saved.units
  \t* 1 (esc)
  \t/ 1 (esc)
  $ session -q -f unended.units -- ':save too.units' x m && cat too.units
  file too long: too.units
  \t* 1 (esc)
  \t/ 1 (esc)
  cat: too.units: No such file or directory
  [1]

Watched conversions: each reply, after its number, at first and whenever an edit changes it. An edit that changes none
prints nothing.

  $ session -q -f chain.units -- ':watch b ; m' ':watch c ; m' ':define a 7 m' ':define a 7 m'
  watch 1
  \t* 6 (esc)
  \t/ 0.16666667 (esc)
  watch 2
  \t* 5 (esc)
  \t/ 0.2 (esc)
  watch 1
  \t* 21 (esc)
  \t/ 0.047619048 (esc)
  $ session -q -f chain.units -- ':watch b ; m' ':watch c ; m' ':define a 7 m' ':define a 7 m' ':drop m' :unwatch :undo
  watch 1
  \t* 6 (esc)
  \t/ 0.16666667 (esc)
  watch 2
  \t* 5 (esc)
  \t/ 0.2 (esc)
  watch 1
  \t* 21 (esc)
  \t/ 0.047619048 (esc)
  watch 1
  unknown unit: m in a
  watch 2
  unknown unit: m in c

Each kind of edit reports the replies that it changes. A refused edit reports only its refusal.

  $ session -q -f walk.units -- ':watch walk ; m' ':set UNITS_SIZE small' :undo :redo ':set UNITS_SIZE tiny' ':drop walk' \
  >   ':drop walk' :undo
  watch 1
  \t* 30 (esc)
  \t/ 0.033333333 (esc)
  watch 1
  \t* 3 (esc)
  \t/ 0.33333333 (esc)
  watch 1
  \t* 30 (esc)
  \t/ 0.033333333 (esc)
  watch 1
  \t* 3 (esc)
  \t/ 0.33333333 (esc)
  watch 1
  unknown unit: walk
  no such definition: walk
  watch 1
  \t* 3 (esc)
  \t/ 0.33333333 (esc)
  $ session -q -l en_US -- ':watch quart ; liter' ':locale en_GB' ':define foo2 m' ':load gone.units'
  watch 1
  \t* 0.94635295 (esc)
  \t/ 1.0566882 (esc)
  watch 1
  \t* 1.1365225 (esc)
  \t/ 0.87987699 (esc)
  bad name: foo2
  no file: gone.units
  $ session -q -f chain.units -- ':watch nosuch ; m' ':watch g ; m' ':load unclosed.units' ':define nosuch 2 g'
  watch 1
  unknown unit: nosuch
  watch 2
  unknown unit: g
  watch 2
  \t* 3 (esc)
  \t/ 0.33333333 (esc)
  watch 1
  \t* 6 (esc)
  \t/ 0.16666667 (esc)
  err: unclosed.units:1: unclosed block

Watched conversions are evaluated again after each edit, and `:stats` counts this. A pending FROM stays pending.

  $ session -q -f chain.units -- ':watch b ; m' :stats '1 c' ':define a 7 m' :unwatch ':define a 8 m' m :stats
  watch 1
  \t* 6 (esc)
  \t/ 0.16666667 (esc)
  settled 3 of 4, reductions 3
  watch 1
  \t* 21 (esc)
  \t/ 0.047619048 (esc)
  \t* 5 (esc)
  \t/ 0.2 (esc)
  settled 2 of 4, reductions 6

The first semicolon separates FROM from TO. Neither may be blank, and TO may not be `?`. There are at most 1,000
watches.

  $ session -q -f chain.units -- :watch ':watch b' ':watch ; m' ':watch b ;' ':watch b ; ?' ':watch b ; # m' ':unwatch b' \
  >   ':watch b;c;m # sum'
  bad command: :watch
  bad command: :watch
  bad command: :watch
  bad command: :watch
  bad command: :watch
  bad command: :watch
  bad command: :unwatch
  watch 1
  \t1 c + 1 m (esc)
  $ { seq 1001 | sed 's/.*/:watch b ; m/'; echo ':define a 7 m'; echo :unwatch; echo ':watch a ; m'; } > many
  $ apart units -q -f chain.units < many > said; grep -c '^watch' said; sed -n '2998,3004p;5999,$p' said
  2001
  watch 1000
  \t* 6 (esc)
  \t/ 0.16666667 (esc)
  too many watches
  watch 1
  \t* 21 (esc)
  \t/ 0.047619048 (esc)
  watch 1000
  \t* 21 (esc)
  \t/ 0.047619048 (esc)
  watch 1
  \t* 7 (esc)
  \t/ 0.14285714 (esc)

A file that cannot be written ends a session.

  $ mkdir folder
  $ session -q -f local.units -- ':define h 2 g' ':save folder' h m
  [5]
  $ session -q -f chain.units -- a m ':save none/x.units' m
  \t* 2 (esc)
  \t/ 0.5 (esc)
  [5]

A chain of 20,000 names, with an edit near its end.

  $ { echo 'u_0 !'; for i in $(seq 20000); do echo "u_$i u_$((i - 1))"; done; } > long.units
  $ session -q -f long.units -- u_20000 u_0 :stats ':define u_1 2 u_0' :stats u_20000 u_0 :stats
  \t* 1 (esc)
  \t/ 1 (esc)
  settled 20001 of 20001, reductions 20001
  settled 1 of 20001, reductions 20001
  \t* 2 (esc)
  \t/ 0.5 (esc)
  settled 20001 of 20001, reductions 40001

A ring of as many names, which one edit breaks and another one closes again.

  $ sed 's/^u_0 !$/u_0 u_20000/' long.units > ring.units
  $ session -q -f ring.units -- u_20000 :stats ':define u_0 !' u_20000 u_0 :stats ':drop u_0' :stats u_0 > ring
  $ cut -c 1-50 ring
  cycle: u_20000 -> u_19999 -> u_19998 -> u_19997 ->
  settled 0 of 20001, reductions 0
  \t* 1 (esc)
  \t/ 1 (esc)
  settled 20001 of 20001, reductions 20001
  settled 0 of 20001, reductions 20001
  cycle: u_0 -> u_20000 -> u_19999 -> u_19998 -> u_1
  $ grep cycle ring | tr -cd '>\n' | awk '{ print length }'
  20001
  20001

A chain of 60,000 names. The last one is converted after each of 30,000 edits of a name outside the chain.

  $ { echo 'u_0 !'; seq 60000 | awk '{ print "u_" $1, "u_" $1 - 1 }'; } > longer.units
  $ rounds() { seq 30000 | sed 's/.*/:define w & u_0\nu_60000\nu_0/'; echo :stats; }
  $ rounds | apart units -q -f longer.units | sort | uniq -c
    30000 \t* 1 (esc)
    30000 \t/ 1 (esc)
        1 settled 60001 of 60002, reductions 60001

A full deck, a line that is too long, and a table that is too long.

  $ yes 'm !' | head -n 100000 > full.units
  $ letters=$(printf '%65537s' | tr ' ' x)
  $ session -q -f full.units -- ':define x m' "$letters" x
  deck full
  line too long
  unknown unit: x
  $ session -q -- ":define t[m] $(seq 1001 | sed 's/.*/& &/' | tr '\n' ' ')"
  bad table

  $ session -q -f full.units -- ':load one.units' ':define m !' :stats
  deck full
  deck full
  settled 0 of 1, reductions 0

Lines of 65,536 bytes, the most that are allowed, and longer ones. Because of the blank lines before them, they begin
and end before, at and after the bounds of the blocks in which input is read. Comments, blanks and carriage returns
count too.

  $ bytes() { head -c $1 /dev/zero | tr '\0' "$2"; }
  $ for before in 0 1 2 65534 65535 65536 65537 131071; do
  >   for length in 65535 65536 65537 65538 131071 131072 200000; do
  >     { bytes $before '\n'; bytes $length x; printf '\n1 ft\nin\n'; bytes $length x; } | apart units -q > said
  >     case $length in 65535 | 65536) wanted='syntax error at 0' ;; *) wanted='line too long' ;; esac
  >     printf '%s\n\t* 12\n\t/ 0.083333333\n%s\n' "$wanted" "$wanted" | cmp - said || echo "$length behind $before"
  >   done
  > done
  $ { bytes 65536 ' '; printf '\n'; bytes 65537 ' '; printf '\n1 ft#'; bytes 65531 x; printf '\nin#'; bytes 65534 x;
  >   echo; bytes 65533 ' '; printf 'in\r\n'; bytes 65534 ' '; printf 'in\r\n'; } | apart units -q
  line too long
  line too long
  \t* 12 (esc)
  \t/ 0.083333333 (esc)
  line too long

Replies that together exceed the limit of unwritten output, with short ones between and after them in the same block of
input, and a last line without a line feed.

  $ { echo 'm !'; for i in $(seq 4000); do echo "u_$i $i m"; done; } > long.units
  $ session -q -f long.units -- 'search u_' > one
  $ wc -c < one
  57786
  $ { printf 'search u_\nsearch u_\n2 m\nu_4\n'; for i in 1 2 3; do printf 'search u_\n'; done; printf '3 m\nu_6'; } \
  >   | apart units -q -f long.units > said
  $ { cat one one; printf '\t* 0.5\n\t/ 2\n'; cat one one one; printf '\t* 0.5\n\t/ 2\n'; } | cmp - said
  $ session -q -f long.units -- 'search u_' 'search u_' quit 'search u_' > said
  $ cat one one | cmp - said

Trials.

  $ units --trial 3
  definitions 4, edits 3, reply bytes 43, settled 3 of 4, reductions 4
  $ units --trial 20000 | tee first
  definitions 20001, edits 20000, reply bytes 522881, settled 2 of 20001, reductions 43997
  $ units --trial 20000 | cmp - first
  $ units --exact --trial 3 < .
  definitions 4, edits 3, reply bytes 36, settled 3 of 4, reductions 4
