Histories, as `test_calls history` answers calls. The first call, `load FILE`, makes a table of the deck of a file.
`value EXPRESSION` prints an exact value, and `lines` prints the lines of the deck, each with a `;` after it.
`define LINE`, `drop KEY`, `switch LOCALE` and `append FILE` are edits, which `undo` and `redo` undo and redo.

`undo` restores the state before an edit, and `redo` the state after it.

  $ cat > small.units <<'END'
  > m !
  > a 2 m
  > b 3 a
  > c 5 m
  > END
  $ test_calls history <<'END'
  > load small.units
  > value b
  > define a 7 m
  > value b
  > undo
  > value b
  > redo
  > value b
  > redo
  > undo
  > undo
  > lines
  > END
  ok
  6 m
  ok
  21 m
  ok
  6 m
  ok
  21 m
  nothing to redo
  ok
  nothing to undo
  m !;a 2 m;b 3 a;c 5 m;

A refused edit cannot be undone, and after a new edit nothing can be redone.

  $ test_calls history <<'END'
  > load small.units
  > define d 2 a
  > undo
  > drop zz
  > define 1 2
  > append nosuch
  > redo
  > value d
  > undo
  > define e 3 a
  > redo
  > undo
  > undo
  > lines
  > END
  ok
  ok
  ok
  refused
  refused
  refused
  ok
  4 m
  ok
  ok
  nothing to redo
  ok
  nothing to undo
  m !;a 2 m;b 3 a;c 5 m;

A dropped line comes back at its place, with its number and its mark, and covers the earlier line again.

  $ cat > covered.units <<'END'
  > m !
  > a 2 m
  > a 3 m
  > b 5 a
  > END
  $ test_calls history <<'END'
  > load covered.units
  > value b
  > drop a
  > lines
  > value b
  > drop a
  > value b
  > undo
  > lines
  > value b
  > undo
  > lines
  > value b
  > redo
  > redo
  > lines
  > undo
  > undo
  > lines
  > END
  ok
  15 m
  ok
  m !;a 2 m;b 5 a;
  10 m
  ok
  no value
  ok
  m !;a 2 m;b 5 a;
  10 m
  ok
  m !;a 2 m;a 3 m;b 5 a;
  15 m
  ok
  ok
  m !;b 5 a;
  ok
  ok
  m !;a 2 m;a 3 m;b 5 a;

A new definition covers the earlier line, and an undo uncovers it, at any depth. A definition with the same text is an
edit too.

  $ test_calls history <<'END'
  > load covered.units
  > define a 7 m
  > define a 7 m
  > define c 2 a
  > define a 11 m
  > value c
  > undo
  > value c
  > undo
  > undo
  > value b
  > undo
  > value b
  > undo
  > redo
  > redo
  > redo
  > value c
  > redo
  > value c
  > redo
  > END
  ok
  ok
  ok
  ok
  ok
  22 m
  ok
  14 m
  ok
  ok
  35 m
  ok
  15 m
  nothing to undo
  ok
  ok
  ok
  14 m
  ok
  22 m
  nothing to redo

Switches of the locale and appended files, one after another. The lines that close an open block of a file are appended
too.

  $ cat > local.units <<'END'
  > m !
  > !locale en_GB
  > a 2 m
  > !endlocale
  > !locale en_US
  > a 3 m
  > !endlocale
  > END
  $ cat > open.units <<'END'
  > !locale en_GB
  > a 5 m
  > END
  $ test_calls history <<'END'
  > load local.units
  > value a
  > switch en_GB
  > value a
  > append open.units
  > lines
  > value a
  > define b 2 a
  > drop a
  > value a
  > undo
  > value b
  > undo
  > undo
  > lines
  > value a
  > undo
  > value a
  > redo
  > value a
  > redo
  > redo
  > redo
  > lines
  > value b
  > redo
  > END
  ok
  3 m
  ok
  2 m
  ok
  m !;!locale en_GB;a 2 m;!endlocale;!locale en_US;a 3 m;!endlocale;!locale en_GB;a 5 m;!endlocale;
  5 m
  ok
  ok
  2 m
  ok
  10 m
  ok
  ok
  m !;!locale en_GB;a 2 m;!endlocale;!locale en_US;a 3 m;!endlocale;
  2 m
  ok
  3 m
  ok
  2 m
  ok
  ok
  ok
  m !;!locale en_GB;a 2 m;!endlocale;!locale en_US;a 3 m;!endlocale;!locale en_GB;!endlocale;b 2 a;
  4 m
  nothing to redo
