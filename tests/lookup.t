The definitions that a word finds in tables of a few keys, and the keys that are looked up on the way, absent ones too.
A prefix is written with a `-`, a function with `()`. The answers are found by hand.

  $ found() { while IFS= read -r call; do printf '%s => ' "$call"; echo "find $call" | test_calls texts; done; }

A word alone is first looked up as a unit, then as a function; a word before an operand first as a function, then as a
unit; and a word after a `~` only as a function.

  $ found <<'END'
  > plain f f;f()
  > call f f;f()
  > inverse f f;f()
  > plain f f()
  > call f f
  > plain z !unitlist z
  > plain q
  > END
  plain f f;f() => found f; looked at f
  call f f;f() => found f(); looked at f()
  inverse f f;f() => found f(); looked at f()
  plain f f() => found f(); looked at f f()
  call f f => found f; looked at f() f
  plain z !unitlist z => found; looked at z z() z-
  plain q => found; looked at q q() q-

A word is tried whole, then as a prefix, the longest first, with the rest of the word as a unit.

  $ found <<'END'
  > plain km km;k-;m
  > plain km k-;m
  > call km k-;m
  > inverse km k-;m
  > plain ms m-;s;m
  > plain milli milli-
  > plain dab da-;d-;ab
  > plain dab da-;d-;ab;b
  > END
  plain km km;k-;m => found km; looked at km
  plain km k-;m => found k- m; looked at km km() km- k- m
  call km k-;m => found k- m; looked at km() km km- k- m
  inverse km k-;m => found; looked at km()
  plain ms m-;s;m => found m- s; looked at ms ms() ms- m- s
  plain milli milli- => found milli-; looked at milli milli() milli-
  plain dab da-;d-;ab => found d- ab; looked at dab dab() dab- da- b d- ab
  plain dab da-;d-;ab;b => found da- b; looked at dab dab() dab- da- b

The plural of a unit ends in `s` or `es`, or in `ies` instead of `y`, if the word is long enough. It may follow a
prefix.

  $ found <<'END'
  > plain berries berry
  > plain fts ft
  > plain as a
  > plain abs ab
  > plain inches inch
  > plain aes a
  > plain abes ab
  > plain ies y
  > plain aies ay
  > plain abies aby
  > plain kms k-;m
  > plain kms k-;ms;m
  > END
  plain berries berry => found berry; looked at berries berries() berrie berrie- berri- berr- ber- be- b- berri berri- berr- ber- be- b- berry
  plain fts ft => found ft; looked at fts fts() ft
  plain as a => found; looked at as as() as- a-
  plain abs ab => found ab; looked at abs abs() ab
  plain inches inch => found inch; looked at inches inches() inche inche- inch- inc- in- i- inch
  plain aes a => found; looked at aes aes() ae ae- a- aes- ae- a-
  plain abes ab => found ab; looked at abes abes() abe abe- ab- a- ab
  plain ies y => found; looked at ies ies() ie ie- i- ies- ie- i-
  plain aies ay => found; looked at aies aies() aie aie- ai- a- ai ai- a- aies- aie- ai- a-
  plain abies aby => found aby; looked at abies abies() abie abie- abi- ab- a- abi abi- ab- a- aby
  plain kms k-;m => found k- m; looked at kms kms() km km- k- m
  plain kms k-;ms;m => found k- m; looked at kms kms() km km- k- m

Each prefix of a long word is looked up once.

  $ { printf 'find plain '; yes a | head -n 255 | tr -d '\n'; echo ' m'; } | test_calls texts | wc -w
  260
