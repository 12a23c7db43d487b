Which command lines are accepted, and with which status. `err: ` marks lines of standard error.

  $ apart() { "$@" 2> err; status=$?; sed 's/^/err: /' err; return $status; }

Refused command lines.

  $ apart units -d 0 m ft
  err: units: usage: units [options] [FROM [TO]]
  [2]
  $ apart units -q -q m ft
  err: units: usage: units [options] [FROM [TO]]
  [2]
  $ apart units yd m ft
  err: units: usage: units [options] [FROM [TO]]
  [2]
  $ apart units --check m
  err: units: usage: units [options] [FROM [TO]]
  [2]
  $ apart units --check ""
  err: units: usage: units [options] [FROM [TO]]
  [2]
  $ apart units --trial 3 --check
  err: units: usage: units [options] [FROM [TO]]
  [2]
  $ apart units --help
  err: units: usage: units [options] [FROM [TO]]
  [2]
  $ apart units $(printf '\377')
  err: units: usage: units [options] [FROM [TO]]
  [2]

Numbers out of range, repeated and unknown options, options without a value, and operands that begin with a sign.

  $ usage='err: units: usage: units [options] [FROM [TO]]'
  $ for words in '-d 37 m' '-d x m' '-d -1 m' '-d' '--digits 1.5 m' '--trial 0' '--trial 20001' '--trial x' '--trial' \
  >   '--exact --exact m' '-f a -f b m' '-d 3 --digits 4 m' '-l a --locale b m' '-t --terse m' '--trial 3 m' \
  >   '--trial 3 -c' \
  >   '-c -c' '-f' '-l' '-h' '--version' '-V' '-e m' '-m m' '--nosuch m' '-2 m' '--exact=1 m' '-c m ft' \
  >   '--column 0 m ft' '--column 65536 m ft' '--column x m ft' '--column -1 m ft' '--column m ft' '--column=1' \
  >   '--column 1 --column 1 m ft' '--header --header --column 1 m ft' '--header=1 --column 1 m ft'; do
  >   apart units $words > said
  >   status=$?
  >   if [ $status != 2 ] || [ "$(cat said)" != "$usage" ]; then echo "$words: $status"; cat said; fi
  > done

`--column` without a conversion: no TO, a TO that is blank or `?` apart from a comment, no FROM, or other work.
`--header` without `--column`.

  $ refused() {
  >   apart units "$@" < /dev/null > said
  >   status=$?
  >   if [ $status != 2 ] || [ "$(cat said)" != "$usage" ]; then echo "$*: $status"; cat said; fi
  > }
  $ for to in '' ' ' '# ft' " $(printf '\t')# ft" '?' ' ? ' '?# ft' "?$(printf '\r')" "$(printf '\r')"; do
  >   refused --column 1 m "$to"
  >   refused --header --column 1 m "$to"
  > done
  $ refused --column 1 m
  $ refused --column 1
  $ refused --column 1 --header
  $ refused --column 1 --check
  $ refused --column 1 --trial 3
  $ refused --column 1 --check m ft
  $ refused --column 1 --trial 3 m ft
  $ refused --header
  $ refused --header m
  $ refused --header m ft
  $ refused --header --check

Numbers with a sign and with leading zeros, an operand after `--`, options after operands, options in one word, and a
file that a trial does not read.

  $ apart units -d 08 m ft
  \t* 3.2808399 (esc)
  \t/ 0.3048 (esc)
  $ apart units -d +8 m ft
  \t* 3.2808399 (esc)
  \t/ 0.3048 (esc)
  $ apart units -d36 --exact -- m ft
  \t* 1250|381 (esc)
  \t/ 381|1250 (esc)
  $ apart units m -1s ft -d2
  \t* 3.3 (esc)
  $ apart units --trial 3 -f none.units
  definitions 4, edits 3, reply bytes 43, settled 3 of 4, reductions 4
  $ apart units --trial 007
  definitions 8, edits 7, reply bytes 127, settled 2 of 8, reductions 18

No environment variable chooses a file or a locale.

  $ apart env UNITSFILE=none.units LOCALE=en_GB LANG=en_GB units gallon liter
  \t* 3.7854118 (esc)
  \t/ 0.26417205 (esc)

Each option by its long name.

  $ apart units --digits 3 m ft
  \t* 3.28 (esc)
  \t/ 0.305 (esc)
  $ apart units --one-line "10 meters" feet
  \t* 32.808399 (esc)
  $ apart units --compact "10 meters" feet
  32.808399
  0.03048
  $ apart units --terse "10 meters" feet
  32.808399
  $ apart units --quiet "10 meters" feet
  \t* 32.808399 (esc)
  \t/ 0.03048 (esc)
  $ apart units --strict "2 Hz" s
  conformability error
  \t2 / s (esc)
  \t1 s (esc)
  [1]
  $ apart units --round "1.99 ft" "ft;in"
  \t2 ft + 0 in (esc)
  $ apart units --verbose "10 meters" feet
  \t10 meters = 32.808399 feet (esc)
  \t10 meters = (1 / 0.03048) feet (esc)
  $ printf 'm !\ntwo 2 m\nbad nosuch\n' > small.units
  $ apart units --file small.units two m
  \t* 2 (esc)
  \t/ 0.5 (esc)
  $ apart units --locale en_GB gallon liter
  \t* 4.54609 (esc)
  \t/ 0.21996925 (esc)
  $ apart units --check --file small.units
  bad: unknown unit: nosuch in bad
  [1]

A file that does not exist, and one that is too long.

  $ apart units -f none.units m ft
  err: units: no file: none.units
  [3]
  $ truncate --size 16777217 long.units
  $ apart units -f long.units m ft
  err: units: file too long: long.units
  [3]
  $ apart units -f none.units --check
  err: units: no file: none.units
  [3]
  $ apart units -q -f none.units
  err: units: no file: none.units
  [3]
