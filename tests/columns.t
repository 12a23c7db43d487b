Columns: `--column K` converts field K of each record of comma-separated input from FROM to TO, and copies the others.

The header is not converted. A field that is no number becomes an error, and a record without the field is copied.

  $ printf 'id,len\na,10\nb,x\nc\n' | units --header --column 2 feet m
  id,len
  a,3.048
  b,error: not a number
  c
  [1]

A function as FROM, and a number outside its domain. Quotes are written if they are needed.

  $ printf '212,"x,y"\n-460,z\n' | units --column 1 tempF tempC
  100,"x,y"
  error: not in domain: tempF,z
  [1]

Empty input, a header alone, and a column that no record has.

  $ printf '' | units --column 1 m ft

  $ printf 'len\n' | units --header --column 1 m ft
  len

  $ printf 'a,1\nb\n' | units --column 9 m ft
  a,1
  b

Needless quotes, carriage returns, empty lines and a byte order mark are dropped. Records have any number of fields, and
bytes need not be UTF-8.

  $ printf '"a ""b""",1\r\n,2\n\n x ,3,\n"c",4,"d\ne",""\n' | units --column 2 ft in
  "a ""b""",12
  ,24
   x ,36,
  c,48,"d
  e",
  $ printf '\357\273\2771,a\n\377\n1,\377' | units --column 1 ft in
  12,a
  error: not a number
  12,\xff (esc)
  [1]

Blanks around a number are dropped, and a minus may precede it. A fraction or a sum is no number.

  $ printf ' 7 \n-3\n1.5e1\n.5\n1|3\n1+1\n- 3\n+3\n""\n' | units --column 1 ft in
  84
  -36
  180
  6
  error: not a number
  error: not a number
  error: not a number
  error: not a number
  error: not a number
  [1]

A numeral that is too long, and a FROM that has no value, does not conform to TO, or is no expression.

  $ printf '1e99999\n1\n' | units --column 1 ft in
  error: numeral too long
  12
  [1]
  $ printf 'a,1\n' | units --column 2 nosuch in
  a,error: unknown unit: nosuch
  [1]
  $ printf 'a,1\n' | units --column 2 s in
  a,error: conformability error
  [1]
  $ printf 'a,1\nb,2\n' | units --column 2 'ft)' in
  a,error: syntax error at 8
  b,error: syntax error at 8
  [1]

Lists, and the options that have an effect: digits, exact numbers and rounding. Options of the layout have none.

  $ printf '1.4\n' | units --column 1 m 'ft;in'
  4;7.1181102
  $ printf '1.4\n' | units -r --column 1 m 'ft;in'
  4;7
  $ printf '1\n' | units -d 3 -v --column 1 ft m
  0.305
  $ printf '1\n' | units --exact --one-line --column 1 ft m
  381|1250

Notices of the definitions are on standard error.

  $ printf 'm !\n!endvar\nft 3 m\n' > notices.units
  $ printf '2\n' | units -f notices.units --column 1 ft m 2> notices
  6
  $ cat notices
  notices.units:2: stray end

Definitions and input that cannot be read, and output that cannot be written.

  $ printf '1\n' | units -f gone.units --column 1 ft m
  units: no file: gone.units
  [3]
  $ units --column 1 ft m < .
  [4]
  $ printf '1\n' | units --column 1 ft m > /dev/full
  [5]

The greatest length of input, and one byte more.

  $ { head -c 16777214 /dev/zero | tr '\0' 'x'; printf '\n1'; } | units --column 1 ft in | tail -n 1
  12
  $ { head -c 16777215 /dev/zero | tr '\0' 'x'; printf '\n1'; } | units --column 1 ft in
  [7]
