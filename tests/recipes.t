The caveats of the manual page, each with a way around it. Those of columns are run by tools/checks/check_recipes.sh.

A save writes the definitions in force: no comments, includes, messages or faulty lines, and nothing of other locales.

  $ printf 'm !\n' > base.units
  $ cat > own.units << END
  > # my own units
  > !include base.units
  > !message Hello
  > !locale en_GB
  > stone 2 m
  > !endlocale
  > broken 2 (
  > rod 5 m
  > END
  $ printf ':save saved.units\n' | units -q -f own.units
  own.units:7: syntax error at 3
  $ cat saved.units
  m !
  rod 5 m

So edits go into a file of their own, which the main file includes.

  $ cp own.units before.units
  $ printf 'pole 6 m\n' > edits.units
  $ printf '!include own.units\n!include edits.units\n' > main.units
  $ units -t -f main.units pole rod 2> notices
  1.2
  $ cmp own.units before.units

A # begins a comment in the name of a file too.

  $ printf ':save a#b\n' | units -q
  $ ls a*
  a

A save that cannot be written ends the session with status 5, and a load of a file that cannot be read ends it with
status 4. Neither prints a reason.

  $ mkdir folder
  $ printf ':define ell 45 in\n:save folder\nell\n\n' | units -q
  [5]
  $ printf ':define ell 45 in\n:load folder\nell\n\n' | units -q
  [4]

A load of a file that does not exist is refused, and the session goes on.

  $ printf ':define ell 45 in\n:load nothing\nell\nm\n' | units -q
  no file: nothing
  \t* 1.143 (esc)
  \t/ 0.87489064 (esc)

So it is best to save edits before a load, to a file that can be written.

  $ printf ':define ell 45 in\n:save ell.units\n:load folder\n' | units -q
  [4]
  $ units -t -f ell.units ell m
  1.143

After a refused FROM or TO, the next line is FROM. After a command, the session asks for the same line again.

  $ printf 'ft\nnosuch\nm\nin\n' | units -q -1
  unknown unit: nosuch
  \t* 39.370079 (esc)
  $ printf 'ft\nsearch hms\nm\n' | units -q -1
  \t!unitlist hms\thr;min;sec (esc)
  \t* 0.3048 (esc)

A program that writes to a session keeps prompts on: `You have: ` or `You want: ` comes before the next line is read.

  $ printf 'nosuch\n\nft\nm\n' | units -1
  43 units, 18 prefixes, 4 nonlinear units
  You have: unknown unit: nosuch
  You have: You have: You want: \t* 0.3048 (esc)
  You have:  (no-eol)

One run takes at most 16 MiB of a column. With one byte more, no row is written.

  $ yes 1 | head -c 16777216 > large
  $ units --column 1 ft in < large | wc -c | tr -d ' '
  25165824
  $ echo >> large
  $ units --column 1 ft in < large > out
  [7]
  $ wc -c < out | tr -d ' '
  0

In a pipe the status is lost without `pipefail`.

  $ units --column 1 ft in < large | cat
  $ bash -c 'set -o pipefail; units --column 1 ft in < large | cat'
  [7]
