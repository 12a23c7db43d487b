Reports of checks that are longer than one block. They are written as they are made, so their bytes and their ending are
compared with those of a text that `awk` makes.

A ring of 200 names has 200 faults, each with all of the names: 485,200 bytes.

  $ awk 'BEGIN { for (i = 1; i <= 200; i++) printf "ring%03dx ring%03dx\n", i, i % 200 + 1 }' > ring.units
  $ units -c -f ring.units > report
  [1]
  $ cat > wanted.awk <<'END'
  > BEGIN {
  >     for (i = 0; i < 200; i++) {
  >         printf "ring%03dx: cycle: ring%03dx", i + 1, i + 1
  >         for (j = 1; j <= 200; j++) printf " -> ring%03dx", (i + j) % 200 + 1
  >         print ""
  >     }
  > }
  > END
  $ awk -f wanted.awk > wanted
  $ cmp report wanted
  $ wc -c < report
  485200

Notices come before the faults.

  $ printf 'm !\n!endvar\n' | cat - ring.units > noticed.units
  $ units -c -f noticed.units > report
  [1]
  $ { echo 'noticed.units:2: stray end'; cat wanted; } | cmp report -

If the output fails, the status is 5, whatever was written before.

  $ units -c -f ring.units > /dev/full
  [5]
