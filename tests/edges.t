Edges from users to keys, by `test_calls edges`. `node` and `spare` answer a number, `users` the users of the edges to a
key, and `unsettle` the nodes that it clears.

Two nodes lead to node 0, one of them through node 1. `unsettle 0` removes both edges and frees their room.

  $ test_calls edges <<END
  > node
  > node
  > node
  > reserve 2
  > spare
  > link 1 0
  > link 2 1
  > spare
  > users 0
  > unsettle 0
  > users 0
  > users 1
  > users 2
  > spare
  > END
  0
  1
  2
  ok
  2
  ok
  ok
  0
  1
  0 1 2
  none
  none
  none
  2

An edge of a node to itself, and two equal edges. Node 2 reaches no other node. A node that was cleared has no edges
left to remove.

  $ test_calls edges <<END
  > node
  > node
  > node
  > reserve 5
  > link 0 0
  > link 1 0
  > link 1 0
  > link 0 1
  > link 2 2
  > users 1
  > users 2
  > unsettle 1
  > spare
  > users 0
  > users 2
  > unsettle 1
  > spare
  > END
  0
  1
  2
  ok
  ok
  ok
  ok
  ok
  ok
  0
  2
  0 1
  4
  none
  2
  1
  4

Only the edges of the cleared node are removed, not those of another user of the same key.

  $ test_calls edges <<END
  > node
  > node
  > node
  > reserve 2
  > link 1 0
  > link 2 0
  > unsettle 1
  > users 0
  > spare
  > END
  0
  1
  2
  ok
  ok
  ok
  1
  2
  1

Calls on absent nodes and links without room are refused. An unknown word is a bad call.

  $ test_calls edges <<END
  > users 0
  > unsettle 0
  > node
  > link 0 0
  > reserve 1
  > link 0 1
  > link 1 0
  > link 0 0
  > link 0 0
  > users 0
  > forget 0
  > END
  refused
  refused
  0
  refused
  ok
  refused
  refused
  ok
  refused
  0
  bad call

10,000 random calls link two of 40 nodes or clear one, and calls between them ask for the room that is left and for the
users of a key. Stretches with few links between two clears alternate with stretches in which the links use up the room.
The answers are those of a plain list of edges (tools/comparisons/compare_edges.py --answer), in which users are sorted
by number.

  $ awk '
  >   function below(n) { x = x * 16807 % 2147483647; return x % n }
  >   BEGIN {
  >     x = 1
  >     for (i = 0; i < 40; i++) print "node"
  >     print "reserve 100"
  >     for (i = 1; i <= 10000; i++) {
  >       if (below(i % 2000 < 1000 ? 40 : 4)) print "link", below(40), below(40)
  >       else print "unsettle", below(40)
  >       if (i % 7 == 0) { print "spare"; print "users", below(40) }
  >     }
  >   }' > calls
  $ cut -d ' ' -f 1 calls | sort | uniq -c
     8629 link
       40 node
        1 reserve
     1428 spare
     1371 unsettle
     1428 users
  $ test_calls edges < calls > answers
  $ paste -d ' ' calls answers | awk '$1 == "link" { print $4 }' | sort | uniq -c
     7906 ok
      723 refused
  $ awk '{
  >   count = split($0, number, " ")
  >   for (i = 2; i <= count; i++)
  >     for (j = i; j > 1 && number[j - 1] + 0 > number[j] + 0; j--) {
  >       other = number[j]; number[j] = number[j - 1]; number[j - 1] = other
  >     }
  >   line = number[1]
  >   for (i = 2; i <= count; i++) line = line " " number[i]
  >   print line
  > }' answers | md5sum
  9faa2bfbae54784c1fb82b9818cbc855  -
