Streams that fail or end, the messages of faults, and seeds, by `test_calls streams`.

A reader and a writer of one byte at a time, whose second call fails. Only a call that was interrupted is made again.

  $ test_calls streams <<END
  > interrupted
  > broken
  > END
  take 1 1 1, put 1 1 1
  take 1 failed 1, put 1 failed 1

No byte read is the end, and none written is a failure. `ends` reads `abcde` into a buffer of four bytes, and shows how
many bytes each read returns and the first byte of the buffer. `full` writes two bytes at a time into a room of three.

  $ test_calls streams <<END
  > ends
  > full
  > END
  take 4 a 1 e 0 e 0 e
  put 2 1 failed failed

`put N` writes a text on a sink that accepts 8 bytes at a time and whose call N fails. All is written up to the failure.

  $ test_calls streams <<END
  > put 0
  > put 1
  > put 2
  > put 4
  > put x
  > END
  ok "one two three four"
  failed ""
  failed "one two "
  ok "one two three four"
  bad call

Faults have messages: those of reads of files, of writes of files, and of other reads and writes.

  $ test_calls streams <<END
  > messages
  > END
  no such file
  the file is longer than the limit
  the file could not be read
  out of memory
  the file could not be written
  out of memory
  a read or a write failed

A seed is fixed only if the system has no random bytes. Shown is whether it gives the hash that the fixed seed gives.

  $ test_calls streams <<END
  > seeds
  > END
  fixed equal, no random bytes equal, random bytes different

A line that is no call.

  $ test_calls streams <<END
  > foo
  > END
  bad call
