Runs of the program over files, input and sinks in memory that fail, by `test_calls runs`. `file NAME TEXT` adds a file,
`input TEXT` sets the input and `blanks N` the number of blanks before it. `piece N` sets how many bytes of it are read
at a time, and `room N` how many bytes each sink has room for. `fail fetch|take|store|out|err N..` sets which calls
fail, counted from 1: reads of a file, reads of the input, writes of a file, and writes of up to 8 bytes on standard
output and standard error. `clear` undoes all that. `run WORD,WORD..` runs the program over copies of the files, and
answers with its status and with what it wrote on either sink. In TEXT and in answers, `\n`, `\t`, `\r`, `\0`, `\\` and
`\"` are escapes. `tools/checks/check_statuses.sh` tests the files of the system.

A file with two includes, of which the first has an include of its own and the second does not exist; and a small file.

  $ cat > files <<'END'
  > file main.units !include sub/a.units\n!include gone.units\n
  > file sub/a.units m !\n!include b.units\n
  > file sub/b.units z 4 m\n
  > file s.units s !\nms 1|1000 s\n
  > END
  $ runs() { cat files - | test_calls runs; }

A conversion reads no input. If the read of any file fails, nothing is written.

  $ runs <<'END'
  > input never taken
  > fail take 1
  > run -f,main.units,z,m
  > fail fetch 1
  > run -f,main.units,z,m
  > fail fetch 2
  > run -f,main.units,z,m
  > fail fetch 3
  > run -f,main.units,z,m
  > fail fetch 4
  > run -f,main.units,z,m
  > END
  done "\t* 4\n\t/ 0.25\n" "main.units:2: no file: gone.units\n"
  read fault "" ""
  read fault "" ""
  read fault "" ""
  read fault "" ""

The notices are written before the reply. A write that fails ends the run.

  $ runs <<'END'
  > input never taken
  > fail take 1
  > fail out 1
  > run -f,main.units,z,m
  > fail out 2
  > run -f,main.units,z,m
  > fail out
  > fail err 1
  > run -f,main.units,z,m
  > fail err 5
  > run -f,main.units,z,m
  > END
  write fault "" "main.units:2: no file: gone.units\n"
  write fault "\t* 4\n\t/ " "main.units:2: no file: gone.units\n"
  write fault "" ""
  write fault "" "main.units:2: no file: gone.unit"

A refused command line reads no file, and a conversion over the built-in definitions reads none either. Nor does the
trial, which reads no input.

  $ runs <<'END'
  > input never taken
  > fail fetch 1
  > fail take 1
  > fail err 1
  > run -d,0
  > fail err
  > run 10 meters,feet
  > run --trial,3
  > END
  write fault "" ""
  done "\t* 32.808399\n\t/ 0.03048\n" ""
  done "definitions 4, edits 3, reply bytes 43, settled 3 of 4, reductions 4\n" ""

Sessions in which each read of the input and some writes fail.

  $ runs <<'END'
  > input 1 s\nms\n
  > run -f,s.units
  > fail take 1
  > run -f,s.units
  > fail take 2
  > run -f,s.units
  > fail take 3
  > run -f,s.units
  > fail take
  > fail out 2
  > run -f,s.units
  > room 5
  > fail out
  > run -f,s.units
  > input 1 s\nms
  > room 1000
  > fail take 3
  > run -q,-f,s.units
  > END
  done "2 units, 0 prefixes, 0 nonlinear units\nYou have: You want: \t* 1000\n\t/ 0.001\nYou have: " ""
  read fault "2 units, 0 prefixes, 0 nonlinear units\nYou have: " ""
  read fault "2 units, 0 prefixes, 0 nonlinear units\nYou have: You want: " ""
  read fault "2 units, 0 prefixes, 0 nonlinear units\nYou have: You want: \t* 1000\n\t/ 0.001\nYou have: " ""
  write fault "2 units," ""
  write fault "2 uni" ""
  read fault "" ""

In a session, the notices are written before the banner and the prompt.

  $ runs <<'END'
  > input z\nm\n
  > run -f,main.units
  > fail out 1
  > run -f,main.units
  > fail out
  > fail err 5
  > run -f,main.units
  > END
  done "2 units, 0 prefixes, 0 nonlinear units\nYou have: You want: \t* 4\n\t/ 0.25\nYou have: " "main.units:2: no file: gone.units\n"
  write fault "" "main.units:2: no file: gone.units\n"
  write fault "" "main.units:2: no file: gone.unit"

Lines that are read in pieces, and what ends a line or a session.

  $ runs <<'END'
  > input 1 s\nms\n
  > piece 1
  > run -q,-f,s.units
  > input 1 s\nms
  > piece 4
  > run -q,-f,s.units
  > input 1 s\r\nms\r
  > run -q,-f,s.units
  > input 1 s\nquit\nms\n
  > fail take 4
  > run -q,-f,s.units
  > input 1 \0 s\n1 s\nms\n
  > fail take
  > run -q,-f,s.units
  > END
  done "\t* 1000\n\t/ 0.001\n" ""
  done "\t* 1000\n\t/ 0.001\n" ""
  done "\t* 1000\n\t/ 0.001\n" ""
  done "" ""
  done "syntax error at 2\n\t* 1000\n\t/ 0.001\n" ""

A line of 65,536 bytes is the longest that is allowed.

  $ runs <<'END'
  > blanks 65535
  > input s\nms\n
  > run -q,-f,s.units
  > piece 32768
  > run -q,-f,s.units
  > piece 65535
  > run -q,-f,s.units
  > piece 65536
  > run -q,-f,s.units
  > END
  done "\t* 1000\n\t/ 0.001\n" ""
  done "\t* 1000\n\t/ 0.001\n" ""
  done "\t* 1000\n\t/ 0.001\n" ""
  done "\t* 1000\n\t/ 0.001\n" ""

A line with one byte more.

  $ runs <<'END'
  > blanks 65536
  > input s\nms\n
  > run -q,-f,s.units
  > piece 32769
  > run -q,-f,s.units
  > piece 65535
  > run -q,-f,s.units
  > piece 65536
  > run -q,-f,s.units
  > input s
  > piece 4
  > run -q,-f,s.units
  > END
  done "line too long\n" ""
  done "line too long\n" ""
  done "line too long\n" ""
  done "line too long\n" ""
  done "line too long\n" ""

Sessions that load files.

  $ runs <<'END'
  > input :load gone.units\n1 s\nms\n
  > run -q,-f,s.units
  > input :load main.units\nz\nm\n
  > run -q,-f,s.units
  > input 1 s\nms\n:load sub/b.units\nms\n
  > fail fetch 2
  > run -q,-f,s.units
  > input :load main.units\nz\nm\n
  > fail fetch 4
  > run -q,-f,s.units
  > END
  done "no file: gone.units\n\t* 1000\n\t/ 0.001\n" ""
  done "\t* 4\n\t/ 0.25\n" "main.units:2: no file: gone.units\n"
  read fault "\t* 1000\n\t/ 0.001\n" ""
  read fault "" ""

Sessions that undo edits and save files.

  $ runs <<'END'
  > input :define s 2 ms\n:undo\n1 s\nms\n:undo\n
  > run -q,-f,s.units
  > input :save t.units\n:drop ms\n:load t.units\n1 s\nms\n
  > run -q,-f,s.units
  > input 1 s\nms\n:save t.units\nms\n
  > fail store 1
  > run -q,-f,s.units
  > input :save t.units\n:save u.units\n1 s\nms\n
  > fail store 2
  > run -q,-f,s.units
  > END
  done "\t* 1000\n\t/ 0.001\nnothing to undo\n" ""
  done "\t* 1000\n\t/ 0.001\n" ""
  write fault "\t* 1000\n\t/ 0.001\n" ""
  write fault "" ""

A column, of which one cell of three is an error. The input is read to its end before a row is written.

  $ runs <<'END'
  > input 1,a\n2,b\nx,c\n
  > run -f,main.units,--column,1,z,m
  > fail take 1
  > run -f,main.units,--column,1,z,m
  > fail take 2
  > run -f,main.units,--column,1,z,m
  > fail take 3
  > run -f,main.units,--column,1,z,m
  > fail take 4
  > run -f,main.units,--column,1,z,m
  > END
  refused "4,a\n8,b\nerror: not a number,c\n" "main.units:2: no file: gone.units\n"
  read fault "" "main.units:2: no file: gone.units\n"
  read fault "" "main.units:2: no file: gone.units\n"
  read fault "" "main.units:2: no file: gone.units\n"
  read fault "" "main.units:2: no file: gone.units\n"

Writes of the rows that fail.

  $ runs <<'END'
  > input 1,a\n2,b\nx,c\n
  > fail out 1
  > run -f,main.units,--column,1,z,m
  > fail out 2
  > run -f,main.units,--column,1,z,m
  > fail out 3
  > run -f,main.units,--column,1,z,m
  > fail out 4
  > run -f,main.units,--column,1,z,m
  > END
  write fault "" "main.units:2: no file: gone.units\n"
  write fault "4,a\n8,b\n" "main.units:2: no file: gone.units\n"
  write fault "4,a\n8,b\nerror: n" "main.units:2: no file: gone.units\n"
  write fault "4,a\n8,b\nerror: not a num" "main.units:2: no file: gone.units\n"

The notices are written before the rows.

  $ runs <<'END'
  > input 1,a\n2,b\nx,c\n
  > fail err 1
  > run -f,main.units,--column,1,z,m
  > fail err 2
  > run -f,main.units,--column,1,z,m
  > fail err 3
  > run -f,main.units,--column,1,z,m
  > fail err 4
  > run -f,main.units,--column,1,z,m
  > fail err 5
  > run -f,main.units,--column,1,z,m
  > END
  write fault "" ""
  write fault "" "main.uni"
  write fault "" "main.units:2: no"
  write fault "" "main.units:2: no file: g"
  write fault "" "main.units:2: no file: gone.unit"

A column with a header.

  $ runs <<'END'
  > input z,n\n2,b\n
  > run -f,main.units,--header,--column,1,z,m
  > fail take 3
  > run -f,main.units,--header,--column,1,z,m
  > fail take
  > fail out 1
  > run -f,main.units,--header,--column,1,z,m
  > END
  done "z,n\n8,b\n" "main.units:2: no file: gone.units\n"
  read fault "" "main.units:2: no file: gone.units\n"
  write fault "" "main.units:2: no file: gone.units\n"

`clear`, and lines that are no calls.

  $ runs <<'END'
  > run -f,s.units,1 s,ms
  > run -f,s.units,1 s
  > run -f,s.units,1 q,ms
  > run -x
  > clear
  > run -f,s.units,1 s,ms
  > run 1 ft,in
  > input \q
  > input \
  > piece x
  > fail out 1 x
  > fail put 1
  > stop
  > END
  done "\t* 1000\n\t/ 0.001\n" ""
  done "\tDefinition: 1 s\n" ""
  refused "unknown unit: q\n" ""
  usage "" "units: usage: units [options] [FROM [TO]]\n"
  no file "" "units: no file: s.units\n"
  done "\t* 12\n\t/ 0.083333333\n" ""
  bad call
  bad call
  bad call
  bad call
  bad call
  bad call
