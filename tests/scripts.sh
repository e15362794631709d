# Scripts of edits whose lines are refused, and texts that are spelled with escapes.

# refused LINE SCRIPT: a script over pairs is refused at this line, counted from 1.
refused() { refuses 'session pair' "$2" 10 "script: line $1: not expected here"$'\n'; }

shows 'a script is refused at its first line that is no request'
# an empty line, the first, between others and the last
refused 1 $'\n'
refused 1 $'\ntree\n'
refused 2 $'tree\n\ntree\n'
refused 2 $'tree\n\n'
# another line's end
refused 1 $'tree\r\n'
refused 1 $'tree\r\ntree\r\n'
refused 1 $'tree\rtree\n'
refused 1 $'next 0\r'
# a word that is none, or none there
refused 1 $'trees\n'
refused 1 $'Tree\n'
refused 1 'tre'
refused 1 $'tree 0\n'
refused 1 $'tree \n'
refused 1 $' tree\n'
refused 1 $'get 0\n'
refused 1 $'putt 0 0 ""\n'
refused 1 $'nex 0\n'
# too few words, and too many
refused 1 $'put\n'
refused 1 $'put \n'
refused 1 $'put 0\n'
refused 1 $'put 0 0\n'
refused 1 $'put 0 0 \n'
refused 1 $'put 0 ""\n'
refused 1 $'put ""\n'
refused 1 $'put 0 0 "" ""\n'
refused 1 $'put 0 0 "" 0\n'
refused 1 $'next\n'
refused 1 $'next \n'
refused 1 $'next 0 0\n'
# two spaces, one at the end, a tab
refused 1 $'put  0 0 ""\n'
refused 1 $'put 0  0 ""\n'
refused 1 $'put 0 0  ""\n'
refused 1 $'put 0 0 "" \n'
refused 1 $'next  0\n'
refused 1 $'next 0 \n'
refused 1 $'next\t0\n'
# a leading zero, a sign, other digits, a number that is too great
refused 1 $'next 00\n'
refused 1 $'next 01\n'
refused 1 $'put 01 0 ""\n'
refused 1 $'put 0 00 ""\n'
refused 1 $'next +1\n'
refused 1 $'next -1\n'
refused 1 $'next 0x1\n'
refused 1 $'next 1.0\n'
refused 1 $'next ٣\n'
refused 1 $'next 1048577\n'
refused 1 $'put 1048577 0 ""\n'
refused 1 $'put 0 1048577 ""\n'
refused 1 $'next 18446744073709551616\n'
# a text that is no quoted one
refused 1 $'put 0 0 a\n'
refused 1 $'put 0 0 "a\n'
refused 1 $'put 0 0 a"\n'
refused 1 $'put 0 0 \'a\'\n'
refused 1 $'put 0 0 "a"b\n'
refused 1 $'put 0 0 "\\a"\n'
refused 1 $'put 0 0 "\\u{}"\n'
refused 1 $'put 0 0 "\\u{110000}"\n'
refused 1 $'put 0 0 "a\nb"\n'
# the first of two bad lines, and one after others
refused 4 $'tree\nnext 0\nput 0 0 "("\nnext x\ntrees\n'
refused 4 $'put 0 0 "(3,7)"\ntree\nput 9 0 "a"\nnext'

shows 'a script may be empty, and leave out the end of its last line'
gives 'session pair' '' ''
gives 'session pair' tree $'foreign 0\n'
gives 'session pair' $'tree\nnext 0' $'foreign 0\nnext "("\n'

shows 'places and numbers of symbols go up to 1,048,576'
gives 'session pair' $'next 1048576\nput 1048576 1048576 ""\n' $'no beyond\nno outside\n'
put=$(copies x 1048000)
gives 'session pair' "put 0 0 \"$put\""$'\nput 1048000 1 "x"\nput 1048000 0 "x"\nput 7 1 "x"\ntree\n' \
  $'ok 1048000\nno outside\nok 1048001\nok 1048001\nforeign 0\n'

shows 'texts with escapes are put'
gives 'session pair' $'put 0 0 "\\u{28}3,\\u{000037})"\ntree' $'ok 5\n(1 a:"3" b:"7")\n'
# a quote, a backslash, a line feed and a symbol that is no character of XML
gives 'session pair' $'put 0 0 "\\"\\\\\\n\\u{0}"\ntree\nnext 0' $'ok 4\nforeign 0\nnext "("\n'
