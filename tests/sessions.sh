# Edit scripts that are played.

shows 'a script is answered line by line'
gives 'session pair' '' ''
gives 'session pair' \
  $'put 0 0 "(3"\nnext 2\nput 2 0 ",7)"\ntree\nput 1 1 "x"\ntree\nput 9 0 "a"\n' \
  $'ok 2\nnext ","\nok 5\n(1 a:"3" b:"7")\nok 5\nforeign 1\nno outside\n'
gives 'session empty' $'tree\nnext 0\nnext 1' $'(1)\nnext\nno beyond\n'

shows 'one byte order mark before a script is dropped'
gives 'session pair' $'\xef\xbb\xbftree\n' $'foreign 0\n'

shows 'a script is taken as it is: a letter and its accent are two symbols'
gives 'session pair' $'put 0 0 "e\xcc\x81"\n' $'ok 2\n'

shows 'a script that is refused is not played'
refuses 'session pair' $'\n' 10 $'script: line 1: not expected here\n'
refuses 'session pair' $'tree\nnext 0\r\n' 10 $'script: line 2: not expected here\n'
refuses 'session pair' $'tree\nput 1048577 0 "a"\ntrees\n' 10 $'script: line 2: not expected here\n'
refuses 'session pair' $'trees\n\xff' 4 $'input: byte 6: not UTF-8\n'

shows 'letters are put at the end of many, 2,000 times one after 20,000'
script="put 0 0 \"$(copies a 20000)\""$'\n'$(seq -f 'put %.0f 0 "a"' 20000 21999)$'\n'
gives 'session letters' "$script" "$(seq -f 'ok %.0f' 20000 22000)"$'\n'

shows 'the same, where each line is followed by one that asks: only the letter that is new is read'
script="put 0 0 \"$(copies a 20000)\""$'\n'$(seq -f 'put %.0f 0 "a"' 20000 21999 | awk '{print; print "next " $2 + 1}')$'\n'
gives 'session letters' "$script" "$(seq -f 'ok %.0f' 20000 22000 | awk '{print; if (NR > 1) print "next \"a\""}')"$'\n'
