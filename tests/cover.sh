# What `cover` shows: for each production a smallest pair of documents that uses it.

# covers SHEET: what `cover` writes of the sheet is standard input. The run does not read its input.
covers() {
  local answer
  IFS= read -rd '' answer
  gives "cover $1" 'not read' "$answer"
}

shows 'the smallest documents of small sheets'
covers nested <<'END'
production 1: size 3
text "a"
xml "<a></a>"
production 2: size 7
text "(a)"
xml "<s><a></a></s>"
2 of 2 reachable
END
covers left <<'END'
production 1: size 2
text ""
xml "<s></s>"
production 2: size 2
text ""
xml "<s></s>"
production 3: size 5
text "a"
xml "<s><a></a></s>"
3 of 3 reachable
END
covers twins <<'END'
production 1: size 8
text "aa"
xml "<s><a></a><a></a></s>"
production 2: size 3
text "a"
xml "<a></a>"
2 of 2 reachable
END

shows 'an attribute, an ignorable and characters that are escaped'
sheet escaped <<'END'
xsugar-1
start s
terminal v = /é{2}/
ignorable k = / */ " "
s : "<" [k] [v x] = <s a=[v x]>"\""</s>
END
covers escaped <<'END'
production 1: size 11
text "\u{3c} \u{e9}\u{e9}"
xml "<s><@a>\u{e9}\u{e9}<@>\u{22}</s>"
1 of 1 reachable
END

shows 'nonterminals that the start does not reach'
sheet apart <<'END'
xsugar-1
start s
s : "a" = <a/>
u : [v x] = [v x]
v : "c" = "c"
END
covers apart <<'END'
production 1: size 3
text "a"
xml "<a></a>"
production 2: not reachable
production 3: not reachable
1 of 3 reachable
END

# long COUNT: a sheet whose only text is that many letters.
long() { printf 'xsugar-1\nstart s\ns : "%s" = <s/>\n' "$(copies a "$1")"; }

shows 'documents of 4096 symbols are shown'
long 4094 | sheet long
covers long <<END
production 1: size 4096
text "$(copies a 4094)"
xml "<s></s>"
1 of 1 reachable
END

shows 'documents of 4097 symbols are too long'
long 4095 | sheet long
covers long <<'END'
production 1: size 4097, too long
1 of 1 reachable
END

# long_lines COUNT SIZE: what `cover` writes of that many productions of this size.
long_lines() {
  local number
  for ((number = 1; number <= $1; number++)); do
    echo "production $number: size $2, too long"
  done
  echo "$1 of $1 reachable"
}

shows 'sizes beyond documents are answered'
doubling 20 | sheet doubling
covers doubling < <(long_lines 22 2097154)
doubling 40 | sheet doubling
covers doubling < <(long_lines 42 1000000000)
