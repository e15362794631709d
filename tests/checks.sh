# What `check` says of sheets, and that nothing is translated by a sheet that is not accepted.

shows 'sheets that are accepted'
gives 'check pair' '' $'accepted: 1 terminals, 0 ignorables, 1 nonterminals, 1 productions\n'
gives 'check empty' '' $'accepted: 0 terminals, 0 ignorables, 1 nonterminals, 1 productions\n'
gives 'check letters' '' $'accepted: 1 terminals, 0 ignorables, 1 nonterminals, 1 productions\n'
gives 'check nested' '' $'accepted: 0 terminals, 0 ignorables, 1 nonterminals, 2 productions\n'
gives 'check left' '' $'accepted: 0 terminals, 0 ignorables, 2 nonterminals, 3 productions\n'
gives 'check right' '' $'accepted: 0 terminals, 0 ignorables, 2 nonterminals, 3 productions\n'
gives 'check spaced' '' $'accepted: 1 terminals, 1 ignorables, 1 nonterminals, 1 productions\n'

shows 'the shipped sheet is accepted'
gives 'check @leiden' '' \
  $'accepted: 7 terminals, 2 ignorables, 10 nonterminals, 33 productions\n'

shows 'sheets that are suspect, with which nothing is translated'
for command in check to-xml to-text; do
  begins "$command words" zzz 3 'suspect: text: s: line 4, cut 1: '
  begins "$command ways" zzz 3 $'suspect: text: s: lines 4 and 5 share "a"\n'
  begins "$command brackets" zzz 3 'suspect: text: list: line 6, cut 1: '
  begins "$command twins" zzz 3 'suspect: text: s: line 3, cut 1: '
done

# wide ITEMS HYPHENS: a sheet whose production has that many items, and then that many hyphens on
# its text side.
wide() {
  local items='' hyphens='' number
  for ((number = 0; number < $1; number++)); do items+="[t a$number] "; done
  [ "$2" = 0 ] || hyphens="\"$(copies - "$2")\""
  printf 'xsugar-1\nstart s\nterminal t = /([a-z]{50}){10}/\n'
  printf 's : %s%s = <s>%s</s>\n' "$items" "$hyphens" "$items"
}

shows 'productions at the limit of weight'
wide 17 0 | sheet wide
refuses 'check wide' '' 2 $'sheet: weight 8518 is more than 8192\n'
wide 16 175 | sheet wide
gives 'check wide' '' $'accepted: 1 terminals, 0 ignorables, 1 nonterminals, 1 productions\n'
wide 16 176 | sheet wide
refuses 'check wide' '' 2 $'sheet: weight 8193 is more than 8192\n'

shows 'a component weighs as often as it is called'
doubling 10 | sheet doubling
gives 'check doubling' '' $'accepted: 0 terminals, 0 ignorables, 12 nonterminals, 12 productions\n'
doubling 11 | sheet doubling
refuses 'check doubling' '' 2 $'sheet: weight 14334 is more than 8192\n'
doubling 20 | sheet doubling
refuses 'check doubling' '' 2 $'sheet: weight 1000000 is more than 8192\n'

# A production may weigh 8,192, so with that many hyphens in it its weight is reported.
hyphens=$(copies - 8192)

# weighs WEIGHT: the sheet that is standard input has a production that weighs this and the hyphens.
weighs() {
  sheet weighed
  refuses 'check weighed' '' 2 "sheet: weight $(($1 + 8192)) is more than 8192"$'\n'
}

shows 'the first productions of the shipped sheets weigh less as text, and by the second sheet'
for core in '' ' 2'; do
  read -ra words <<<"sheet$core"
  "$program" "${words[@]}" </dev/null >"$room/core"
  case $core in
    '') text=2196 xml=4944 ;;
    *) text=1592 xml=1156 ;;
  esac
  weighs "$text" < <(sed "s/^doc : \"<=\"/doc : \"<=$hyphens\"/" "$room/core")
  weighs "$xml" < <(sed "s/= <ab>/= <ab>\"$hyphens\"/" "$room/core")
done

shows 'a production weighs 1 more than its items, also as XML, or than those inside a group'
weighs 1 <<<$'xsugar-1\nstart s\ns : "'"$hyphens"'" = <s/>'
weighs 3 <<<$'xsugar-1\nstart s\ns : = <s>"'"$hyphens"'"</s>'
weighs 1 <<<$'xsugar-2\nstart s\ns : = <s>"'"$hyphens"'"</s>'
weighs 5 <<<$'xsugar-2\nstart s\nfence "(" ")"\nterminal t = /ab?c/\ns : "a(" [t x] "'"$hyphens"'" ")" = <s>[t x]</s>'
weighs 4 <<<$'xsugar-2\nstart s\nfence "(" ")"\ns : "a()'"$hyphens"'" = <s/>'
