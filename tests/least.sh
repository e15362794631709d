# The sizes of the smallest documents that `cover` shows. They were found by a search over all trees
# of at most 20 symbols.

# symbols LINE: prints how many symbols the word of a line has, of which \u{h} and marks are one each.
symbols() {
  local word=${1#*\"}
  word=$(sed -E 's/\\u\{[0-9a-f]+\}|<[^>]*>/x/g' <<<"${word%\"}")
  echo "${#word}"
}

# least SHEET SIZE..: for each production of the sheet this size is shown, with words of as many
# symbols; or for - that the start does not reach it.
least() {
  local wanted='' found='' line number=0 reached=0 size sum
  for size in "${@:2}"; do
    number=$((number + 1))
    if [ "$size" = - ]; then
      wanted+="production $number: not reachable"$'\n'
    else
      wanted+="production $number: size $size, words of $size"$'\n'
      reached=$((reached + 1))
    fi
  done
  wanted+="$reached of $number reachable"$'\n'
  ran "cover $1" ''
  while IFS= read -r line; do
    case $line in
      'text "'*) sum=$(symbols "$line") ;;
      'xml "'*) found+=", words of $((sum + $(symbols "$line")))" ;;
      *) found+=${found:+$'\n'}$line ;;
    esac
  done <"$room/.out"
  [ "$status$(<"$room/.notes")" = 0 ] && [ "$found"$'\n' = "$wanted" ]
  is $? "cover $1" ''
}

sheet shorter <<'END'
xsugar-1
start s
s : [x v] = <s>[x v]</s>
x : "a" = "bcdefghi"
x : "aaaa" = "b"
END

shows 'the smaller production is the longer one of the text'
least shorter 7 11 7

sheet apart <<'END'
xsugar-1
start s
s : "a" = <a/>
u : "b" [v x] = "b" [v x]
v : "c" = "c"
END

shows 'two productions are not reached'
least apart 3 - -

sheet alike <<'END'
xsugar-1
start s
s : [x v] = <s>[x v]</s>
s : [y v] = <t>[y v]</t>
x : "ab" [z v] = "c" [z v]
x : "a" = "bcd"
y : "a" [z v] = "bc" [z v]
z : "z" = "z"
END

shows 'two productions weigh the same, and so do two ways to the last one'
least alike 6 7 7 6 7 7

sheet passed <<'END'
xsugar-1
start s
s : [l x] "-" [m y] = <s>[l x][m y]</s>
l : =
l : [l x] "a" = [l x] <a/>
m : = "e"
m : "b" [m x] = "f" [m x]
END

shows 'a list that may be empty is passed over'
least passed 4 4 7 4 6

sheet counted <<'END'
xsugar-1
start s
terminal v = /a{2,3}|[b-d]e{3}/
terminal w = /x*/
ignorable k = / */ "  "
s : [v x] = <s>[v x]</s>
s : [k] [p x] = <s>[p x]</s>
p : [w x] "longer" = [w x]
p : [w y] [k] [v x] = <t>[w y]</t> [v x]
END

shows 'words of terminals count on both sides, and ignorables by their normal spelling'
least counted 6 10 10 12

sheet ways <<'END'
xsugar-1
start s
s : "(((" [x a] ")))" = <s>[x a]</s>
s : [y a] = <s>[y a]</s>
y : [x a] [z b] = [x a] [z b]
y : =
z : "zz" =
x : "a" = "a"
x : [y a] [y b] = <x>[y a][y b]</x>
END

shows 'the cheapest way to a production is not by the cheapest production'
least ways 10 2 6 2 6 6 6
