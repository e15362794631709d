# Scripts of edits. What each should be answered is found slowly: for each request by commands that
# read the whole document, as it then is, from its first symbol.

# What was found already: `known` has for SHEET:WORD how many symbols of the word begin a text of
# the sheet, `follow` for SHEET:PREFIX the line of the symbols by which the prefix goes on.
declare -A known=() follow=()

# over SHEET NUMBER..: the sheet of the scripts up to the next call, and the symbols that are tried
# for `next`, in ascending order: all that the sheet's classes and fixed words have, and their
# neighbours.
over() {
  language=$1
  tried=("${@:2}")
}

# viable WORD: sets `viable` to how many symbols of the word begin a text of the sheet: all of them
# where it is translated to XML, else as many as are reported.
viable() {
  local key=$language:$1 line
  viable=${known[$key]:-}
  [ -z "$viable" ] || return 0
  printf %s "$1" >"$room/.word"
  if "$program" to-xml "$room/$language" <"$room/.word" >"$room/.out" 2>"$room/.notes"; then
    viable=${#1}
  else
    read -r line <"$room/.notes"
    viable=-1
    if [[ $line =~ ^'input: foreign after '([0-9]+)' symbols'$ ]]; then
      viable=${BASH_REMATCH[1]}
    fi
  fi
  known[$key]=$viable
}

# quote NUMBER: sets `quoted` to the character of this number as it is shown.
quote() {
  printf -v quoted '\\u{%x}' "$1"
  if (($1 >= 32 && $1 <= 126)) && [[ " 34 60 62 92 " != *" $1 "* ]]; then
    printf -v quoted '\\%03o' "$1"
    printf -v quoted "$quoted"
  fi
  quoted="\"$quoted\""
}

# range FIRST LAST: appends the range of these symbols to `answer`.
range() {
  quote "$1"
  answer+=" $quoted"
  if (($1 < $2)); then
    quote "$2"
    answer+="-$quoted"
  fi
}

# follows PREFIX: sets `answer` to the line of the symbols by which the prefix goes on, each of
# those tried in turn.
follows() {
  local key=$language:$1 number character first='' last=''
  answer=${follow[$key]:-}
  [ -z "$answer" ] || return 0
  answer=next
  for number in "${tried[@]}"; do
    printf -v character '\\U%08x' "$number"
    printf -v character "$character"
    viable "$1$character"
    if ((viable > ${#1})); then
      first=${first:-$number}
    elif [ -n "$first" ]; then
      range "$first" "$last"
      first=''
    fi
    last=$number
  done
  follow[$key]=$answer
}

# put AT CUT TEXT: edits `document`, and sets `answer`.
put() {
  if (($1 + $2 > ${#document})); then
    answer='no outside'
  else
    document=${document:0:$1}$3${document:$1+$2}
    answer="ok ${#document}"
  fi
}

# tree: sets `answer` to the line of the document's derivation, or to how far it can be read.
tree() {
  printf %s "$document" >"$room/.word"
  if "$program" trees "$room/$language" 1 <"$room/.word" >"$room/.out" 2>"$room/.notes"; then
    read -r answer <"$room/.out"
  else
    viable "$document"
    answer="foreign $viable"
  fi
}

# next AT: sets `answer` to the line of what may come after so many symbols.
next() {
  viable "$document"
  if (($1 > viable)); then
    answer='no beyond'
  else
    follows "${document:0:$1}"
  fi
}

# plays LINE..: the script of these lines, whose texts have no escapes, has the answers that are
# found slowly.
plays() {
  local script='' answers='' document='' answer line
  for line; do
    if [[ $line =~ ^put\ ([0-9]+)\ ([0-9]+)\ \"(.*)\"$ ]]; then
      put "${BASH_REMATCH[@]:1}"
    elif [ "$line" = tree ]; then
      tree
    else
      next "${line#next }"
    fi
    script+=$line$'\n'
    answers+=$answer$'\n'
  done
  gives "session $language" "$script" "$answers"
}

shows 'edited pairs have the answers that are found slowly'
# of ASCII only U+0 is left out, which no string of a shell has
over pair {1..127}
# nothing is asked for, and of the empty document
plays
plays tree
plays 'next 0'
plays 'next 1'
plays 'put 0 0 ""'
plays 'put 0 0 ""' tree 'next 0'
# the whole document, and each prefix of it
plays 'put 0 0 "(3,7)"' tree
plays 'put 0 0 "(3,7)"' 'next 0' 'next 1' 'next 2' 'next 3' 'next 4' 'next 5' 'next 6'
# it grows at its end, and a tree is asked for each time
plays 'put 0 0 "("' tree 'put 1 0 "3"' tree 'put 2 0 ","' tree 'put 3 0 "7"' tree 'put 4 0 ")"' tree
# it grows at its front
plays 'put 0 0 ")"' 'next 0' 'next 1' 'put 0 0 ",7"' tree 'put 0 0 "(3"' tree 'next 5'
# it grows inside
plays 'put 0 0 "()"' tree 'put 1 0 "37"' tree 'put 2 0 ","' tree 'next 2'
# a symbol is replaced, at the front, inside and at the end
plays 'put 0 0 "(3,7)"' 'put 0 1 "x"' tree 'next 0' 'next 1'
plays 'put 0 0 "(3,7)"' 'put 1 1 "8"' tree 'put 3 1 "9"' tree
plays 'put 0 0 "(3,7)"' 'put 4 1 "]"' tree 'next 4' 'next 5'
# and replaced back
plays 'put 0 0 "(3,7)"' 'put 1 1 "x"' tree 'put 1 1 "3"' tree 'next 3'
# symbols are cut, at the front, inside, at the end, and all
plays 'put 0 0 "x(3,7)"' tree 'put 0 1 ""' tree
plays 'put 0 0 "(3,x7)"' tree 'put 3 1 ""' tree
plays 'put 0 0 "(3,7)x"' tree 'put 5 1 ""' tree
plays 'put 0 0 "(3,7)"' 'put 0 5 ""' tree 'next 0' 'next 1'
plays 'put 0 0 "(3,7)"' 'put 0 5 "(4,8)"' tree
# an edit after the first symbol that is not viable changes nothing of what is
plays 'put 0 0 "(x,7)"' tree 'put 3 1 "8"' tree 'next 1' 'next 2'
# an edit before it, and one at it
plays 'put 0 0 "(3x7)"' tree 'put 0 1 "["' tree 'next 0'
plays 'put 0 0 "(3x7)"' tree 'put 2 1 ","' tree
# nothing is replaced by nothing, at each place
plays 'put 0 0 "(3,7)"' 'put 0 0 ""' 'put 3 0 ""' 'put 5 0 ""' tree
# a place beyond the end, and too many symbols
plays 'put 1 0 "("'
plays 'put 0 1 "("'
plays 'put 0 0 "(3,7)"' 'put 9 0 "a"' tree
plays 'put 0 0 "(3,7)"' 'put 3 3 ""' tree
plays 'put 0 0 "(3,7)"' 'put 5 1 ""' 'put 6 0 ""' tree
plays 'put 0 0 "(3,7)"' 'put 1048576 1048576 ""' 'next 1048576'
# symbols of no class
plays 'put 0 0 "(3,é)"' tree 'next 3' 'next 4'
plays 'put 0 0 "𝟛"' tree 'next 0' 'next 1'

shows 'a pair edited at each place, and beyond its end, has the answers that are found slowly'
for at in {0..6}; do
  for cut in {0..2}; do
    for text in '' 8 3,; do
      plays 'put 0 0 "(3,7)"' "put $at $cut \"$text\"" tree "next $at"
    done
  done
done

# Fixed words that begin in the same way, and one that is twice another.
sheet worded <<'END'
xsugar-1
start s
terminal v = /[x-z]*/
s : "begin " [v x] " end" = <s>[v x]</s>
s : "beg" = <b/>
s : "begbeg" = <c/>
END

shows 'edited fixed words have the answers that are found slowly'
over worded {1..127}
# a document whose end is inside a fixed word
plays 'put 0 0 "be"' tree 'next 0' 'next 1' 'next 2' 'next 3'
plays 'put 0 0 "begin"' tree 'next 3' 'next 4' 'next 5'
plays 'put 0 0 "begin xyz e"' tree 'next 6' 'next 9' 'next 10' 'next 11'
plays 'put 0 0 "begb"' tree 'next 3' 'next 4'
# the end of one fixed word, inside another
plays 'put 0 0 "beg"' tree 'next 3'
plays 'put 0 0 "begbeg"' tree 'next 3' 'next 6'
# an edit inside a fixed word, and one back
plays 'put 0 0 "begin x end"' tree 'put 2 1 "k"' tree 'next 2' 'put 2 1 "g"' tree 'next 2'
plays 'put 0 0 "begin x end"' 'put 3 8 ""' tree 'next 3'
plays 'put 0 0 "beg"' 'put 3 0 "beg"' tree 'put 0 3 ""' tree
# a fixed word that is begun, cut off and begun again
plays 'put 0 0 "beg"' 'put 3 0 "i"' 'next 4' 'put 3 1 "b"' 'next 4' 'put 3 1 ""' tree

# Lists of words in parentheses, which can be nested and empty.
sheet lists <<'END'
xsugar-2
start l
terminal w = /[a-cα-ω.]+/
l : "(" [m x] ")" = <l>[m x]</l>
m : = <e/>
m : [l x] [m y] = <m>[l x][m y]</m>
m : "-" [w x] "-" [m y] = <w>[w x][m y]</w>
fence "(" ")"
END

shows 'edited lists have the answers that are found slowly'
# the parentheses to the stop, the three letters, and the Greek ones, with their neighbours
over lists {39..47} {96..100} {944..970}
plays 'put 0 0 "()"' tree 'next 0' 'next 1' 'next 2'
plays 'put 0 0 "()"' 'put 1 0 "()"' tree 'put 2 0 "()()"' tree
plays 'put 0 0 "(((())))"' tree 'put 4 1 ""' tree 'next 7'
plays 'put 0 0 "(-αβγ-)"' tree 'next 2' 'next 3' 'put 2 3 "a.b"' tree
plays 'put 0 0 "(-a--ω-())"' tree 'put 5 1 "ϊ"' tree 'next 5' 'put 5 1 "ωωω"' tree
plays 'put 0 0 "("' 'next 1' 'put 1 0 "-"' 'next 2' 'put 2 0 "c"' 'next 3' 'put 3 0 "-"' 'next 4' \
  'put 4 0 ")"' 'next 5' tree

shows 'edited letters have the answers that are found slowly'
over left {1..127}
plays tree 'next 0' 'put 0 0 "aaa"' tree 'next 3' 'next 4'
plays 'put 0 0 "aa"' 'put 1 0 "b"' tree 'next 1' 'put 1 1 ""' tree
plays 'put 0 0 "aab"' 'put 3 0 "aa"' tree 'put 0 1 ""' tree
plays 'put 0 0 "baa"' tree 'next 0' 'next 1' 'put 0 3 ""' tree
