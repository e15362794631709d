# Documents, and a shipped sheet, cut before each of their bytes. The whole ones of examples/ are
# translated by tests/examples.

# first_bytes TEXT COUNT: the first bytes of the text, that many, in `prefix`.
first_bytes() {
  local LC_ALL=C
  prefix=${1:0:$2}
}

# measure TEXT: how many bytes it has, in `bytes`.
measure() {
  local LC_ALL=C
  bytes=${#1}
}

# each_cut COMMAND DOCUMENT: each prefix of the document but itself is refused. Whole characters of
# a text begin the whole text, so that all of them are viable. XML is legal up to the piece that is
# cut: a tag, a comment or a declaration goes on to `>`, and a reference to `;`.
each_cut() {
  local count at=0 begun= character inside
  for ((count = 0; count < ${#2}; count++)); do
    first_bytes "$2" "$at"
    case $1 in
      to-xml*) refuses "$1" "$prefix" 1 "input: foreign after $count symbols"$'\n' ;;
      to-text*) refuses "$1" "$prefix" 4 "input: character ${begun:-$count}: not XML"$'\n' ;;
    esac
    character=${2:count:1}
    measure "$character"
    for ((inside = 1; inside < bytes; inside++)); do
      first_bytes "$2" $((at + inside))
      refuses "$1" "$prefix" 4 "input: byte $at: not UTF-8"$'\n'
    done
    case $character in
      '<' | '&') begun=$count ;;
      '>' | ';') begun= ;;
    esac
    at=$((at + bytes))
  done
}

shows 'each prefix of a text is viable, and the line feed at its end can be left out'
each_cut 'to-xml @leiden' "${leiden_text%$'\n'}"
gives 'to-xml @leiden' "${leiden_text%$'\n'}" "$leiden_xml"

shows 'each prefix of XML ends after its last piece, and the line feed at its end can be left out'
each_cut 'to-text @leiden' "${leiden_xml%$'\n'}"
gives 'to-text @leiden' "${leiden_xml%$'\n'}" "$leiden_text"

shows 'each prefix of XML with references and comments'
each_cut 'to-text @leiden' "$leiden_xml_otherwise"
gives 'to-text @leiden' "$leiden_xml_otherwise" "$leiden_text"

shows 'each prefix of an element of letters'
element='<s>aa</s>'
places=(0 0 0 3 4 5 5 5 5)
for length in "${!places[@]}"; do
  refuses 'to-text letters' "${element:0:length}" 4 \
    "input: character ${places[length]}: not XML"$'\n'
done
gives 'to-text letters' "$element" aa

# read_inside PREFIX: a prefix of the sheet that ends inside a line is refused; where that is at a
# place, it stands in the prefix, and not before that of a shorter one, which is kept in `least`.
read_inside() {
  local line place
  printf %s "$1" >"$room/cut"
  ran 'upgrade cut' ''
  IFS= read -r line <"$room/.notes"
  place=$least
  if [[ $line =~ ^'sheet: byte '([0-9]+)': not expected here'$ ]]; then
    place=${BASH_REMATCH[1]}
  fi
  [ "$status" = 2 ] && [ "$least" -le "$place" ] && [ "$place" -le "${#1}" ]
  is $? "upgrade of the first ${#1} bytes" ''
  least=$place
}

# read_lines PREFIX LINES: a prefix of the sheet that ends with a line, with or without its line
# feed, is refused as its lines are. Up to line 12 there is no production, and from line 37 on each
# nonterminal has one. `lines`, `line`, `k`, `w`, `u` and `mark` have their first productions on
# lines 14, 16, 19, 25, 31 and 37, and stand in earlier ones on lines 13, 14, 16, 17, 18 and 21.
read_lines() {
  local line
  printf %s "$1" >"$room/cut"
  if [ "$2" -ge 37 ]; then
    ran 'upgrade cut' ''
    [ "$status" = 0 ] && [ ! -s "$room/.notes" ]
    is $? "upgrade of the first $2 lines" ''
  elif [ "$2" -le 12 ]; then
    refuses 'upgrade cut' '' 2 $'sheet: line 3: start is not a nonterminal\n'
  else
    case $2 in
      13) line=13 ;;
      1[45]) line=14 ;;
      1[678]) line=16 ;;
      19 | 2[0-4]) line=17 ;;
      2[5-9] | 30) line=18 ;;
      *) line=21 ;;
    esac
    refuses 'upgrade cut' '' 2 "sheet: line $line: name not defined"$'\n'
  fi
}

shows 'each prefix of the shipped sheet'
least=0 lines=0 before=
read_inside ''
while IFS= read -r line; do
  lines=$((lines + 1))
  for ((length = 1; length < ${#line}; length++)); do
    read_inside "$before${line:0:length}"
  done
  for prefix in "$before$line" "$before$line"$'\n'; do
    if [ "$lines" -lt 3 ]; then
      read_inside "$prefix"
    else
      read_lines "$prefix" "$lines"
    fi
  done
  before=$prefix
done < <("$program" sheet </dev/null)
[ "$lines" = 45 ]
is $? sheet ''
