# Leiden+ that editors type: the rows and the texts of docs/leiden_plus.md both ways, each production
# at work, and lines with slips, each refused at its place. As few runs as can be, since each checks
# the sheet.

page=../docs/leiden_plus.md
cp ../examples/leiden_plus.xsugar "$room"

# rows_of HEADING: the text and the XML, parted by a tab, of each row of the page's tables so headed.
rows_of() {
  awk -v head="| $1 | EpiDoc | |" '$0 == head {on = 1; next} !/^\|/ {on = 0} on' "$page" |
    sed -nE 's/\\\|/\x01/g
      s/^\| ``(.*)`` \| `([^`]*)` \|[^|]*\|$/\1\t\2/
      s/^\| `([^`]*)` \| `([^`]*)` \|[^|]*\|$/\1\t\2/
      s/\x01/|/g
      /\t/p'
}

# agree COMMAND INPUT WANTED: the run ends well, and each line that it writes is that of WANTED.
agree() {
  local -a got wanted
  local line
  ran "$1" "$2"
  [ "$status" = 0 ] && cmp -s "$room/.out" <(printf %s "$3")
  is $? "$1" "$2"
  mapfile -t got <"$room/.out"
  mapfile -t wanted < <(printf %s "$3")
  for line in "${!wanted[@]}"; do
    [ "${got[line]-}" = "${wanted[line]}" ]
    is $? "$1" "${wanted[line]}"
  done
}

# both TEXT XML: the text becomes the XML, and the XML the text.
both() {
  agree 'to-xml leiden_plus.xsugar' "$1" "$2"
  agree 'to-text leiden_plus.xsugar' "$2" "$1"
}

shows 'the rows of the page, as lines of one block'
text=$'<=\n' xml=$'<ab>\n' number=0
while IFS=$'\t' read -r left right; do
  number=$((number + 1))
  text+="$number. $left"$'\n'
  xml+="<lb n=\"$number\"/>$right"$'\n'
done < <(rows_of 'In a line')
[ "$number" -ge 78 ]
is $? 'the rows that the page has' "$number"
while IFS=$'\t' read -r left right; do
  text+=$left$'\n'
  xml+=$right$'\n'
done < <(rows_of 'A line')
both "$text=>"$'\n' "$xml</ab>"$'\n'

shows 'the texts of the page'
# an indented block that begins as a text does is one, and the next is its XML
text= block=
while IFS= read -r line; do
  if [[ $line == '    '* ]]; then
    block+=${line:4}$'\n'
    continue
  fi
  case $block in
    '<='* | '<S='*) text=$block ;;
    '<ab>'* | '<div'*) both "$text" "$block" ;;
  esac
  block=
done <"$page"

shows 'a letter with its dot below in one character is unclear in NFD, and foreign as it is'
text=$'<=\n1. \u1ea1 [\u1fe6]\n=>\n'
gives 'to-xml leiden_plus.xsugar nfd' "$text" \
  $'<ab>\n<lb n="1"/><unclear>a</unclear> <supplied reason="lost">\u03c5\u0342</supplied>\n</ab>\n'
refuses 'to-xml leiden_plus.xsugar' "$text" 1 $'input: foreign after 6 symbols\n'

# asked SCRIPT: what a session of the sheet answers, in `answers`, a line each.
asked() {
  keeps answered 'session leiden_plus.xsugar' "$1"
  mapfile -t answers < <(printf %s "$answered")
}

shows 'each production has a smallest text, whose tree has it'
keeps covered 'cover leiden_plus.xsugar' ''
script= length=0 uses=()
while read -r line; do
  case $line in
    production*) number=${line#production } number=${number%%:*} ;;
    text*)
      line=${line#text }
      script+="put 0 $length $line"$'\n'tree$'\n'
      uses+=("$number")
      line=$(sed -E 's/\\u\{[0-9a-f]+\}/x/g' <<<"$line")
      length=$((${#line} - 2))
      ;;
  esac
done <<<"$covered"
[[ $covered == *$'\n'"${#uses[@]} of ${#uses[@]} reachable"$'\n' ]]
is $? 'cover leiden_plus.xsugar' ''
asked "$script"
for use in "${!uses[@]}"; do
  [[ ${answers[2 * use + 1]} == *"(${uses[use]}"[' )']* ]]
  is $? session "${uses[use]}"
done

# Documents with slips: all are put into one session. `places` has the length of each one's longest
# front that begins a text of the sheet.
script= length=0 places=() documents=()

# document FRONT REST: a text; no text of the sheet begins with FRONT and the first symbol of REST.
document() {
  local quoted=$1$2
  documents+=("$quoted")
  places+=("${#1}")
  quoted=${quoted//\\/\\\\} quoted=${quoted//\"/\\\"} quoted=${quoted//$'\n'/\\n}
  script+="put 0 $length \"$quoted\""$'\n'tree$'\n'
  length=$((${#1} + ${#2}))
}

# slip FRONT REST: a line of a block; where REST is empty, it is the line's end that may not come.
slip() { document $'<=\n1. '"$1" "$2"$'\n=>\n'; }

# unclosed LINE: a line with a mark that may go on in the next line, but not past the block's end.
unclosed() { document $'<=\n1. '"$1"$'\n' $'=>\n'; }

# marks that are not closed
unclosed '[αβ'
unclosed '<αβ'
unclosed '{αβ'
unclosed '〚αβ'
unclosed '"αβ'
unclosed '\αβ'
unclosed '||left:αβ'
unclosed '¯αβ'
unclosed '|_αβ'
unclosed '~|di emu'
unclosed '(ἔτ(ους)'
unclosed '(ἔτ(ους'
unclosed '<:x|corr|y'
slip '//αβ' ''
slip '|^αβ' ''
slip '~||αβ' ''
slip '<#α=1' ''
slip '[.3' ''
slip '*stauros' ''
slip '/*sic' ''

# marks that are not opened, and marks that cross
slip 'αβ' ']'
slip 'αβ' ')'
slip 'αβ' '>'
slip 'αβ' '〛'
slip '[α{β' ']}'
slip '(ἔτ[ους' ')]'
slip '〚[αβ' '〛]'

# Leiden on paper
slip '(αβ' ')'
slip 'ἔτ(ους' ')'
slip '[' ']'
slip '[ ' ']'
slip '[' '---]'
slip '[' '3]'
# a gap may come after [. and after the second full stop
slip '[.' '..]'
slip 'αβ..' '.'
slip 'αβ .' ' . γ'
slip 'α' '!'
slip 'α' '?'
slip 'α' '-β'

# gaps
slip 'αβ.3-' 'γ'
# a full stop may come after a gap
slip '.3.' '4'
slip 'bacca.' '3'
slip 'ca.' '?'
slip 'vac.' '0'
# a letter may come, since it could have a dot below
slip 'vac.3b' 'us'
slip 'lost.3' ''
slip 'lost.3line' 's'
# it could be .2lin
slip '.2li' 'b'
slip '[α.' '3]'
slip '[ca.3' ' α]'
slip 'α 1' '.5'
slip 'αβ' '3γδ'
slip 'ca' '3'
slip 'ca. ' '3'
slip 'αβ vac. ' '3'
slip 'lost ' '3lin'

# numbers and corrections
slip '<#' '=1#>'
slip '<#α' '#>'
slip '<#α=' 'x#>'
slip '<#α=1-' '#>'
slip '<#α=1/' '0#>'
slip '<:x|cor' '|y:>'
slip '<:x|corr|y' '>'
# the colon could be text
slip '<:x|corr|:' '>'
slip '<:x=' '1.19|ed|y:>'
slip '<:x=grc|' 'corr|y:>'

# words that marks end or begin with
slip '||le' 'aft:αβ||'
slip '||left' 'αβ||'
slip '||' 'above:αβ||'
slip '$' 'M2 αβ'
slip '$m2' 'αβ'
slip '*' 'Stauros*'
slip '*x?' ' *'
slip '~|di emu|~' 'La αβ'
slip '~|di emu|~la' ''
slip '~||αβ||~t' 'iny '
slip '#drawing' ''

# lines, blocks and parts
document $'<=\n' $'αβ\n=>\n'
document $'<=\n' $'=>\n'
document $'<=\n1' $' αβ\n=>\n'
document $'<=\n1.' $'αβ\n=>\n'
document $'<=\n1. αβ\n' $'γδ\n=>\n'
document $'<=\n1. αβ\n' ''
document $'<=\n1. αβ\n=>\n' $'<=\n2. γδ\n=>\n'
document '<' $'D=.r\n'
document '<S=.' $'GRC\n'
document $'<S=.grc\n' $'1. αβ\n=S>\n'
document $'<S=.grc\n<D=.r\n' $'=D>\n=S>\n'
document $'<S=.grc\n<=\n1. αβ\n=>\n' ''

shows 'a slip is refused, at its place'
asked "$script"
for slip in "${!places[@]}"; do
  [ "${answers[2 * slip + 1]}" = "foreign ${places[slip]}" ]
  is $? "session: foreign ${places[slip]}, not ${answers[2 * slip + 1]}" "${documents[slip]}"
done
