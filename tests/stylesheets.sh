# The sheets that docs/stylesheets.md shows: each is accepted, or refused as the block after it says.

# The page's indented blocks, which an empty line does not end, but a command does; a sheet is kept as
# the file that the text before it names last, or `sheet`, and a terminal alone as `terminal`.
name=sheet block= shown_sheet=

# ends_block: what the block that has ended says of the sheet before it, which is accepted otherwise.
ends_block() {
  case $block in
    '') return ;;
    'suspect: '*) refuses "check $shown_sheet" '' 3 "$block" ;;
    'sheet: '*) refuses "check $shown_sheet" '' 2 "$block" ;;
    *) [ -z "$shown_sheet" ] || begins_well ;;
  esac
  shown_sheet=
  case $block in
    xsugar-*) shown_sheet=$name && sheet "$name" <<<"${block%$'\n'}" ;;
    'terminal word = '*) terminal=${block%$'\n'} ;;
  esac
  block=
}

# begins_well: the sheet that was shown is accepted.
begins_well() {
  ran "check $shown_sheet" ''
  [ "$status" = 0 ] && [[ $(<"$room/.out") == 'accepted: '* ]]
  is $? "check $shown_sheet" ''
}

shows 'each sheet of the page is accepted, or refused as the page says'
while IFS= read -r line; do
  [ -n "$line" ] || continue
  if [[ $line == '    '[^x]* || $line == '    xsugar-'* ]]; then
    block+=${line:4}$'\n'
    continue
  fi
  ends_block
  if [[ $line =~ .*\`([a-z]+\.xsugar)\` ]]; then name=${BASH_REMATCH[1]}; fi
done <../docs/stylesheets.md
ends_block

shows 'text and marks take turns'
gives 'to-xml turns.xsugar' $'a *b* c\n' $'<p>a <hi>b</hi> c</p>\n'
gives 'to-text turns.xsugar' '<p>a <hi>b</hi> c</p>' $'a *b* c\n'

shows 'a word that is no keyword'
{ sed '/^terminal/d' "$room/keyword.xsugar"; echo "$terminal"; } | sheet other.xsugar
gives 'to-xml other.xsugar' $'end\n' $'<line><end/></line>\n'
for word in e en ends endend ene fend; do
  gives 'to-xml other.xsugar' "$word"$'\n' "<line><w>$word</w></line>"$'\n'
done

shows 'a text that must not end as another mark begins'
gives 'to-xml before.xsugar' $'alba.3\n' $'<line>alba<dots n="3"/></line>\n'
gives 'to-xml before.xsugar' $'abc ca.3\n' $'<line>abc <about n="3"/></line>\n'
refuses 'to-xml before.xsugar' $'abaca.3\n' 1 $'input: foreign after 5 symbols\n'
