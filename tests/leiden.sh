# The shipped sheets, and the documents of the first.

# a letter with a dot below as one character
composed=$'<=\n1. \u1ea1\n=>\n'

shows 'documents of the shipped sheet are translated'
gives 'to-xml @leiden' "$leiden_text" "$leiden_xml"
gives 'to-text @leiden' "$leiden_xml_otherwise" "$leiden_text"
gives 'round @leiden xml' "$leiden_xml_otherwise" "$leiden_xml"
gives 'round @leiden text' "$leiden_text" "$leiden_text"

shows 'in NFD a dot below is a character of its own'
gives 'to-xml @leiden nfd' "$composed" $'<ab>\n<lb n="1"/><unclear>a</unclear>\n</ab>\n'

shows 'a letter and its dot below as one character are foreign'
refuses 'to-xml @leiden' "$composed" 1 $'input: foreign after 6 symbols\n'

shows 'unclear letters side by side are one run'
refuses 'to-text @leiden' '<ab><lb n="1"/><unclear>α</unclear><unclear>β</unclear></ab>' \
  1 $'input: foreign after 9 symbols\n'

shows 'the shipped sheets are written as they stand in sheets/'
IFS= read -rd '' one <../sheets/leiden.xsugar
IFS= read -rd '' two <../sheets/leiden2.xsugar
gives sheet '' "$one"
gives 'sheet 2' '' "$two"

shows 'a long text is made twice alike'
keeps made 'make 5 2000' ''
[[ $made == 'make: lines 2000, text '* ]]
is $? 'make 5 2000' ''
gives 'make 5 2000' '' "$made"
