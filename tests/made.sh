# The first shipped sheet, and the summary of a text that is made.

shows 'the sheet has 2,438 bytes'
ran sheet ''
[ "$(wc -c <"$room/.out")" -eq 2438 ]
is $? sheet ''

shows 'a text of one line is reported with its length, and those of its XML and its outline'
text=$'<=\n1. ετους [.3] ετους .1\n=>\n'
xml=$'<ab>\n<lb n="1"/>ετους <gap quantity="3" reason="lost" unit="character"/> '
xml+=$'ετους <gap quantity="1" reason="illegible" unit="character"/>\n</ab>\n'
gives 'to-xml @leiden' "$text" "$xml"
gives 'make 1 1' '' $'make: lines 1, text 39 bytes, xml 151 bytes, tree 21 parts\n'
ran 'to-tree @leiden text' "$text"
[ "$(printf %s "$text" | wc -c),$(printf %s "$xml" | wc -c),$(wc -l <"$room/.out")" = 39,151,21 ]
is $? 'to-tree @leiden text' "$text"
