# Documents and sheets that are long or deep, up to their limits and beyond.

shows 'a hundred thousand parentheses nest'
text=$(nest 100000)
xml=$(copies '<s>' 100000)'<a/>'$(copies '</s>' 100000)$'\n'
gives 'to-xml nested' "$text" "$xml"
gives 'to-text nested' "$xml" "$text"

shows 'long lists are translated and back'
text=$(copies a 100000)
xml='<s>'$(copies '<a/>' 100000)$'</s>\n'
gives 'to-xml left' "$text" "$xml"
gives 'to-text left' "$xml" "$text"
text=$(copies a 2000)
xml='<s>'$(copies '<a/>' 2000)$'</s>\n'
gives 'to-xml right' "$text" "$xml"
gives 'to-text right' "$xml" "$text"

shows 'a document has 1,048,576 bytes at most'
text=$(copies a 1048576)
xml="<s>$text</s>"$'\n'
gives 'to-xml letters' "$text" "$xml"
refuses 'to-text letters' "$xml" 7 $'input: more than 1048576 bytes\n'
refuses 'to-xml letters' "${text}a" 7 $'input: more than 1048576 bytes\n'

shows '64 elements at most stand inside each other in a production'
# deep COUNT: makes the sheet deep, whose production has that many.
deep() {
  printf 'xsugar-1\nstart s\ns : = %s%s\n' "$(copies '<e>' "$1")" "$(copies '</e>' "$1")" |
    sheet deep
}
deep 64
gives 'to-xml deep' '' "$(copies '<e>' 63)<e/>$(copies '</e>' 63)"$'\n'
deep 65
refuses 'to-xml deep' '' 2 $'sheet: byte 215: not expected here\n'

shows 'a sheet has 65,536 bytes at most'
# filled COUNT: makes the sheet filled, whose 28 bytes are followed by a comment of that many.
filled() {
  printf 'xsugar-1\nstart s\ns : = <s/>\n%s' "$(copies '#' "$1")" | sheet filled
}
filled 65508
gives 'to-xml filled' '' $'<s/>\n'
filled 65509
refuses 'to-xml filled' '' 2 $'sheet: more than 65536 bytes\n'
