# How a sheet is cut into tokens, and at which of them it is refused.

shows 'each kind of token is read'
printf %s 'xsugar-1 start a-1 terminal t=/a\//a-1:"\""[t b]=<x:y>[t b]<c/></x:y>' | sheet kinds
gives 'to-xml kinds' '"a/' $'<x:y>a/<c/></x:y>\n'
gives 'upgrade kinds' '' 'xsugar-2
start a-1
terminal t = /a\//
a-1 : "\"" [ t b ] = < x:y > [ t b ] < c /> </ x:y >
'

shows 'the longest token is read'
ill $'sheet: byte 31: not expected here\n' \
  $'xsugar-1\nstart s\nterminal t=/</>'
ill $'sheet: byte 24: not expected here\n' \
  $'xsugar-1\nstart s\ns:=<a/>/</>'
ill $'sheet: byte 20: not expected here\n' \
  $'xsugar-1\nstart s\ns:=b:c:d'
ill $'sheet: byte 24: not expected here\n' \
  $'xsugar-1\nstart s\ns:=<b:c:d/>'

# A mark of byte order, a comment that ends with é, and a Greek name.
shows 'places are counted in bytes, and lines from the first one'
ill $'sheet: byte 9: not expected here\n' \
  $'\xef\xbb\xbf# \xc3\xa9\n \xe1\xbc\x94\n"a'
ill $'sheet: byte 27: not expected here\n' \
  $'\xef\xbb\xbf# \xc3\xa9\nxsugar-1 start \xe1\xbc\x94\n"a'
ill $'sheet: line 2: start is not a nonterminal\n' \
  $'\xef\xbb\xbf# \xc3\xa9\nxsugar-1 start \xe1\xbc\x94\n'

shows 'a byte that is no text is no token, in a comment either'
ill $'sheet: byte 31: not expected here\n' \
  $'xsugar-1\nstart s\ns : = <s/> # b\xff c\n'

shows 'escapes in a string are characters'
printf %s 'xsugar-1 start s s:"\"\\\n\t\r\u{3b1}\u{A}z"=<s/>' | sheet escapes
gives 'to-text escapes' '<s/>' $'"\\\n\t\r\u03b1\nz'

# More of them stand in sheets.sh; that elements stand 64 deep is shown in limits.sh.
shows 'a sheet is refused at the first token that no sheet has there'
ill $'sheet: byte 0: not expected here\n' \
  $'xsugar-3\nstart s\n'
ill $'sheet: byte 15: not expected here\n' \
  $'xsugar-1\nstart fence\n'
ill $'sheet: byte 28: not expected here\n' \
  $'xsugar-1\nstart s\ns : = <a></b>\n'
ill $'sheet: byte 28: not expected here\n' \
  $'xsugar-1\nstart s\ns : = <a b=/>\n'
ill $'sheet: line 2: start is not a nonterminal\n' \
  $'xsugar-1\nstart s'
ill $'sheet: byte 14: not expected here\n' \
  $'xsugar-1\nstart'
