# The one layout in which sheets are written. An upgrade writes a sheet so, in version 2; no sheet
# here has brackets that can be fences.

# written SHEET LAYOUT: the sheet is written in this layout, and so is the layout itself.
written() {
  local each
  for each; do
    printf %s "$each" >"$room/any"
    gives 'upgrade any' '' "$2"
  done
}

shows 'sheets are written in one layout'
written 'xsugar-1 start s s:=<s/>' \
  $'xsugar-2\nstart s\ns : = < s />\n'
written $'\ufeff# nothing\r\nxsugar-1\tstart\r\n\ns s:=<s/>#' \
  $'xsugar-2\nstart s\ns : = < s />\n'
written 'xsugar-1 start s s:=<s/>terminal d=/[0-9]/terminal e = / +\/\u{41}#/' \
  $'xsugar-2\nstart s\ns : = < s />\nterminal d = /[0-9]/\nterminal e = / +\\/\\u{41}#/\n'
written 'xsugar-1 start s s:=<s/>ignorable w=/ */""t:[w]=' \
  $'xsugar-2\nstart s\ns : = < s />\nignorable w = / */ ""\nt : [ w ] =\n'
written 'xsugar-1 start s s:=<s/>terminal d=/0/ignorable w=/ */""t:"("[d a][w]=[w]"x"[d a]' \
  'xsugar-2
start s
s : = < s />
terminal d = /0/
ignorable w = / */ ""
t : "(" [ d a ] [ w ] = [ w ] "x" [ d a ]
'

shows 'elements are written in one layout'
written $'xsugar-1\nstart s\ns:=<s/>t:=<p/><x:p></x:p>' \
  $'xsugar-2\nstart s\ns : = < s />\nt : = < p /> < x:p />\n'
written $'xsugar-1\nstart s\ns:=<s/>t:=<a.b><c-1/><d>"x"</d></a.b>"y"' \
  $'xsugar-2\nstart s\ns : = < s />\nt : = < a.b > < c-1 /> < d > "x" </ d > </ a.b > "y"\n'
written $'xsugar-1 start s terminal d=/0/s:[d a][d b][d c]=<p x:n="a"[d a]"b"m=[d c]>[d b]</p>' \
  'xsugar-2
start s
terminal d = /0/
s : [ d a ] [ d b ] [ d c ] = < p x:n = "a" [ d a ] "b" m = [ d c ] > [ d b ] </ p >
'

# string STRING WRITTEN: between quotation marks the one is written as the other.
string() {
  written $'xsugar-1\nstart s\ns : "'"$1"$'" = <s/>\n' \
    $'xsugar-2\nstart s\ns : "'"$2"$'" = < s />\n'
}

# fence LEFT RIGHT WRITTEN WRITTEN: the same of the two strings of a fence, which can be characters
# that XML does not have.
fence() {
  written $'xsugar-2\nstart s\ns : = <s/>\nfence "'"$1\" \"$2"$'"\n' \
    $'xsugar-2\nstart s\ns : = < s />\nfence "'"$3\" \"$4"$'"\n'
}

shows 'strings are written with their escapes'
string '\"\\\n\t\r' '\"\\\n\t\r'
string $'\t\r \x7f' '\t\r \u{7f}'
fence $'\x01' $'\x7f' '\u{1}' '\u{7f}'
fence '\u{00001F}' '\u{0}' '\u{1f}' '\u{0}'
string '\u{A}' '\n'
string '\u{E9}\u{2019}\u{10FFFF}/' $'\u00e9\u2019\U0010ffff/'
string $'\u0080\u00a0#~' $'\u0080\u00a0#~'
