# Small sheets and documents that several tables use.

# Two digits in parentheses with a comma between them, which are the other way round in XML.
sheet pair <<'END'
xsugar-1
start s
terminal d = /[0-9]/
s : "(" [d a] "," [d b] ")" = <p><y>[d b]</y><x>[d a]</x></p>
END

# Pairs with spaces, which carry nothing, round each part.
sheet spaced <<'END'
xsugar-1
start s
terminal d = /[0-9]/
ignorable w = / */ ""
s : "(" [w] [d a] [w] "," [w] [d b] [w] ")" = <p><y>[d b]</y><x>[d a]</x></p>
END

# The empty text, which is an empty element.
sheet empty <<'END'
xsugar-1
start s
s : = <s/>
END

# A letter in any number of parentheses.
sheet nested <<'END'
xsugar-1
start s
s : "a" = <a/>
s : "(" [s x] ")" = <s>[s x]</s>
END

# Any number of letters, by a production that begins with itself.
sheet left <<'END'
xsugar-1
start s
s : [l x] = <s>[l x]</s>
l : =
l : [l x] "a" = [l x] <a/>
END

# Any number of letters, by a production that ends with itself.
sheet right <<'END'
xsugar-1
start s
s : [l x] = <s>[l x]</s>
l : =
l : "a" [l x] = <a/> [l x]
END

# Any number of letters, by one terminal.
sheet letters <<'END'
xsugar-1
start s
terminal v = /a*/
s : [v x] = <s>[v x]</s>
END

# Any characters as the value of an attribute.
sheet value <<'END'
xsugar-1
start s
terminal v = /.*/
s : [v x] = <s a=[v x]/>
END

# Any characters as content.
sheet content <<'END'
xsugar-1
start s
terminal v = /.*/
s : [v x] = <s>[v x]</s>
END

# Letters in pairs of pairs: three letters have two derivations.
sheet twins <<'END'
xsugar-1
start s
s : [s a] [s b] = <s>[s a][s b]</s>
s : "a" = <a/>
END

# Two words with nothing between them.
sheet words <<'END'
xsugar-1
start s
terminal w = /[a-z]+/
s : [w a] [w b] = <s a=[w a]>[w b]</s>
END

# A letter, which is also a word.
sheet ways <<'END'
xsugar-1
start s
terminal w = /[a-z]+/
s : "a" = <s/>
s : [w x] = <t>[w x]</t>
END

# Letters and brackets in each other.
sheet brackets <<'END'
xsugar-1
start doc
terminal c = /[a-z]/
doc : "<" [list l] ">" = <d>[list l]</d>
list : =
list : [list p] [item i] = [list p] [item i]
item : [c x] = [c x]
item : "[" [list l] "]" = <b>[list l]</b>
END

# The same with fences, in the layout in which sheets are written.
sheet fenced <<'END'
xsugar-2
start doc
terminal c = /[a-z]/
doc : "<" [ list l ] ">" = < d > [ list l ] </ d >
list : =
list : [ list p ] [ item i ] = [ list p ] [ item i ]
item : [ c x ] = [ c x ]
item : "[" [ list l ] "]" = < b > [ list l ] </ b >
fence "[" "]"
fence "<" ">"
END

# doubling LAST: a sheet in which each nonterminal up to this one is the one before it, twice.
doubling() {
  local number twice
  printf 'xsugar-1\nstart s\ns : [n%d x] = <s>[n%d x]</s>\nn0 : "a" = "a"\n' "$1" "$1"
  for ((number = 1; number <= $1; number++)); do
    twice="[n$((number - 1)) a] [n$((number - 1)) b]"
    echo "n$number : $twice = $twice"
  done
}

# A text of the shipped sheet, in which the dots below stand after their letters, and its XML.
IFS= read -rd '' leiden_text <../examples/leiden.txt
IFS= read -rd '' leiden_xml <../examples/leiden.xml

# The same document with single quotes, a reference, comments, other orders and other white space.
leiden_xml_otherwise=$'<?xml version="1.0" encoding="UTF-8"?>\r
<ab>\r
  <lb n=\'1\'/><expan>&#x1F14;τ<ex>ους</ex></expan> γ <gap unit="character" reason="lost" quantity="3"/><!-- two hands --> το<supplied reason="lost">ῦ</supplied> <gap quantity="2" unit="character" reason="illegible"></gap>  \r
   <lb n="2" break="no"/><unclear>αβ</unclear> καὶ <supplied reason="omitted">τὸ</supplied> <surplus>τὸ</surplus></ab>'
