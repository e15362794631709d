# Outlines of trees, and the documents that are made of them.

shows 'an outline and the documents of the same tree'
gives 'to-tree pair text' '(3,7)' $'0 tree 1\n1 a "3"\n1 b "7"\n'
gives 'to-tree pair xml' '<p><y>7</y><x>3</x></p>' $'0 tree 1\n1 a "3"\n1 b "7"\n'
gives 'from-tree pair xml' $'0 tree 1\n1 b "7"\n1 a "3"' $'<p><y>7</y><x>3</x></p>\n'
gives 'from-tree pair text' $'0 tree 1\n1 b "7"\n1 a "3"' '(3,7)'
gives 'to-tree nested text' '(a)' $'0 tree 2\n1 x 1\n'
gives 'from-tree nested text' $'0 tree 2\n1 x 1\n' '(a)'

shows 'one byte order mark before an outline is dropped'
gives 'from-tree nested text' $'\xef\xbb\xbf0 tree 1\n' a

shows 'an outline leaves ignorables out, and they are written in their normal spelling'
gives 'to-tree spaced text' '( 3, 7)' $'0 tree 1\n1 a "3"\n1 b "7"\n'
gives 'from-tree spaced text' $'0 tree 1\n1 a "3"\n1 b "7"\n' '(3,7)'

shows 'outlines that are refused'
refuses 'from-tree pair text' $'0 tree 1\n1 a "x"\n' 11 $'outline: line 2: not expected here\n'
refuses 'from-tree pair text' $'0 tree 1\n1 a "3"\n' 11 $'outline: line 3: not expected here\n'
refuses 'from-tree pair text' $'0 tree 1\n1 a "3"\n1 a "4"\n' \
  11 $'outline: line 3: not expected here\n'
refuses 'from-tree pair text' '(3,7)' 11 $'outline: line 1: not expected here\n'
refuses 'from-tree pair text' $'\xff' 4 $'input: byte 0: not UTF-8\n'
refuses 'from-tree pair text' $'0 tree 9\n\xff' 4 $'input: byte 9: not UTF-8\n'

# comes_back SHEET TEXT: the text and its XML have one outline, of which the XML is made again, and
# the text as `round` writes it.
comes_back() {
  local xml normal outline
  keeps xml "to-xml $1" "$2"
  keeps normal "round $1 text" "$2"
  keeps outline "to-tree $1 text" "$2"
  gives "to-tree $1 xml" "$xml" "$outline"
  gives "from-tree $1 text" "$outline" "$normal"
  gives "from-tree $1 xml" "$outline" "$xml"
}

shows 'documents come back from their outlines'
for name in bibliography dates line moves outline settings table; do
  sheet "$name" <"../examples/$name.xsugar"
  IFS= read -r -d '' text <"../examples/$name.txt"
  comes_back "$name" "$text"
done

shows 'a text of the shipped sheet comes back from its outline'
comes_back @leiden "$leiden_text"
