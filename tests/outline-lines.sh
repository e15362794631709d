# Outlines that are refused at a line, and spellings of others.

# refused SHEET LINE OUTLINE: the outline is refused at this line, counted from 1.
refused() { refuses "from-tree $1 text" "$3" 11 "outline: line $2: not expected here"$'\n'; }

shows 'outlines of pairs are refused at a line'
# the production has the slots a and b, each for a digit
# no line, and an empty one
refused pair 1 ''
refused pair 1 $'\n'
# a root that is none
refused pair 1 $'1 tree 1\n1 a "3"\n1 b "7"\n'
refused pair 1 $'0 node 1\n1 a "3"\n1 b "7"\n'
refused pair 1 $'0 tree "3"\n'
# no such production
refused pair 1 $'0 tree 0\n1 a "3"\n1 b "7"\n'
refused pair 1 $'0 tree 2\n1 a "3"\n1 b "7"\n'
# a leading zero
refused pair 1 $'0 tree 01\n1 a "3"\n1 b "7"\n'
refused pair 1 $'00 tree 1\n1 a "3"\n1 b "7"\n'
# a depth too great, and one too small
refused pair 2 $'0 tree 1\n2 a "3"\n1 b "7"\n'
refused pair 2 $'0 tree 1\n0 a "3"\n1 b "7"\n'
# a child twice, a child missing at the end, and both
refused pair 3 $'0 tree 1\n1 a "3"\n1 a "4"\n1 b "7"\n'
refused pair 2 $'0 tree 1\n'
refused pair 3 $'0 tree 1\n1 a "3"\n'
refused pair 3 $'0 tree 1\n1 a "3"'
refused pair 3 $'0 tree 1\n1 a "3"\n1 a "4"\n'
# no such slot
refused pair 2 $'0 tree 1\n1 c "3"\n1 b "7"\n'
refused pair 2 $'0 tree 1\n1 tree "3"\n1 b "7"\n'
# a word that the terminal does not match, and a node in place of a word
refused pair 2 $'0 tree 1\n1 a "x"\n1 b "7"\n'
refused pair 3 $'0 tree 1\n1 a "3"\n1 b ""\n'
refused pair 2 $'0 tree 1\n1 a 1\n1 b "7"\n'
# quotes and spaces
refused pair 2 $'0 tree 1\n1 a "3\n1 b "7"\n'
refused pair 2 $'0 tree 1\n1 a 3"\n1 b "7"\n'
refused pair 2 $'0 tree 1\n1 a "\\3"\n1 b "7"\n'
refused pair 1 $'0  tree 1\n1 a "3"\n1 b "7"\n'
refused pair 2 $'0 tree 1\n1  a "3"\n1 b "7"\n'
refused pair 2 $'0 tree 1\n1 a  "3"\n1 b "7"\n'
refused pair 2 $'0 tree 1\n1 a "3" \n1 b "7"\n'
refused pair 1 $'0 tree 1 \n1 a "3"\n1 b "7"\n'
refused pair 1 $' 0 tree 1\n1 a "3"\n1 b "7"\n'
refused pair 1 $'0 tree 1\r\n1 a "3"\n1 b "7"\n'
# an empty line, and text after the tree
refused pair 2 $'0 tree 1\n\n1 a "3"\n1 b "7"\n'
refused pair 4 $'0 tree 1\n1 a "3"\n1 b "7"\n\n'
refused pair 4 $'0 tree 1\n1 a "3"\n1 b "7"\n0 tree 1\n'
refused pair 4 $'0 tree 1\n1 a "3"\n1 b "7"\n1 a "3"\n'
# the first of two lines that are bad
refused pair 2 $'0 tree 1\n1 a "x"\n1 c "y"\n'

# A node and a leaf, where productions 1 and 2 are of different nonterminals.
sheet nodes <<'END'
xsugar-1
start s
terminal d = /[0-9]/
s : [n x] [d y] = <s>[n x]<y>[d y]</y></s>
n : "(" [d z] ")" = <n>[d z]</n>
END

shows 'outlines of nodes are refused at a line'
# the inner node has the slot z
# a child missing in the middle, where the next line is of the node around it
refused nodes 3 $'0 tree 1\n1 x 2\n1 y "2"\n2 z "1"\n'
refused nodes 4 $'0 tree 1\n1 y "2"\n1 x 2\n'
# a child after the rest of its node
refused nodes 4 $'0 tree 1\n1 x 2\n2 z "1"\n2 z "1"\n1 y "2"\n'
# a node of another nonterminal, and one that is not of the start
refused nodes 2 $'0 tree 1\n1 x 1\n2 z "1"\n1 y "2"\n'
refused nodes 1 $'0 tree 2\n1 z "1"\n'
# a word in place of a node
refused nodes 2 $'0 tree 1\n1 x "(1)"\n1 y "2"\n'
# a slot of the node around it
refused nodes 3 $'0 tree 1\n1 x 2\n2 y "1"\n1 y "2"\n'

# spells SHEET TEXT OUTLINE SPELLING..: the outline and its other spellings are those of the text's
# tree, and the outline is as it is written.
spells() {
  local spelling
  for spelling in "${@:3}"; do
    gives "from-tree $1 text" "$spelling" "$2"
  done
  gives "to-tree $1 text" "$2" "$3"
}

shows 'the children of a node have any order, strings any escapes, and the last line an end or none'
spells pair '(3,7)' $'0 tree 1\n1 a "3"\n1 b "7"\n' \
  $'0 tree 1\n1 a "3"\n1 b "7"' \
  $'0 tree 1\n1 b "7"\n1 a "3"\n' \
  $'0 tree 1\n1 b "7"\n1 a "3"' \
  $'0 tree 1\n1 a "\\u{33}"\n1 b "\\u{000037}"\n'
spells nodes '(1)2' $'0 tree 1\n1 x 2\n2 z "1"\n1 y "2"\n' \
  $'0 tree 1\n1 y "2"\n1 x 2\n2 z "1"'
