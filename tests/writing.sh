# How XML is written, and where the children of a tree stand in it.

shows 'an element without content is one tag'
gives 'to-xml empty' '' $'<s/>\n'
gives 'to-xml value' '' $'<s a=""/>\n'

shows 'elements stand in each other'
gives 'to-xml pair' '(3,7)' $'<p><y>7</y><x>3</x></p>\n'

shows 'four characters are escaped in content'
gives 'to-xml content' $']]>\r\n' $'<s>]]&gt;&#xD;\n</s>\n'
gives 'to-xml content' $'a&b<c>d\r' $'<s>a&amp;b&lt;c&gt;d&#xD;</s>\n'

shows 'seven characters are escaped in a value'
gives 'to-xml value' $'a\tb\n"<' $'<s a="a&#x9;b&#xA;&quot;&lt;"/>\n'
gives 'to-xml value' $'a&b>c\r' $'<s a="a&amp;b&gt;c&#xD;"/>\n'

shows 'other characters are written as they are'
kept=$' !#$%\'()*+,-./09:;=?@AZ[\\]^_`az{|}~\x7f\u0080\u0085\u00a0\u2028\ufffd\U00010000\U0010ffff'
gives 'to-xml content' $'\t\n"'"$kept" $'<s>\t\n"'"$kept"$'</s>\n'
gives 'to-xml value' "$kept" "<s a=\"$kept\"/>"$'\n'

# Two attributes and content, with strokes between them.
sheet attributes <<'END'
xsugar-1
start s
terminal v = /[^|]*/
s : [v a] "|" [v b] "|" [v x] = <s b=[v b] a=[v a]>[v x]</s>
END

shows 'attributes stand before content, in the order of the bytes of their names'
gives 'to-xml attributes' $'\r||\ufeff\U0001d538' $'<s a="&#xD;" b="">\ufeff\U0001d538</s>\n'
gives 'to-xml attributes' '1|2|' $'<s a="1" b="2"/>\n'

# In XML a pair has its second child first, and spaces between them, which are one space in their
# normal spelling.
sheet spacing <<'END'
xsugar-1
start s
terminal d = /[0-9]/
ignorable k = / */ " "
p : [d a] [k] [n b] = [n b] [k] [d a]
n : [d a] = [d a]
s : [p a] = <s>[p a]</s>
END

shows 'children are written where their items stand'
gives 'to-xml spacing' 73 $'<s>3 7</s>\n'
gives 'to-xml spacing' '7  3' $'<s>3 7</s>\n'
gives 'to-text spacing' '<s>37</s>' '7 3'

shows 'a part that a tree has many times is written each time'
# n10 has n9 twice, and so on down to n0, a letter
{
  printf 'xsugar-1\nstart s\ns : [n10 x] = <s>[n10 x]</s>\nn0 : "a" = "a"\n'
  for number in {1..10}; do
    part=n$((number - 1))
    echo "n$number : [$part a] [$part b] = [$part a] [$part b]"
  done
} | sheet doubled
letters=$(copies a 1024)
gives 'cover doubled' '' "$(
  for number in {1..12}; do
    printf 'production %d: size 2050\ntext "%s"\nxml "<s>%s</s>"\n' "$number" "$letters" "$letters"
  done
)"$'\n12 of 12 reachable\n'
