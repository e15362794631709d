# Documents that are translated, and what else a document is answered by.

# translates SHEET TEXT XML: the text and the XML become each other; `round` keeps each as it is.
translates() {
  gives "to-xml $1" "$2" "$3"
  gives "to-xml $1 nfc" "$2" "$3"
  gives "round $1 text" "$2" "$2"
  gives "round $1 text nfd" "$2" "$2"
  gives "to-text $1" "$3" "$2"
  gives "round $1 xml" "$3" "$3"
}

shows 'each text is translated and back'
translates pair '(3,7)' $'<p><y>7</y><x>3</x></p>\n'
translates empty '' $'<s/>\n'
translates letters aa $'<s>aa</s>\n'
translates value $'a\tb\n"<' $'<s a="a&#x9;b&#xA;&quot;&lt;"/>\n'
translates content $']]>\r\n' $'<s>]]&gt;&#xD;\n</s>\n'
translates nested '((a))' $'<s><s><a/></s></s>\n'
translates left aaa $'<s><a/><a/><a/></s>\n'
translates right aaa $'<s><a/><a/><a/></s>\n'

shows 'one byte order mark before a document is dropped'
gives 'to-xml pair' $'\xef\xbb\xbf(3,7)' $'<p><y>7</y><x>3</x></p>\n'
gives 'to-text pair' $'\xef\xbb\xbf<p><y>7</y><x>3</x></p>' '(3,7)'

shows 'normal forms are put on texts'
# the letter a with a dot below as one character and as two
one=$'\u1ea1'
apart=$'a\u0323'
gives 'round content text' "$one" "$one"
gives 'round content text' "$apart" "$apart"
gives 'round content text asis' "$one" "$one"
gives 'round content text asis' "$apart" "$apart"
gives 'round content text nfc' "$one" "$one"
gives 'round content text nfc' "$apart" "$one"
gives 'round content text nfd' "$one" "$apart"
gives 'round content text nfd' "$apart" "$apart"

shows 'ignorables are written in their normal spelling'
gives 'round spaced text' '(3,7)' '(3,7)'
gives 'round spaced text' '( 3 , 7 )' '(3,7)'
gives 'round spaced text' '(3,   7)' '(3,7)'
gives 'to-xml spaced' '( 3,7 )' $'<p><y>7</y><x>3</x></p>\n'
gives 'trees spaced 9' '(3, 7)' $'(1 ~"" a:"3" ~"" ~" " b:"7" ~"")\n1 trees, no more\n'

shows 'XML is written in its normal spelling'
gives 'round letters xml' '<?xml version="1.0"?><s><![CDATA[a]]>&#97;</s><!-- x -->' $'<s>aa</s>\n'
gives 'round letters xml' '<s></s>' $'<s/>\n'
gives 'round letters xml' '<s><!-- none --></s>' $'<s/>\n'
gives 'round letters xml' $' \r\n<s>a</s >\n' $'<s>a</s>\n'

shows 'trees are listed'
five='(1 a:(1 a:(1 a:(2) b:(2)) b:(2)) b:(2))
(1 a:(1 a:(2) b:(1 a:(2) b:(2))) b:(2))
(1 a:(1 a:(2) b:(2)) b:(1 a:(2) b:(2)))
(1 a:(2) b:(1 a:(1 a:(2) b:(2)) b:(2)))
(1 a:(2) b:(1 a:(2) b:(1 a:(2) b:(2))))
5 trees, no more
'
gives 'trees twins 1000' aaaa "$five"
gives 'trees twins 5' aaaa "$five"
gives 'trees empty 1' '' $'(1)\n1 trees, no more\n'
gives 'trees pair 9' '(3,7)' $'(1 a:"3" b:"7")\n1 trees, no more\n'

shows 'no more trees are listed than were asked for'
# four of the five, in lines of their own
keeps four 'trees twins 4' aaaa
[ "$(printf %s "$four" | grep -xF "$five" | sort -u | wc -l)" = 4 ] &&
  [ "$(printf %s "$four" | wc -l)" = 5 ] && [[ $four == *$'\n4 trees, more\n' ]]
is $? 'trees twins 4' aaaa
