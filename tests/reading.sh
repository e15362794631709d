# What is read of XML: the symbols of a document, or the place at which it is no XML.

# holds CHARACTERS DOCUMENT: the document is an element s with these characters and nothing else.
holds() { gives 'to-text content' "$2" "$1"; }

# breaks PLACE DOCUMENT: the document is no XML, and the longest legal list of pieces ends there.
breaks() { refuses 'to-text content' "$2" 4 "input: character $1: not XML"$'\n'; }

# strange COUNT SHEET DOCUMENT: the document is foreign after so many symbols, as by a strange name.
strange() { refuses "to-text $2" "$3" 1 "input: foreign after $1 symbols"$'\n'; }

shows 'the place of a refusal is the end of a piece'
breaks 0 '<!DOCTYPE s><s/>'
breaks 3 '<s>&nbsp;</s>'
breaks 6 '<s>a]]></s>'
breaks 0 '<s a="1" a="2"/>'
breaks 4 '<s/><s/>'
breaks 5 '<s>aa</t>'
breaks 0 ''
breaks 0 '<'
breaks 0 '<s'
breaks 3 '<s>'
breaks 4 '<s>a'
breaks 5 '<s>aa'
breaks 5 '<s>aa<'
breaks 5 '<s>aa</'
breaks 5 '<s>aa</s'
holds aa '<s>aa</s>'

shows 'pieces inside the root are read'
holds aa '<?xml version="1.0"?><s><![CDATA[a]]>&#97;</s><!-- x -->'
holds ']]>' '<s>]]&gt;</s>'
holds ']]>' '<s>]<![CDATA[]]]>></s>'
holds ']]>' '<s>]]&#62;</s>'
holds ']]>' '<s>]]<!---->></s>'
holds ']>' '<s>]></s>'
holds ']] >' '<s>]] ></s>'
breaks 6 '<s>]]]></s>'
holds $'\n\n\n' $'<s>\r\r\n\n</s>'
breaks 5 $'<s>\r\n'
holds $'<&\n\n\n' $'<s><![CDATA[<&\r\n\r]]>\n</s>'
holds ']]' '<s><![CDATA[]]]]></s>'
breaks 3 '<s><![CDATA[a]]</s>'
breaks 3 '<s><![cdata[a]]></s>'
breaks 3 $'<s><![CDATA[\x08]]></s>'
holds '' '<s><!-- a - b --></s>'
breaks 3 '<s><!-- a -- b --></s>'
breaks 3 '<s><!--a---></s>'
breaks 3 '<s><!---></s>'
breaks 3 $'<s><!--\x0b--></s>'
holds '' '<s><?a?><?a b??></s>'
holds '' '<s><?xml-a?><?xmla b?></s>'
breaks 3 '<s><?a??></s>'
breaks 3 '<s><?XML a?></s>'
breaks 3 '<s><?xMl?></s>'
breaks 3 '<s><? a?></s>'
breaks 3 '<s><?a b></s>'
breaks 3 '<s><!DOCTYPE s></s>'

shows 'references give their characters'
holds $'<>&\'"' '<s>&lt;&gt;&amp;&apos;&quot;</s>'
holds $'\t\n\r ' '<s>&#9;&#xA;&#xD;&#32;</s>'
holds $'\u00afA' '<s>&#xaF;&#000065;</s>'
breaks 3 '<s>&#8;</s>'
breaks 3 '<s>&#0;</s>'
holds $'\ud7ff' '<s>&#xD7FF;</s>'
breaks 3 '<s>&#xD800;</s>'
breaks 3 '<s>&#xDFFF;</s>'
holds $'\ue000\ufffd' '<s>&#xE000;&#xFFFD;</s>'
breaks 3 '<s>&#xFFFE;</s>'
holds $'\U00010000\U0010ffff' '<s>&#x10000;&#1114111;</s>'
breaks 3 '<s>&#1114112;</s>'
breaks 3 '<s>&#x110000;</s>'
breaks 3 '<s>&#4294967361;</s>'
breaks 3 '<s>&#x1000000000000000041;</s>'
breaks 3 '<s>&#;</s>'
breaks 3 '<s>&#x;</s>'
breaks 3 '<s>&#X41;</s>'
breaks 3 '<s>&#6a;</s>'
breaks 3 '<s>&#xg;</s>'
breaks 3 '<s>&LT;</s>'
breaks 3 '<s>& lt;</s>'
breaks 3 '<s>&lt</s>'
breaks 3 '<s>&;</s>'

# Elements s, each in parentheses, before its content in braces the value of an attribute s.
sheet marks <<'END'
xsugar-2
start s
terminal v = /[^(){}]*/
terminal c = /[^(){}]/
s : "(" [n x] ")" = <s>[n x]</s>
s : "({" [v a] "}" [n x] ")" = <s s=[v a]>[n x]</s>
n : =
n : [n x] [c y] = [n x] [c y]
n : [n x] [s y] = [n x] [s y]
fence "(" ")"
fence "{" "}"
END

shows 'tags are read'
holds '' '<s></s>'
holds '' '<s />'
holds $'\n' $'<s\n>\n</s\t>'
gives 'to-text marks' '<s><s></s>a</s>' '(()a)'
breaks 6 '<s><t></s></t>'
strange 0 content '<S/>'
strange 0 content '<x:s></x:s>'
strange 2 marks '<s>a<t>b</t></s>'
breaks 0 '< s/>'
breaks 0 '<s/ >'
breaks 3 '<s></ s>'
breaks 0 '</s>'

# Two attributes and content, with strokes between them.
sheet both <<'END'
xsugar-1
start s
terminal v = /[^|]*/
s : [v a] "|" [v b] "|" [v x] = <s s=[v a] t=[v b]>[v x]</s>
END

shows 'attributes are read'
gives 'to-text both' $'<s s="1" t=\'2\'>3</s>' '1|2|3'
strange 4 marks $'<s s="1" t=\'2\'>3</s>'
gives 'to-text marks' $'<s s = "1"\n/>' '({1})'
gives 'to-text marks' "<s s=''/>" '({})'
gives 'to-text both' $'<s s=\'"\' t="\'>]]>"/>' $'"|\'>]]>|'
strange 4 marks $'<s s=\'"\' t="\'>]]>"/>'
gives 'to-text marks' $'<s s=\'\t\n\r\n\r x\'/>' '({     x})'
gives 'to-text marks' $'<s s=\'\r&#10;&#9;&lt;\'/>' $'({ \n\t<})'
breaks 0 "<s s='1't='2'/>"
breaks 0 '<s s=1/>'
breaks 0 '<s s/>'
breaks 0 "<s s='<'/>"
breaks 0 "<s s='&'/>"
breaks 0 "<s s='&#0;'/>"
breaks 0 $'<s s=\'\x1f\'/>'
breaks 0 $'<s s=\'1"/>'
breaks 0 "<s 1='1'/>"
breaks 0 "<s t='1' s='' t='1'/>"

# Three attributes with strokes between them, and the first two of them alone.
sheet three <<'END'
xsugar-1
start s
terminal v = /[^|]*/
s : [v a] "|" [v b] "|" [v c] = <s a=[v a] ab=[v b] b=[v c]/>
END
sheet two <<'END'
xsugar-1
start s
terminal v = /[^|]*/
s : [v a] "|" [v b] = <s a=[v a] ab=[v b]/>
END

# Attributes of two names, which have another order in UTF-16 than in UTF-8; and each of them alone.
low=$'\ufffd' high=$'\U00010000'
sheet lowhigh <<END
xsugar-1
start s
terminal v = /[^|]*/
s : [v a] "|" [v b] = <s $low=[v a] $high=[v b]/>
END
sheet low <<END
xsugar-1
start s
terminal v = /.*/
s : [v a] = <s $low=[v a]/>
END
sheet high <<END
xsugar-1
start s
terminal v = /.*/
s : [v a] = <s $high=[v a]/>
END

shows 'attributes come in the order of the bytes of their names'
gives 'to-text both' "<s t='2' s='1'/>" '1|2|'
strange 4 marks "<s t='2' s='1'/>"
gives 'to-text three' "<s b='2' ab='1' a='0'/>" '0|1|2'
strange 7 two "<s b='2' ab='1' a='0'/>"
strange 4 value "<s b='2' ab='1' a='0'/>"
strange 1 marks "<s b='2' ab='1' a='0'/>"
gives 'to-text lowhigh' "<s $high='2' $low='1'/>" '1|2'
strange 4 low "<s $high='2' $low='1'/>"
strange 1 high "<s $high='2' $low='1'/>"

# A tag and an attribute with prefixes.
sheet prefixes <<'END'
xsugar-1
start s
terminal v = /.*/
s : [v a] = <x:s x:a=[v a]/>
END

shows 'names are compared as they are written'
gives 'to-text prefixes' '<x:s x:a="1"></x:s>' 1
strange 0 prefixes '<s x:a="1"/>'
strange 1 prefixes '<x:s a="1"/>'
strange 1 prefixes '<x:s y:a="1"/>'

shows 'outside the root stand a declaration, comments, instructions and white space'
holds '' $' \t\r\n<s/> \r<!----><?a?>\n'
breaks 0 'a<s/>'
breaks 4 '<s/>a'
breaks 0 '&#32;<s/>'
breaks 4 '<s/>&#32;'
breaks 0 '<![CDATA[]]><s/>'
breaks 4 '<s/><![CDATA[]]>'
breaks 4 '<s/></s>'
breaks 7 '<s></s><s></s>'
# one mark is dropped before the document is read
holds '' $'\ufeff<s/>'
breaks 0 $'\ufeff\ufeff<s/>'
breaks 4 $'\ufeff<s/><s/>'
breaks 0 $'\u00a0<s/>'
breaks 1 ' '
holds '' "<?xml version='1.0'?><s/>"
holds '' '<?xml version = "1.0" encoding="utf-8"?><s/>'
holds '' $'<?xml\nversion="1.0" encoding=\'UtF-8\' standalone="yes" ?><s/>'
holds '' $'<?xml version="1.0" standalone=\'no\'?><s/>'
breaks 0 '<?xml?><s/>'
breaks 0 '<?xml version="1.1"?><s/>'
breaks 0 '<?xml version="&#49;.0"?><s/>'
breaks 0 '<?xml encoding="UTF-8"?><s/>'
breaks 0 '<?xml version="1.0"encoding="UTF-8"?><s/>'
breaks 0 '<?xml version="1.0" encoding="UTF-16"?><s/>'
breaks 0 '<?xml version="1.0" standalone="Yes"?><s/>'
breaks 0 '<?xml version="1.0" standalone="no" encoding="UTF-8"?><s/>'
breaks 1 ' <?xml version="1.0"?><s/>'
breaks 21 '<?xml version="1.0"?><?xml version="1.0"?><s/>'
breaks 4 '<s/><?xml version="1.0"?>'
