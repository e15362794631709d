# Sheets of version 2: what is said of their fences, and groups inside groups. tests/examples shows
# that a text of @leiden has the same XML by @leiden2.

shows 'a rule on fences that fails is told'
sheet alike <<'END'
xsugar-2
start s
fence "(" "("
s : = <s/>
END
refuses 'check alike' '' 2 $'sheet: line 3: fence is not two new characters\n'
sheet regular <<'END'
xsugar-2
start s
fence "(" ")"
terminal t = /\(/
s : = <s/>
END
refuses 'check regular' '' 2 $'sheet: line 4: fence inside a regular expression\n'
sheet unclosed <<'END'
xsugar-2
start s
fence "(" ")"
s : "(" = <s/>
END
refuses 'check unclosed' '' 2 $'sheet: line 4: fence not closed\n'

shows '@leiden has no marks inside marks'
refuses 'to-xml @leiden' $'<=\n1. [α(β[γ](δε))]\n=>\n' 1 $'input: foreign after 8 symbols\n'

shows '@leiden2 without its fences is too heavy'
"$program" sheet 2 </dev/null | sed '/^fence /d; s/^xsugar-2$/xsugar-1/' | sheet unfenced
refuses 'check unfenced' '' 2 $'sheet: weight 8606 is more than 8192\n'

shows '@leiden2 is accepted'
gives 'check @leiden2' '' \
  $'accepted: 6 terminals, 2 ignorables, 16 nonterminals, 55 productions\n'

shows 'marks inside marks are translated both ways'
text=$'<=\n1. [α(β[γ](δε))]\n=>\n'
xml='<ab>
<lb n="1"/><supplied reason="lost">α<expan>β<supplied reason="lost">γ</supplied><ex>δε</ex></expan></supplied>
</ab>
'
gives 'to-xml @leiden2' "$text" "$xml"
gives 'to-text @leiden2' "$xml" "$text"

shows 'brackets inside brackets are translated'
gives 'to-xml fenced' '<a[b[]]c>' $'<d>a<b>b<b/></b>c</d>\n'

shows 'a cut inside a group is refused'
sheet inside <<'END'
xsugar-2
start s
terminal w = /[a-z]+/
s : "[" [w a] [w b] "]" = <s a=[w a]>[w b]</s>
fence "[" "]"
END
refuses 'check inside' '' 3 $'suspect: text: s: line 4, cut 2: "a" "a" "a"\n'
