# Small sheets, and the suspects that `check` finds in their text sides. Brackets inside brackets
# stand in checks.sh and upgrades.sh, and a cut inside a group in fences.sh.

shows 'productions with one word in common are suspect'
sheet same <<'END'
xsugar-1
start s
s : "x" = <a/>
s : "x" = <b/>
END
refuses 'check same' '' 3 $'suspect: text: s: lines 3 and 4 share "x"\n'
sheet other <<'END'
xsugar-1
start s
s : "x" = <a/>
s : "y" = <b/>
END
gives 'check other' '' $'accepted: 0 terminals, 0 ignorables, 1 nonterminals, 2 productions\n'

shows 'runs side by side with a symbol in common are suspect'
sheet common <<'END'
xsugar-1
start s
terminal m = /[a-c]*/
terminal n = /[c-z]*/
s : [m a] [n b] = <s x=[m a]>[n b]</s>
END
begins 'check common' '' 3 'suspect: text: s: line 5, cut 1: '
sheet apart <<'END'
xsugar-1
start s
terminal m = /[a-c]*/
terminal n = /[d-z]*/
s : [m a] [n b] = <s x=[m a]>[n b]</s>
END
gives 'check apart' '' $'accepted: 2 terminals, 0 ignorables, 1 nonterminals, 1 productions\n'
