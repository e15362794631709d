# Certificates: what `prove` writes, and what is said of a sheet that is checked by a file.
# tests/example-certificates does the same with the examples and the shipped sheets.

# The certificate of the empty sheet, and the same without the line `1 1`.
sheet certificate <<'END'
xsugar-cert-1
side text
side xml
cut 0 1
set 1
0 0
1 1
set 0
1 0
set 2
set 3
end
END
grep -vx '1 1' "$room/certificate" | sheet lacking
IFS= read -rd '' certificate <"$room/certificate"
accepted=$'accepted: 0 terminals, 0 ignorables, 1 nonterminals, 1 productions\n'

shows 'a certificate is written and tested'
gives 'prove empty' '' "$certificate"
gives 'check empty cert certificate' '' "$accepted"

shows 'comments, layout and names do not matter'
printf %s 'xsugar-1 start t t:=<r></r># another empty sheet' | sheet other
gives 'check other cert certificate' '' "$accepted"

shows 'a certificate that lacks a line, or of another sheet, also where the sheet is suspect'
refuses 'check empty cert lacking' '' 9 $'certificate: line 4: not expected here\n'
refuses 'check pair cert certificate' '' 9 $'certificate: line 3: not expected here\n'
refuses 'check twins cert certificate' '' 9 $'certificate: line 3: not expected here\n'

shows 'what stands after the line end is told at that line, the twelfth'
for more in end x ''; do
  sheet longer <<<"$certificate$more"
  refuses 'check empty cert longer' '' 9 $'certificate: line 12: not expected here\n'
done

shows 'a file that cannot be read'
refuses 'check empty cert none' '' 6 $'certificate: cannot be read\n'
refuses 'check none cert none' '' 6 $'sheet: cannot be read\n'

shows 'what is wrong with the sheet itself is told first'
# A terminal weighs 501, and the production of `s` 17 of them and more.
sheet heavy <<'END'
xsugar-1
start s
terminal t = /([a-z]{50}){10}/
s : [e a] [e b] [t c] = <s>[e a][e b][t c]</s>
e : [f a] [f b] = [f a] [f b]
f : [g a] [g b] = [g a] [g b]
g : [t a] [t b] = [t a] [t b]
END
heavy=$'sheet: weight 8560 is more than 8192\n'
refuses 'prove heavy' '' 2 "$heavy"
refuses 'check heavy cert none' '' 2 "$heavy"
refuses 'check heavy cert lacking' '' 2 "$heavy"
# The text is empty, and the XML a word between two tags.
printf 'xsugar-1\nstart s\ns : = <s>"%s"</s>\n' "$(copies - 8200)" | sheet heavy
heavy=$'sheet: weight 8203 is more than 8192\n'
refuses 'prove heavy' '' 2 "$heavy"
refuses 'check heavy cert certificate' '' 2 "$heavy"
sheet unstarted <<'END'
xsugar-1
start s
t : = <s/>
END
refuses 'check unstarted cert none' '' 2 $'sheet: line 2: start is not a nonterminal\n'

# alike COMMAND OTHER: the second run ends, writes and reports as the first.
alike() {
  local out notes
  ran "$1" ''
  IFS= read -rd '' out <"$room/.out"
  IFS= read -rd '' notes <"$room/.notes"
  ends "$2" '' "$status" "$out" "$notes"
}

shows 'a suspect sheet has no certificate'
for name in words ways brackets twins; do
  alike "check $name" "prove $name"
done

shows 'what is written certifies its sheet'
ran 'prove fenced' ''
cp "$room/.out" "$room/written"
alike 'check fenced' 'check fenced cert written'
