# What `upgrade` writes of sheets: the sheet in version 2, with the fences that it can have.

# upgraded SHEET: the upgrade of the sheet is standard input, and the upgrade of that is itself; the
# input of the runs is not read.
upgraded() {
  local wanted
  IFS= read -rd '' wanted
  gives "upgrade $1" 'not read' "$wanted"
  printf %s "$wanted" >"$room/upgraded"
  gives 'upgrade upgraded' 'not read' "$wanted"
}

shows 'brackets that can be fences become fences'
upgraded brackets <"$room/fenced"
upgraded pair <<'END'
xsugar-2
start s
terminal d = /[0-9]/
s : "(" [ d a ] "," [ d b ] ")" = < p > < y > [ d b ] </ y > < x > [ d a ] </ x > </ p >
fence "(" ")"
END
upgraded empty <<'END'
xsugar-2
start s
s : = < s />
END

shows 'of two pairs that could each be a fence the first in order becomes one'
sheet crossed <<'END'
xsugar-1
start s
s : "([)]" = <s/>
END
upgraded crossed <<'END'
xsugar-2
start s
s : "([)]" = < s />
fence "(" ")"
END

shows 'a pair is no fence where a class has one of its characters'
sheet class <<'END'
xsugar-1
start s
terminal v = /[^)]*/
s : "(" [v x] ")" = <s>[v x]</s>
END
upgraded class <<'END'
xsugar-2
start s
terminal v = /[^)]*/
s : "(" [ v x ] ")" = < s > [ v x ] </ s >
END

shows 'a pair is no fence where one production opens and another closes'
sheet parted <<'END'
xsugar-1
start s
s : "{" [e x] = <s>[e x]</s>
e : "a}" = "a"
END
upgraded parted <<'END'
xsugar-2
start s
s : "{" [ e x ] = < s > [ e x ] </ s >
e : "a}" = "a"
END

shows 'a pair is no fence where no text side has it'
sheet outside <<'END'
xsugar-1
start s
s : "a" = <s>"()"</s>
END
upgraded outside <<'END'
xsugar-2
start s
s : "a" = < s > "()" </ s >
END

shows 'nothing is added to a sheet of version 2'
printf %s 'xsugar-2 start s fence "<" ">" s:"(<>)"=<s></s>' | sheet second
upgraded second <<'END'
xsugar-2
start s
fence "<" ">"
s : "(<>)" = < s />
END

# laid_out: the sheet on standard input in the one layout, in version 2: without comments and empty
# lines, with a space between two words of a production, and U+0323 in its strings as it is.
laid_out() {
  local line words='"([^"\\]|\\.)*"|</|/>|[][<>=:]|[^][<>=:/" ]+'
  while IFS= read -r line; do
    case $line in
      '' | '#'*) ;;
      xsugar-1) echo xsugar-2 ;;
      *' : '*) grep -oE "$words" <<<"${line//'\u{323}'/$'\u0323'}" | paste -sd ' ' ;;
      *) printf '%s\n' "$line" ;;
    esac
  done
}

examples='bibliography dates line moves outline settings table'
cp ../examples/*.xsugar "$room"

shows 'upgrades of the examples'
for name in $examples; do
  {
    laid_out <"$room/$name.xsugar"
    [ "$name" != line ] || printf 'fence "(" ")"\nfence "[" "]"\n'
  } | sheet "$name.upgrade"
  upgraded "$name.xsugar" <"$room/$name.upgrade"
done

shows 'texts are translated by upgrades as by the sheets'
for name in $examples; do
  IFS= read -rd '' text <"../examples/$name.txt"
  IFS= read -rd '' xml <"../examples/$name.xml"
  gives "to-xml $name.upgrade" "$text" "$xml"
done

shows 'upgrades of the shipped sheets'
{
  "$program" sheet </dev/null | laid_out
  printf 'fence "(" ")"\nfence "[" "]"\nfence "{" "}"\nfence "<" ">"\n'
} | sheet first
upgraded @leiden <"$room/first"
"$program" sheet 2 </dev/null | laid_out | sheet second
upgraded @leiden2 <"$room/second"

shows 'upgrades are accepted'
gives 'check first' '' $'accepted: 7 terminals, 2 ignorables, 10 nonterminals, 33 productions\n'
gives 'check fenced' '' $'accepted: 1 terminals, 0 ignorables, 3 nonterminals, 5 productions\n'

shows 'a sheet that is not well formed has no upgrade'
sheet open <<'END'
xsugar-1
start s
s : "a = <s/>
END
refuses 'upgrade open' '' 2 $'sheet: byte 21: not expected here\n'
sheet unused <<'END'
xsugar-1
start s
terminal d = /[0-9]/
s : [d a] = <p/>
END
refuses 'upgrade unused' '' 2 $'sheet: line 4: named item not once on both sides\n'
sheet unclosed <<'END'
xsugar-2
start s
fence "(" ")"
s : "(" = <s/>
END
refuses 'upgrade unclosed' '' 2 $'sheet: line 4: fence not closed\n'
