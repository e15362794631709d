# Sheets that are refused on their own: what is said of them.

shows 'a sheet with a token out of place'
ill $'sheet: byte 21: not expected here\n' \
  $'xsugar-1\nstart s\ns : "a = <s/>\n'
ill $'sheet: byte 30: not expected here\n' \
  $'xsugar-1\nstart s\nterminal d = /\\p{nosuchclass}/\n'
ill $'sheet: byte 0: not expected here\n' \
  $'xsugar-3\nstart s\ns : = <s/>\n'
ill $'sheet: byte 9: not expected here\n' \
  $'xsugar-1\n'
ill $'sheet: byte 0: not expected here\n' \
  ''
ill $'sheet: byte 28: not expected here\n' \
  $'xsugar-1\nstart s\ns : = <s></t>\n'

shows 'a sheet that breaks a rule'
ill $'sheet: line 4: name defined twice\n' \
  $'xsugar-1\nstart s\nterminal d = /a/\nterminal d = /b/\ns : = <s/>\n'
ill $'sheet: line 3: name not defined\n' \
  $'xsugar-1\nstart s\ns : [x a] = <s>[x a]</s>\n'
ill $'sheet: line 2: start is not a nonterminal\n' \
  $'xsugar-1\nstart s\nt : = <s/>\n'
ill $'sheet: line 4: named item not once on both sides\n' \
  $'xsugar-1\nstart s\nterminal d = /[0-9]/\ns : [d a] = <p/>\n'
ill $'sheet: line 4: named item not once on both sides\n' \
  $'xsugar-1\nstart s\nterminal d = /[0-9]/\ns : [d a] [d a] = <p>[d a]</p>\n'
ill $'sheet: line 3: item of a wrong kind\n' \
  $'xsugar-1\nstart s\ns : [s a] = <s a=[s a]/>\n'
ill $'sheet: line 3: attribute twice\n' \
  $'xsugar-1\nstart s\ns : = <s a="1" a="2"/>\n'
ill $'sheet: line 3: start is not one element\n' \
  $'xsugar-1\nstart s\ns : = <s/> <s/>\n'
ill $'sheet: line 3: empty class\n' \
  $'xsugar-1\nstart s\nterminal d = /[^\\u{0}-\\u{10ffff}]/\ns : = <s/>\n'
ill $'sheet: line 3: character not allowed\n' \
  $'xsugar-1\nstart s\ns : "\\u{1}" = <s/>\n'
ill $'sheet: line 3: normal spelling does not match\n' \
  $'xsugar-1\nstart s\nignorable w = / */ "x"\ns : [w] = <s/>\n'
ill $'sheet: line 3: derives no word\n' \
  $'xsugar-1\nstart A\nA : [A x] = <e>[A x]</e>\n'
ill $'sheet: line 3: derives itself\n' \
  $'xsugar-1\nstart A\nA : [A x] = <e>[A x]</e>\nA : "a" = <a/>\n'
ill $'sheet: line 3: empty class\n' \
  $'xsugar-1\nstart s\nterminal d = /[^\\u{0}-\\u{10ffff}]/\ns : [s x] = <s>[s x]</s>\n'

shows 'of the lines that break a rule the least is reported'
ill $'sheet: line 4: name defined twice\n' \
  $'xsugar-1\nstart s\nterminal d = /a/\nterminal d = /b/\nterminal d = /c/\ns : = <s/>\n'
ill $'sheet: line 3: name not defined\n' \
  $'xsugar-1\nstart s\ns : [x a] = <s>[x a]</s>\ns : [y a] = <s>[y a]</s>\n'
ill $'sheet: line 4: named item not once on both sides\n' \
  $'xsugar-1\nstart s\nterminal d = /a/\ns : [d a] = <p/>\ns : = <p>[d b]</p>\n'
ill $'sheet: line 3: item of a wrong kind\n' \
  $'xsugar-1\nstart s\ns : [s a] = <s a=[s a]/>\ns : [s b] = <s b=[s b]/>\n'
ill $'sheet: line 3: attribute twice\n' \
  $'xsugar-1\nstart s\ns : = <s a="1" a="2"/>\ns : = <s><t b="1" b="2"/></s>\n'
ill $'sheet: line 3: start is not one element\n' \
  $'xsugar-1\nstart s\ns : = <s/> <s/>\ns : = "a"\n'
ill $'sheet: line 3: empty class\n' \
  $'xsugar-1\nstart s\nterminal d = /[^\\u{0}-\\u{10ffff}]/\nignorable w = /[^\\u{0}-\\u{10ffff}]*/ ""\ns : = <s/>\n'
ill $'sheet: line 3: character not allowed\n' \
  $'xsugar-1\nstart s\nignorable w = /.*/ "\\u{1}"\ns : "\\u{1}" = <s/>\n'
ill $'sheet: line 3: character not allowed\n' \
  $'xsugar-1\nstart s\ns : = <s>"\\u{1}"</s>\nignorable w = /.*/ "\\u{1}"\n'
ill $'sheet: line 3: normal spelling does not match\n' \
  $'xsugar-1\nstart s\nignorable w = / */ "x"\nignorable v = / */ "y"\ns : = <s/>\n'
ill $'sheet: line 3: derives no word\n' \
  $'xsugar-1\nstart s\ns : [t a] = <s>[t a]</s>\nt : [t a] = <t>[t a]</t>\n'
ill $'sheet: line 4: derives itself\n' \
  $'xsugar-1\nstart s\ns : = <s/>\nt : [t a] = <t>[t a]</t>\nt : "a" = <a/>\nu : [u a] = <u>[u a]</u>\nu : "a" = <a/>\n'
ill $'sheet: line 4: derives itself\n' \
  $'xsugar-1\nstart s\ns : = <s/>\nt : "(" [t a] = [t a]\nt : "a" = <a/>\nu : [u a] = <u>[u a]</u>\nu : "a" = <a/>\n'

shows 'of two rules the earlier is reported'
ill $'sheet: line 5: name defined twice\n' \
  $'xsugar-1\nstart s\ns : [x a] = <s>[x a]</s>\nterminal d = /a/\nterminal d = /b/\n'
ill $'sheet: line 3: name not defined\n' \
  $'xsugar-1\nstart q\ns : [x a] = <s>[x a]</s>\n'
ill $'sheet: line 2: start is not a nonterminal\n' \
  $'xsugar-1\nstart q\ns : [s a] = <s/>\n'
ill $'sheet: line 4: named item not once on both sides\n' \
  $'xsugar-1\nstart s\ns : [s a] = <s a=[s a]/>\ns : [s a] = <s/>\n'
ill $'sheet: line 4: item of a wrong kind\n' \
  $'xsugar-1\nstart s\ns : = <s a="1" a="2"/>\ns : [s a] = <s a=[s a]/>\n'
ill $'sheet: line 4: attribute twice\n' \
  $'xsugar-1\nstart s\ns : = "a"\ns : = <s a="1" a="2"/>\n'
ill $'sheet: line 4: start is not one element\n' \
  $'xsugar-1\nstart s\nterminal d = /[^\\u{0}-\\u{10ffff}]/\ns : = "a"\n'
ill $'sheet: line 4: empty class\n' \
  $'xsugar-1\nstart s\ns : "\\u{1}" = <s/>\nterminal d = /[^\\u{0}-\\u{10ffff}]/\n'
ill $'sheet: line 4: character not allowed\n' \
  $'xsugar-1\nstart s\nignorable w = / */ "x"\ns : "\\u{1}" = <s/>\n'
ill $'sheet: line 4: normal spelling does not match\n' \
  $'xsugar-1\nstart s\ns : [s a] = <s>[s a]</s>\nignorable w = / */ "x"\n'
ill $'sheet: line 5: derives no word\n' \
  $'xsugar-1\nstart s\ns : [s a] = <s>[s a]</s>\ns : "a" = <a/>\nt : "b" [t a] = <t>[t a]</t>\n'
