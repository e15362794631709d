# The rules of a well-formed sheet: which one is reported, and at which line. More of them stand in
# sheets.sh and fences.sh.

# accepted COUNTS SHEET: no rule fails, and the sheet is accepted with these counts of its units.
accepted() {
  printf %s "$2" >"$room/well"
  gives 'check well' '' "accepted: $1"$'\n'
}

shows 'each rule is reported at the least line that breaks it'
ill $'sheet: line 4: name defined twice\n' \
  $'xsugar-1\nstart s\nterminal d = /a/\nterminal d = /b/\nd : = <s/>\ns : = <s/>\n'
ill $'sheet: line 2: start is not a nonterminal\n' \
  $'xsugar-1\nstart s\nterminal d = /a/\nt : = <s/>\n'
ill $'sheet: line 4: named item not once on both sides\n' \
  $'xsugar-1\nstart s\nterminal d = /[0-9]/\ns : [d a] = <p/>\ns : = <p>[d a]</p>\n'
ill $'sheet: line 4: item of a wrong kind\n' \
  $'xsugar-1\nstart s\nterminal d = /a/\ns : [d] = <s>[d]</s>\ns : [s x] = <s a=[s x]/>\n'
ill $'sheet: line 3: attribute twice\n' \
  $'xsugar-1\nstart s\ns : = <s><t a="x" a="y"/></s>\ns : = <s b="x" b="x"/>\n'
ill $'sheet: line 4: start is not one element\n' \
  $'xsugar-1\nstart s\nt : = "a"\ns : = "a" <s/>\ns : "a" = "a"\n'

shows 'the first rule that fails is reported, at the least line that breaks it'
ill $'sheet: line 4: name defined twice\n' \
  $'xsugar-1\nstart s\nterminal d = /a/\nterminal d = /\\u{1}/\ns : = <s/>\n'
ill $'sheet: line 4: empty class\n' \
  $'xsugar-1\nstart s\nterminal c = /a/\nterminal d = /\\u{1}/\nterminal e = /\\u{1}/\ns : = <s/>\n'
ill $'sheet: line 4: character not allowed\n' \
  $'xsugar-1\nstart s\ns : "a" = <s/>\ns : "\\u{1}" = <t/>\nignorable k = /a/ "\\u{1}"\n'
ill $'sheet: line 4: normal spelling does not match\n' \
  $'xsugar-1\nstart s\ns : [k] = <s/>\nignorable k = / +/ ""\n'
ill $'sheet: line 4: derives itself\n' \
  $'xsugar-1\nstart s\ns : [l x] = <s>[l x]</s>\nl : =\nl : "a" [l x] = [l x]\n'
ill $'sheet: line 4: derives no word\n' \
  $'xsugar-1\nstart s\ns : = <s/>\nm : [m x] = <m>[m x]</m>\nl : [l x] = [l x]\n'
ill $'sheet: line 5: empty class\n' \
  $'xsugar-1\nstart A\nA : [A x] = <e>[A x]</e>\nA : "a" = <a/>\nterminal d = /\\u{1}/\n'

shows 'a class without a member is reported, also one that is repeated no times'
accepted '1 terminals, 0 ignorables, 1 nonterminals, 1 productions' \
  $'xsugar-1\nstart s\nterminal d = /[\\u{1}a]*|[^a]./\ns : = <s/>\n'
ill $'sheet: line 4: empty class\n' \
  $'xsugar-1\nstart s\nterminal c = /a/\nterminal d = /[^\\u{0}-\\u{10FFFF}]/\ns : = <s/>\n'
ill $'sheet: line 3: empty class\n' \
  $'xsugar-1\nstart s\nignorable k = /a|b*[\\u{1}]{0}/ "a"\ns : = <s/>\n'
ill $'sheet: line 3: empty class\n' \
  $'xsugar-1\nstart s\nterminal d = /(a?[\\u{FFFE}])+/ terminal e = /\\u{1}/\ns : = <s/>\n'

shows 'a character outside XML is reported, but not in a class'
accepted '0 terminals, 1 ignorables, 1 nonterminals, 1 productions' \
  $'xsugar-1\nstart s\nignorable k = /[\\u{1}\\t]?/ "\\t"\ns : "\\n" = <s a="\\r">"\\u{10FFFF}"</s>\n'
ill $'sheet: line 4: character not allowed\n' \
  $'xsugar-1\nstart s\ns : "a" = <s/>\nignorable k = /a/ "a\\u{1}"\n'
ill $'sheet: line 4: character not allowed\n' \
  $'xsugar-1\nstart s\ns : "a" = <s/>\ns : "a\\u{FFFE}" = <s/>\n'
ill $'sheet: line 3: character not allowed\n' \
  $'xsugar-1\nstart s\ns : = <s a="b"><t a="\\u{1F}"/></s>\n'
ill $'sheet: line 3: character not allowed\n' \
  $'xsugar-1\nstart s\ns : = <s><t>"a" "\\u{7}"</t></s>\n'
ill $'sheet: line 3: character not allowed\n' \
  $'xsugar-1\nstart s\ns : "\\u{7}" = <s/>\nignorable k = /a/ "\\u{1}"\n'
ill $'sheet: line 3: character not allowed\n' \
  $'xsugar-1\nstart s\nignorable k = /a/ "\\u{1}"\ns : "\\u{7}" = <s/>\n'

shows 'a normal spelling that is not matched is reported'
accepted '0 terminals, 2 ignorables, 1 nonterminals, 1 productions' \
  $'xsugar-1\nstart s\nignorable w = / */ "  "\nignorable k = /(ab)?/ ""\ns : = <s/>\n'
ill $'sheet: line 4: normal spelling does not match\n' \
  $'xsugar-1\nstart s\nignorable w = / +/ " "\nignorable k = /(ab)+/ ""\ns : = <s/>\n'
ill $'sheet: line 3: normal spelling does not match\n' \
  $'xsugar-1\nstart s\nignorable k = /ab/ "abc"\nignorable m = /a/ "b"\ns : = <s/>\n'

shows 'a name that derives no word, or itself, is reported at its first production'
accepted '1 terminals, 0 ignorables, 1 nonterminals, 2 productions' \
  $'xsugar-1\nstart s\nterminal d = /[0-9]/\ns : [d a] = <s>[d a]</s>\ns : "a" [s x] = <s>[s x]</s>\n'
ill $'sheet: line 5: derives no word\n' \
  $'xsugar-1\nstart s\ns : = <s/>\ns : "a" [t x] = <s>[t x]</s>\nt : "b" [t x] = <t>[t x]</t>\nt : "c" [t x] = <t>[t x]</t>\n'
ill $'sheet: line 3: derives no word\n' \
  $'xsugar-1\nstart s\ns : [t x] = <s>[t x]</s>\nt : "b" [t x] = <t>[t x]</t>\n'
ill $'sheet: line 4: derives itself\n' \
  $'xsugar-1\nstart s\ns : [l x] = <s>[l x]</s>\nl : "a" = "a"\nl : [l x] = <a>[l x]</a>\n'
ill $'sheet: line 4: derives itself\n' \
  $'xsugar-1\nstart s\ns : [l x] = <s>[l x]</s>\nl : "a" = "a"\nl : "a" [l x] = [l x]\n'
ill $'sheet: line 4: derives itself\n' \
  $'xsugar-1\nstart s\ns : [l x] [m y] = <s>[l x][m y]</s>\nl : "a" = "a"\nm : "b" = "b"\nm : [m x] = <b>[m x]</b>\nl : "a" [l x] = [l x]\n'
ill $'sheet: line 4: derives itself\n' \
  $'xsugar-1\nstart s\ns : [l x] [m y] = <s>[l x][m y]</s>\nl : "a" = "a"\nl : [l x] = <a>[l x]</a>\nm : "b" = "b"\nm : "b" [m x] = [m x]\n'
ill $'sheet: line 5: derives itself\n' \
  $'xsugar-1\nstart s\nignorable e = /a*/ "a"\ns : [l x] = <s>[l x]</s>\nl : "a" = <a/>\nl : [e] [m x] = <a>[m x]</a>\nm : [l x] [n y] = <b>[l x][n y]</b>\nn : = <c/>\n'
ill $'sheet: line 3: derives no word\n' \
  $'xsugar-1\nstart s\ns : [l x] = <s>[l x]</s>\nl : [l x] = <a>[l x]</a>\n'

shows 'the first rule that fails, on fences or before them, is reported'
ill $'sheet: line 4: fence is not two new characters\n' \
  $'xsugar-2\nstart s\ns : = <s/>\nfence "((" ")"\n'
ill $'sheet: line 4: fence is not two new characters\n' \
  $'xsugar-2\nstart s\ns : = <s/>\nfence "(" ""\n'
ill $'sheet: line 4: fence is not two new characters\n' \
  $'xsugar-2\nstart s\ns : = <s/>\nfence "" ")"\n'
ill $'sheet: line 4: fence is not two new characters\n' \
  $'xsugar-2\nstart s\ns : = <s/>\nfence "e\\u{301}" ")"\n'
ill $'sheet: line 4: fence is not two new characters\n' \
  $'xsugar-2\nstart s\nfence "(" ")"\nfence "[" "("\nfence ")" "]"\ns : = <s/>\n'
ill $'sheet: line 4: fence inside a regular expression\n' \
  $'xsugar-2\nstart s\nfence "(" ")"\nterminal t = /a|[(]/\ns : = <s/>\n'
ill $'sheet: line 3: fence inside a regular expression\n' \
  $'xsugar-2\nstart s\nterminal t = /a\\)/\ns : = <s/>\nfence "(" ")"\n'
ill $'sheet: line 3: fence inside a regular expression\n' \
  $'xsugar-2\nstart s\nterminal t = /(a){0}c/\ns : = <s/>\nfence "a" "b"\n'
ill $'sheet: line 4: fence inside a regular expression\n' \
  $'xsugar-2\nstart s\nfence "(" ")"\nignorable k = /[^a]*/ ""\ns : = <s/>\n'
ill $'sheet: line 4: fence inside a regular expression\n' \
  $'xsugar-2\nstart s\nfence "(" ")"\nignorable k = /(a|\\))*/ ")"\ns : = <s/>\n'
ill $'sheet: line 4: fence not closed\n' \
  $'xsugar-2\nstart s\nfence "(" ")"\ns : ")" = <s/>\n'
ill $'sheet: line 5: fence not closed\n' \
  $'xsugar-2\nstart s\nfence "(" ")"\nfence "[" "]"\ns : "a( [ ) ]b" = <s/>\n'
ill $'sheet: line 5: fence not closed\n' \
  $'xsugar-2\nstart s\nfence "(" ")"\ns : [t a] [u b] = <s>[t a][u b]</s>\nt : "(" = <t/>\nu : ")" = <u/>\n'
ill $'sheet: line 6: fence is not two new characters\n' \
  $'xsugar-2\nstart s\ns : "(" = <s/>\nterminal t = /\\(/\nfence "(" ")"\nfence "(" "]"\n'
ill $'sheet: line 4: fence inside a regular expression\n' \
  $'xsugar-2\nstart s\ns : "(" = <s/>\nterminal t = /\\(/\nfence "(" ")"\n'
ill $'sheet: line 4: named item not once on both sides\n' \
  $'xsugar-2\nstart s\nt : = <t/>\ns : [t x] = <s>[t x] [t y]</s>\nfence "(" "("\n'
ill $'sheet: line 4: derives no word\n' \
  $'xsugar-2\nstart s\ns : = <s/>\nt : [t x] = [t x]\nfence "(" "("\n'

# Fences that are closed, in more than one string, round other fences and beside each other; fence
# characters in an XML side and in a comment; a character outside XML.
shows 'fences of which no rule fails'
accepted '0 terminals, 0 ignorables, 1 nonterminals, 2 productions' \
  $'xsugar-2\nstart s\nfence "(" ")"\ns : "(" [s a] ")" = <s>[s a]</s>\ns : = <s/>\n'
accepted '0 terminals, 0 ignorables, 1 nonterminals, 1 productions' \
  $'xsugar-2\nstart s\nfence "(" ")"\nfence "[" "]"\ns : "([])[]" "a(b)" = <s/>\n'
accepted '0 terminals, 0 ignorables, 1 nonterminals, 1 productions' \
  $'xsugar-2\nstart s\nfence "(" ")"\ns : "a" = <s a="(">")"</s>\n# (\n'
accepted '0 terminals, 0 ignorables, 1 nonterminals, 1 productions' \
  $'xsugar-2\nstart s\nfence "\\u{1}" "\\u{FFFE}"\ns : = <s/>\n'
accepted '1 terminals, 0 ignorables, 1 nonterminals, 1 productions' \
  $'xsugar-2\nstart s\nfence "\u03c7" "\\u{10FFFF}"\nterminal t = /[a-z]/\ns : = <s/>\n'
accepted '0 terminals, 0 ignorables, 1 nonterminals, 1 productions' \
  $'xsugar-2\nstart s\ns : ")(" = <s/>\n'

shows 'no fence stands in a sheet of version 1'
ill $'sheet: byte 28: not expected here\n' \
  $'xsugar-1\nstart s\ns : = <s/>\nfence "(" ")"\n'
