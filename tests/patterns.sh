# Regular expressions: which patterns are read, and what they match.

# pattern PATTERN: makes the sheet pattern, whose terminal has this pattern, at byte 30.
pattern() {
  printf 'xsugar-1\nstart s\nterminal t = /%s/\ns : [t x] = <s>[t x]</s>\n' "$1" | sheet pattern
  shows "${shown%% /*} /$1/"
}

# legal PATTERN..: a sheet can have each of the patterns.
legal() {
  local each
  for each; do
    pattern "$each"
    gives 'check pattern' '' $'accepted: 1 terminals, 0 ignorables, 1 nonterminals, 1 productions\n'
  done
}

# refused PATTERN..: no sheet has any of the patterns.
refused() {
  local each
  for each; do
    pattern "$each"
    refuses 'check pattern' '' 2 $'sheet: byte 30: not expected here\n'
  done
}

# matches TEXT, misses TEXT: whether the text is a word of the pattern of the sheet.
matches() {
  local element="<s>$1</s>"
  [ -n "$1" ] || element='<s/>'
  gives 'to-xml pattern' "$1" "$element"$'\n'
}
misses() { begins 'to-xml pattern' "$1" 1 'input: foreign after '; }

# regex PATTERN [matches TEXT..] [misses TEXT..]: which of the texts are words of the pattern.
regex() {
  local text which
  pattern "$1"
  for text in "${@:2}"; do
    case $text in
      matches | misses) which=$text ;;
      *) "$which" "$text" ;;
    esac
  done
}

# weighs PATTERN COUNT WEIGHT: a production of that many items of the pattern has this weight: 1,
# and for each item one more than the places of its pattern.
weighs() {
  local items
  items=$(printf '[t a%d] ' $(seq "$2"))
  {
    printf 'xsugar-1\nstart s\nterminal t = /%s/\n' "$1"
    printf 's : %s = <s>%s</s>\n' "$items" "$items"
  } | sheet weight
  refuses 'check weight' '' 2 "sheet: weight $3 is more than 8192"$'\n'
}

# That ([a-z]{50}){10} has 500 places is shown where productions are at the limit of weight.
shows 'a pattern has a place for each class, as often as it is repeated'
weighs 'a(b|c)*' 2049 8197
weighs '(ab?){1,3}' 1171 8198

shows 'patterns without a reading'
refused '([a-z]{64}){9}' 'a{65}' 'a{2,1}' 'a**' ']' '\p{nosuchclass}' 'a{01}' 'a{}' 'a{,2}' \
  'a{1' 'a{100}' '*a' '(a' 'a)' '[]' '[^]' '[a' '[b-a]' '[a-]' '[a^]' '\a' '\u{}' '\u{110000}' \
  '\u{D800}' '\u{0000041}' '\p{}' '{2}' '}'

shows 'a slash ends a pattern, and one after a backslash does not'
refused '[a/]' '\'
pattern 'a/b'
refuses 'check pattern' '' 2 $'sheet: byte 34: not expected here\n'

shows 'classes are cut to the characters of XML'
regex '\p{Greek}' matches α misses a
regex '[\p{Greek}0-9]' matches 7
regex '[^\p{L}]' matches 0 misses A $'\ufffe'
regex '.' matches $'\U0010ffff' misses $'\x0b'
regex '\u{3b1}' matches α
regex '[\u{370}-\u{3FF}]' matches α
pattern '\u{1}'
refuses 'check pattern' '' 2 $'sheet: line 3: empty class\n'

# The answers of another engine, Python's `re` with fullmatch and DOTALL.
shows 'words match as elsewhere'
regex 'abc' matches abc misses ab abcd ''
regex 'a|b' matches a b misses ab ''
regex 'ab|cd|e' matches ab cd e misses abd ''
regex '' matches '' misses a
regex '()' matches '' misses a
regex 'a|' matches a '' misses b
regex '|' matches '' misses a
regex 'a*' matches '' a aaaa misses b aab
regex 'a+' matches a aaa misses ''
regex 'a?' matches '' a misses aa
regex '(ab)*' matches '' ab abab misses aba
regex 'a(b|c)*' matches a abcb misses b ''
regex '(a|b)*c' matches c ababc misses ab
regex 'a{3}' matches aaa misses aa aaaa
regex 'a{2,}' matches aa aaaaa misses a
regex 'a{2,4}' matches aa aaa aaaa misses a aaaaa
regex 'a{0}' matches '' misses a
regex 'a{0,0}b' matches b misses ab
regex 'a{0,2}' matches '' a aa misses aaa
regex 'a{1,1}' matches a misses '' aa
regex 'a{0,}' matches '' aaa
regex '(a?){3}' matches '' a aaa misses aaaa
regex '(a?b?){2}' matches '' ab ba abab misses bba
regex '(a*)*' matches '' aaa misses b
regex '(a*b*)*' matches '' aabba misses c
regex '(a|b?)+' matches '' ab bba
regex '(ab?){2,3}' matches aa aba ababab misses a aaaa
regex '((a|b)(c|d)?){2}' matches ab acbd acb misses a abcd
regex '[abc]' matches a c misses d ''
regex '[a-c]x' matches ax cx misses dx
regex '[^a-c]' matches d $'\n' misses a
regex '[^a]*' matches '' bcd misses bad
regex '[a-cx-z]+' matches abz xyz misses aw
regex '[+*.?|(){}]' matches + . '|' '}' misses a
regex '[a\-z]' matches a - z misses b
regex '[\]\[]' matches ']' '[' misses a
regex '[\^a]' matches ^ a misses b
regex '.' matches a $'\n' misses '' ab
regex '.*' matches '' $'a\nb'
regex 'a.c' matches abc $'a\nc' misses ac
regex '\.' matches . misses a
regex '\*\+' matches '*+' misses '*'
regex '\\' matches '\' misses a
regex '\n\t\r' misses ntr
gives 'to-xml pattern' $'\n\t\r' $'<s>\n\t&#xD;</s>\n'
regex '\-\_\@' matches -_@ misses -@
regex '\/' matches / misses '\'
regex 'a-b^c' matches a-b^c misses ab
regex 'a,b' matches a,b misses ab
regex '(a(b(c)))d' matches abcd misses abc
regex '(a|bc)(d|)' matches a bc ad bcd misses bd
regex 'x(y|z){2}w' matches xyzw xyyw misses xyw xyzyw
regex '([0-9]+a?)|b' matches 12a 7 b misses a ''
regex '[1-9][0-9]*' matches 1 105 misses 05 ''
regex '(a{2}){2}' matches aaaa misses aaa aaaaa
regex '(a{1,2}){2}' matches aa aaa aaaa misses a aaaaa
regex '(ab|a)(bc|c)?' matches a ab abc abbc ac
regex '(a|aa)*b' matches b aaab misses aaa
regex '(a*b)*a*' matches '' aab aaba abab
regex '(()|a)b' matches b ab misses aab
regex '((a)?){0,2}b' matches b ab aab misses aaab
regex 'é+' matches é éé misses e
regex '[à-é]' matches à é misses ê
regex '😀{2}' matches '😀😀' misses '😀'
regex 'a|b|c' matches a b c misses d
regex 'a||b' matches '' a b
regex '(a|)(b|)' matches '' a b ab misses ba
regex 'ab*' matches a abbb misses b
regex 'ab+' matches ab abb misses a
regex 'ab?c' matches ac abc misses abbc
regex '(abc){2}' matches abcabc misses abc
regex '(a|b){2}' matches ab bb misses a
regex '(a|b){0,1}' matches '' a misses ab
regex '(a|b){1,}' matches a abab misses ''
regex '[0-9]{4}' matches 2024 misses 202 20245
regex '[0-9]{1,3}' matches 7 123 misses 1234 ''
regex '[A-Za-z]+[0-9]*' matches ab1 x misses 1a
regex '[A-Za-z][A-Za-z0-9]*' matches a1 Z misses 9a
regex '\(a\)' matches '(a)' misses a
regex '\[a\]' matches '[a]' misses a
regex '\{2\}' matches '{2}' misses 2
regex 'a\|b' matches 'a|b' misses a b
regex 'a\?' matches 'a?' misses a ''
regex '(a+)+' matches a aaa misses ''
regex '(a+)?' matches '' aa
regex '(a?)*' matches '' aaa misses b
regex '(a*)?' matches '' aa
regex '(a{2})*' matches '' aa aaaa misses aaa
regex '(a{2}|b)*' matches '' aab baa misses ab
regex '(a{0,1}b){2}' matches bb abab bab misses ab
regex '(a|b)*abb' matches abb aabb babb misses ab
regex 'a.*b' matches ab axxb $'a\nb' misses a
regex '.+x' matches ax misses x
regex '..' matches ab $'a\n' misses a abc
regex '.{3}' matches abc misses ab
regex '[^\n]*' matches '' ab misses $'a\nb'
regex '[ \t\r\n]*' matches '' $'  \n\t' misses a
regex '[ \t\r]*\n[ \t\r\n]*' matches $'\n' $' \n ' misses ' ' ''
regex ' +' matches ' ' '   ' misses ''
regex 'a b' matches 'a b' misses ab
regex '"a"' matches '"a"' misses a
regex $'\'' matches $'\'' misses ''
regex '<[a-z]+>' misses '<>'
gives 'to-xml pattern' '<ab>' $'<s>&lt;ab&gt;</s>\n'
regex 'x=1;' matches 'x=1;' misses x1
regex '#@!%&' misses '#'
gives 'to-xml pattern' '#@!%&' $'<s>#@!%&amp;</s>\n'
regex '~`:' matches '~`:' misses '~'
regex '[a-a]' matches a misses b
regex '[!-\/]' matches '!' / misses 0
regex '((((a))))' matches a misses aa
regex '(a(b(c|d)e)f)*' matches '' abcef abdefabcef misses abef
regex '(x{1,2}y){1,2}' matches xy xxyxy misses xyxyxy

shows 'patterns at each bound and one beyond'
legal "[$(copies a 2046)]"
refused "[$(copies a 2047)]"
legal "[$(copies é 2046)]"
refused "[$(copies é 2047)]"
legal "$(copies '|' 2048)"
refused "$(copies '|' 2049)"
legal "$(copies a 512)"
refused "$(copies a 513)"
legal "$(copies 'a|' 511)b"
refused "$(copies 'a|' 512)b"
legal "$(copies 'a{64}' 8)"
refused "$(copies 'a{64}' 8)a"
legal "$(copies 'a{0,64}' 8)"
refused "$(copies 'a{0,64}' 8)a?"
legal "($(copies 'a{64,}' 8))*"
refused "($(copies 'a{64,}' 8)a)*"
legal "(($(copies a 256)){2}){0,1}"
refused "(($(copies a 256)){2}a){0,1}"
legal "($(copies a 512)){0}a"
refused "($(copies a 512)){0,}a"

shows 'counts at their bound and one beyond'
legal 'a{64}' 'a{64,}' 'a{0,64}' 'a{64,64}'
refused 'a{65}' 'a{65,}' 'a{0,65}' 'a{64,65}'

shows 'parentheses stand 64 deep'
legal "$(nest 64)" "$(nest 64)()()()"
refused "$(nest 65)" "$(nest 65)()()()"
