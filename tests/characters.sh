# Bytes that are no UTF-8, forms of texts, and the characters of XML and of its names.

# broken PLACE INPUT: the input is no UTF-8, and its longest prefix that is ends there.
broken() { refuses 'to-xml content' "$2" 4 "input: byte $1: not UTF-8"$'\n'; }

shows 'bytes that are no UTF-8 are refused at their place'
broken 1 $'(\xff'
broken 3 $'<s>\xc3'
broken 0 $'\xed\xa0\x80'
broken 1 $'a\xf4\x90\x80\x80'

# formed FORM INPUT XML TEXT: the input in the form is written as this XML and as this text.
formed() {
  gives "to-xml content $1" "$2" "$3"
  gives "round content text $1" "$2" "$4"
}

shows 'texts are read in a form and written'
formed asis $'(3,\xc3\xa9)' $'<s>(3,\u00e9)</s>\n' $'(3,\xc3\xa9)'
formed asis $'\xef\xbb\xbfa' $'<s>a</s>\n' a
# of two marks the first is dropped and written again
formed asis $'\xef\xbb\xbf\xef\xbb\xbfa' $'<s>\ufeffa</s>\n' $'\xef\xbb\xbf\xef\xbb\xbfa'
formed nfd $'\xe1\xba\xa1' $'<s>a\u0323</s>\n' $'a\xcc\xa3'
formed nfc $'a\xcc\xa3' $'<s>\u1ea1</s>\n' $'\xe1\xba\xa1'
formed nfc '' $'<s/>\n' ''

# The characters of XML by the standard's production Char, those that begin a name by NameStartChar,
# and those that only stand after its first by NameChar.
characters=(9 a d 20-d7ff e000-fffd 10000-10ffff)
begins=(3a 41-5a 5f 61-7a c0-d6 d8-f6 f8-2ff 370-37d 37f-1fff 200c-200d 2070-218f 2c00-2fef
  3001-d7ff f900-fdcf fdf0-fffd 10000-effff)
after=(2d 2e 30-39 b7 300-36f 203f-2040)

# inside RANGE..: makes the first and the last character of each of the ranges keys of `numbers`.
inside() {
  local range
  numbers=()
  for range; do
    numbers[16#${range%-*}]=
    numbers[16#${range#*-}]=
  done
}

# outside RANGE..: makes the characters next to the ranges that are in none of them keys of `numbers`.
# U+D800 to U+DFFF are no characters, and U+0 stands in no string of a shell.
outside() {
  local range other number
  numbers=()
  for range; do
    for number in $((16#${range%-*} - 1)) $((16#${range#*-} + 1)); do
      case $number in
        $((0xd800))) number=$((0xe000)) ;;
        $((0xdfff))) number=$((0xd7ff)) ;;
        0 | $((0x110000))) continue ;;
      esac
      for other; do
        ((number < 16#${other%-*} || number > 16#${other#*-})) || continue 2
      done
      numbers[number]=
    done
  done
}

# each FUNCTION BEFORE AFTER: calls the function with the two texts round each character that is a
# key of `numbers`, and with the character.
each() {
  local number character
  for number in "${!numbers[@]}"; do
    printf -v character '\\U%08x' "$number"
    printf -v character "$character"
    "$1" "$2$character$3" "$character"
  done
}

# holds DOCUMENT CHARACTER: the document is an element s with this character, or LF in place of CR.
holds() { gives 'to-text content' "$1" "${2/$'\r'/$'\n'}"; }

# named DOCUMENT: the document is XML, with an element that the sheet does not have.
named() { refuses 'to-text content' "$1" 1 $'input: foreign after 0 symbols\n'; }

# first DOCUMENT, fourth DOCUMENT: the document is no XML from its first or fourth character on.
first() { refuses 'to-text content' "$1" 4 $'input: character 0: not XML\n'; }
fourth() { refuses 'to-text content' "$1" 4 $'input: character 3: not XML\n'; }

shows 'the characters of XML are those of the standard'
inside "${characters[@]}"
each holds '<s>' '</s>'
outside "${characters[@]}"
each fourth '<s>' '</s>'

shows 'U+0 is no character of XML'
printf '<s>\0</s>' >"$room/.input"
(cd "$room" && exec "$program" to-text content) <"$room/.input" >"$room/.out" 2>"$room/.notes"
status=$?
[ "$status$(<"$room/.out")$(<"$room/.notes")" = '4input: character 3: not XML' ]
is $? 'to-text content' '<s>U+0</s>'

shows 'names begin with the characters of the standard'
inside "${begins[@]}"
each named '<' '/>'
outside "${begins[@]}"
each first '<' '/>'
inside "${after[@]}"
each first '<' '/>'

shows 'names go on with the characters of the standard'
inside "${begins[@]}" "${after[@]}"
each named '<s' '/>'
outside "${begins[@]}" "${after[@]}"
each first '<s' '/>'
