# Words that are commands, and others.

usage=$'usage: xsugar check S | to-xml S [F] | to-text S | round S text [F] | round S xml | trees S M | sheet | sheet 2 | make SEED LINES | upgrade S | prove S | check S cert C | session S | to-tree S text [F] | to-tree S xml | from-tree S text | from-tree S xml | cover S\n'

# none WORDS: they are no command.
none() { refuses "$1" '' 5 "$usage"; }

# some WORDS: they are a command: the run ends with another status that the program has.
some() {
  ran "$1" ''
  ((status != 5 && status <= 11))
  is $? "$1" ''
}

shows 'words that are commands'
some 'check pair.xsugar'
some 'to-xml @leiden nfd'
some 'round pair.xsugar text asis'
some 'trees pair.xsugar 1000'
some sheet
some 'sheet 2'
some 'to-xml @leiden2 nfd'
some 'make 0 2000'
some 'make 2147483647 1'
some 'cover @leiden'
some 'upgrade @leiden2'
some 'prove @leiden2'
some 'check a cert b'
some 'trees a 1'
some 'to-tree a text nfc'
some 'from-tree a text'
some 'from-tree @leiden xml'
some 'session @leiden'

shows 'words that are no command'
none 'sheet 1'
none 'sheet 02'
none cover
none 'cover a b'
none upgrade
none prove
none 'check a cert'
none 'check a text b'
none ''
none to-xml
none 'check a b'
none 'trees a 0'
none 'trees a 1001'
none 'trees a 01'
none 'to-xml a NFC'
none 'make 2147483648 1'
none 'make 0 2001'
none 'make 0 0'
none 'make 0 01'
none session
none 'session a text'
none 'from-tree a'
none 'from-tree a text nfc'
