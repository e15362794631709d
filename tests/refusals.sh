# Commands and inputs that are refused.

shows 'texts that the sheet does not describe'
refuses 'to-xml pair' '(3,7]' 1 $'input: foreign after 4 symbols\n'
refuses 'to-xml pair' $'(3,7)\n' 1 $'input: foreign after 5 symbols\n'
refuses 'to-xml pair' '(3,' 1 $'input: foreign after 3 symbols\n'
refuses 'to-xml pair' '' 1 $'input: foreign after 0 symbols\n'
refuses 'to-xml pair' $'(3,\xc3\xa9)' 1 $'input: foreign after 3 symbols\n'
refuses 'to-xml nested' '(a' 1 $'input: foreign after 2 symbols\n'
refuses 'to-xml nested' '(b)' 1 $'input: foreign after 1 symbols\n'
refuses 'to-xml nested' 'a)' 1 $'input: foreign after 1 symbols\n'
refuses 'round nested text' 'a)' 1 $'input: foreign after 1 symbols\n'
refuses 'trees twins 7' aab 1 $'input: foreign after 2 symbols\n'
refuses 'round letters xml' '<q/>' 1 $'input: foreign after 0 symbols\n'

shows 'inputs that are no UTF-8'
refuses 'to-xml pair' $'(\xff' 4 $'input: byte 1: not UTF-8\n'
refuses 'to-xml pair' $'<s>\xc3' 4 $'input: byte 3: not UTF-8\n'
refuses 'to-text letters' $'<s>\xc3' 4 $'input: byte 3: not UTF-8\n'
refuses 'trees twins 7' $'\x80' 4 $'input: byte 0: not UTF-8\n'

shows 'inputs that are no XML'
refuses 'to-text letters' '<!DOCTYPE s><s/>' 4 $'input: character 0: not XML\n'
refuses 'to-text letters' '<s>&nbsp;</s>' 4 $'input: character 3: not XML\n'
refuses 'to-text letters' '<s>a]]></s>' 4 $'input: character 6: not XML\n'
refuses 'to-text letters' '<s a="1" a="2"/>' 4 $'input: character 0: not XML\n'
refuses 'to-text letters' '' 4 $'input: character 0: not XML\n'
refuses 'to-text letters' '<s/><s/>' 4 $'input: character 4: not XML\n'
refuses 'to-text letters' '<s>aa</s' 4 $'input: character 5: not XML\n'
refuses 'to-text letters' '<s>aa' 4 $'input: character 5: not XML\n'
refuses 'to-text letters' '<s>aa</t>' 4 $'input: character 5: not XML\n'

shows 'XML that the sheet does not describe'
refuses 'to-text letters' '<q/>' 1 $'input: foreign after 0 symbols\n'
refuses 'to-text letters' '<s z="1">aa</s>' 1 $'input: foreign after 1 symbols\n'
refuses 'to-text letters' '<s>ab</s>' 1 $'input: foreign after 2 symbols\n'

shows 'words that are no command'
usage='usage: xsugar check S | to-xml S [F] | to-text S | round S text [F] | round S xml'
usage+=' | trees S M | sheet | sheet 2 | make SEED LINES | upgrade S | prove S | check S cert C'
usage+=' | session S | to-tree S text [F] | to-tree S xml | from-tree S text | from-tree S xml'
usage+=$' | cover S\n'
for words in '' to-xml 'to-xml pair NFC' 'to-xml pair nfc nfc' 'to-text pair nfc' 'round pair' \
  'round pair xml nfc' 'trees pair' 'trees pair 0' 'trees pair 01' 'trees pair 1001' \
  'to-tree pair xml nfc' 'from-tree pair' 'from-tree pair html' 'from-tree pair text nfc' --help; do
  refuses "$words" '(3,7)' 5 "$usage"
done

shows 'a sheet that is not there'
refuses 'to-xml gone' '(3,7)' 6 $'sheet: cannot be read\n'
