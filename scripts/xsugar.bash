# Completion of the words of xsugar in bash: `. scripts/xsugar.bash`, or keep this file as `xsugar`
# in the folder ~/.local/share/bash-completion/completions.

_xsugar() {
  local word=${COMP_WORDS[COMP_CWORD]} command=${COMP_WORDS[1]-} words='' with_files=
  case $COMP_CWORD,$command in
    1,*)
      words='check to-xml to-text round to-tree from-tree trees session cover prove upgrade sheet'
      words+=' make'
      ;;
    2,sheet) words=2 ;;
    2,make) ;;
    2,*) words='@leiden @leiden2' with_files='*.xsugar' ;;
    3,check) words=cert ;;
    3,to-xml) words='asis nfc nfd' ;;
    3,round | 3,to-tree | 3,from-tree) words='text xml' ;;
    4,check) with_files='*' ;;
    4,round | 4,to-tree) if [ "${COMP_WORDS[3]}" = text ]; then words='asis nfc nfd'; fi ;;
  esac
  mapfile -t COMPREPLY < <(compgen -W "$words" -- "$word")
  if [ -n "$with_files" ]; then
    local file
    while IFS= read -r file; do
      # shellcheck disable=SC2053
      if [ -d "$file" ] || [[ $file == $with_files ]]; then COMPREPLY+=("$file"); fi
    done < <(compgen -f -- "$word")
    compopt -o filenames 2>/dev/null || true
  fi
}

complete -F _xsugar xsugar
