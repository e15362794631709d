# What the scripts share: `. scripts/common.sh` gives the functions and the variables below.

# program_at PATH: sets `program` to the built program, or stops the script where there is none.
program_at() {
  program=$(realpath -m "$1")
  [ -x "$program" ] || { echo "${0##*/}: build the program first: cd crates/xsugar && rt run" >&2; exit 2; }
}

# in_room: sets `room` to a folder for files that goes when the script ends.
in_room() {
  room=$(mktemp -d)
  trap 'rm -rf "$room"' EXIT
}

# peak_of WORD..: the peak of resident memory in bytes of a run over $room/input, as the kernel counts it.
# Where there is no GNU time, Python asks for it: then it is at least what Python itself takes, some 14 MB.
peak_of() {
  if /usr/bin/time -f %M -o "$room/peak" true 2>/dev/null; then
    /usr/bin/time -f %M -o "$room/peak" "$program" "$@" <"$room/input" >/dev/null 2>&1 || true
  else
    python3 -c 'import resource, subprocess, sys
subprocess.run(sys.argv[1:], stdout=subprocess.DEVNULL, stderr=subprocess.DEVNULL)
print(resource.getrusage(resource.RUSAGE_CHILDREN).ru_maxrss)' "$program" "$@" <"$room/input" >"$room/peak"
  fi
  echo $(($(tail -n 1 "$room/peak") * 1024))
}

# copies WORD COUNT: the word that many times.
copies() {
  printf '%*s' "$2" '' | sed "s: :$1:g"
}

# nest COUNT: an a in that many parentheses, a document of bench/nested.xsugar.
nest() {
  copies '(' "$1"
  printf a
  copies ')' "$1"
}

# heaviest: a sheet whose production weighs 8,192 on its text side, the most that is accepted.
heaviest() {
  local items='' number
  for number in {0..15}; do items+="[t a$number] "; done
  printf 'xsugar-1\nstart s\nterminal t = /([a-z]{50}){10}/\ns : %s"%s" = <s>%s</s>\n' "$items" "$(copies - 175)" "$items"
}

# longest: a sheet of 65,536 bytes, the most that are read, and light enough for a whole check. Each
# of its 1,719 nonterminals but the last uses the next, so each smallest document uses all of them.
longest() {
  local sheet number
  sheet=$(
    printf 'xsugar-1\nstart s\ns : [c0 x] = <s>[c0 x]</s>\n'
    for number in {0..1717}; do
      printf 'c%d : "a" [c%d x] = "a" [c%d x]\n' "$number" $((number + 1)) $((number + 1))
    done
    printf 'c1718 : "b" = "b"\n#'
  )
  printf '%s%s\n' "$sheet" "$(copies - $((65535 - ${#sheet})))"
}

# Each check adds one to `passed` or to `failed`; counted reports both, and is false where one failed.
passed=0 failed=0
counted() {
  echo "$passed passed, $failed failed"
  [ "$failed" -eq 0 ]
}
