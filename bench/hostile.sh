#!/usr/bin/env bash
# Runs the program on the texts of make_hostile.py, under limits on memory, stack (8 MB) and time of a processor, user and
# system: each row's words, the bytes of its files, the status and the first line of the answer, the seconds, the kilobytes
# of memory, and the seconds of a processor in the program and in the system. Files of at most 100,000 bytes may take 10
# seconds and 1 GB, others 60 seconds and 40 times their bytes, but 1 GB in any case. It fails where a call ends by a
# signal, is stopped (status 152 after its seconds, 124 where it waits for sixty times as long), or answers otherwise than
# stands here, which is derived from the definitions. Rows that PROFILE says may take more get ten minutes and 6 GB, or the
# seconds below; it tells how many times their seconds and memory they take. Words: the number by which the seconds are
# multiplied (1), and what a row's words have to hold, if not all rows are meant. With the word `stack` in place of both,
# the smallest stack that each of the deepest texts takes; with the word `twice`, how the processor time grows with twice
# the text, which fails past 2.2, but for texts that PROFILE says may take more (the second word is as above). The variable
# JOBS is the number of rows that run side by side (that of processors); they are told in their order. Together they may ask
# for the kilobytes of MEMORY (three quarters of what is free); one that may ask for more runs alone. It wants python3, the
# Debian package time, and some 6 GB.
set -eu
. "$(dirname "$0")/program.sh"
times=${1:-1}
only=${2:-}
width=${JOBS:-$(nproc)}
free=${MEMORY:-$(awk '/^MemAvailable/ { print int($2 * 3 / 4) }' /proc/meminfo)}

# The seconds of rows whose end nobody waits for, and the kilobytes that texts take, where they are more than they may.
declare -A stopped=(['twice 22 5000']=60)
declare -A large=(
  ['scopes 20000 run S D']=6000000
  ['scopes 5000 run S D']=6000000
  ['declarations 20000 40000 valid I D']=6000000
  ['declarations 10000 20000 valid I D']=6000000
  ['marks ( 67108864 run P D']=3000000
  ['marks *| 67108864 run P D']=6000000
)

# Rows side by side: each has a directory `here` of its own, and those that ended are told in their order. The pipe holds a line
# for each row that may begin.
begun=0
told=0
echo 0 >"$work/claimed"
mkfifo "$work/turns"
exec 3<>"$work/turns"
yes '' | head -n "$width" >&3

tell_ended() {
  while [ -f "$work/$((told + 1)).told" ]; do
    told=$((told + 1))
    cat "$work/$told.told"
  done
}

# Begins a row, which is a function and its words.
beside() {
  read -ru 3
  tell_ended
  begun=$((begun + 1))
  (
    trap 'echo >&3' EXIT
    here=$work/$begun
    files=$here/files
    mkdir "$here"
    "$@" >"$here/line"
    mv "$here/line" "$here.told"
    rm -r "$here"
  ) &
}

# Ends the script once all rows have ended: with status 1 where one has failed, or told nothing.
finish() {
  for _ in $(seq "$width"); do
    read -ru 3
    tell_ended
  done
  ((told == begun)) || echo "row $((told + 1)) told nothing"
  [ "$told" = "$begun" ] && [ ! -e "$work/failed" ]
  exit
}

# Waits until the rows that run leave so many kilobytes, or none runs, and takes them; gives them back where they are negative.
claim() {
  local before
  exec 9>"$work/lock"
  flock 9
  before=$(cat "$work/claimed")
  while (($1 > 0 && before > 0 && before + $1 > free)); do
    flock -u 9
    sleep 0.2
    flock 9
    before=$(cat "$work/claimed")
  done
  echo "$((before + $1))" >"$work/claimed"
  exec 9>&-
}

# The files of some words of make_hostile.py.
make() {
  local words
  read -ra words <<<"$1"
  python3 "$top/bench/make_hostile.py" "$files" "${words[@]}"
}

# The program on these files within so many seconds of a processor and kilobytes of memory and stack: what it writes, the
# seconds and the memory.
run() {
  local seconds=$1 memory=$2 stack=$3
  shift 3
  (
    cd "$files"
    ulimit -v "$memory"
    ulimit -s "$stack"
    ulimit -St "$seconds"
    exec /usr/bin/time -q -o "$here/taken" -f '%e %M %U %S' timeout "$((60 * seconds))" "$program" "$@"
  ) >"$here/answer" 2>"$here/errors" 3>&-
}

# `bytes` of the files that are read, and `bound` and `memory`, the seconds and kilobytes that they may take.
measure() {
  local word
  bytes=0
  for word in "$@"; do
    word=$files/${word##*:}
    [ -f "$word" ] && bytes=$((bytes + $(stat -c %s "$word")))
  done
  bound=10
  memory=1000000
  if ((bytes > 100000)); then
    bound=60
    memory=$((bytes / 25 > memory ? bytes / 25 : memory))
  fi
}

# Runs the program on the files of some words: `answer` is its status and the first line. The first number is that of seconds
# which it gets, where it isn't the bound, and the second that of kilobytes. Where it is stopped after its bound it runs once
# more, while no other row does: what runs beside it takes time from it.
attempt() {
  local seconds=$1 kilobytes=$2 words=$3 most status
  shift 3
  make "$words"
  measure "$@"
  for most in "${large["$words $*"]:-$memory}" "$free"; do
    claim "$most"
    status=0
    run "$((${seconds:-$bound} * times))" "${kilobytes:-$memory}" 8192 "$@" || status=$?
    claim "-$most"
    [ "$status" = 152 ] && [ -z "$seconds" ] || break
  done
  answer="$status $(head -c 60 "$here/answer" | head -1)"
}

# Tells what was attempted by some words, and what there is to say of it.
tell() {
  printf '%-30s %-22s %9d  %-62s %s\n' "$1" "${*:3}" "$bytes" "$answer" "$(tail -1 "$here/taken")$2"
}

# That a row isn't as it is to be.
fail() {
  : >"$work/failed"
  verdict+="  NOT: $1"
}

is_meant() {
  [[ "$*" == *"$only"* ]]
}

within() {
  local expected=$1 words=$2 verdict=
  shift 2
  attempt '' '' "$words" "$@"
  [[ "$answer" =~ ^($expected) ]] || fail "$expected"
  tell "$words" "$verdict" "$@"
}

# A row: what the status and the first line have to match at their front, the words of the texts, and those of the program.
row() {
  ! is_meant "${@:2}" || beside within "$@"
}

more() {
  local expected=$1 words=$2 verdict
  shift 2
  attempt "${stopped[$words]:-600}" 6000000 "$words" "$@"
  verdict=$(tail -1 "$here/taken" | awk "{ printf \"  %.1f of its seconds, %.1f of its memory\", (\$3 + \$4) / $bound, \$2 / $memory }")
  [[ "$answer" =~ ^($expected|7 |152 ) ]] || fail "$expected"
  tell "$words" "$verdict" "$@"
}

# A row that may take more, since no limit bounds it.
beyond() {
  ! is_meant "${@:2}" || beside more "$@"
}

smallest() {
  local words=$1 least=16 most=65536 middle status
  shift
  make "$words"
  while ((most - least > 16)); do
    middle=$(((least + most) / 2))
    status=0
    run 600 6000000 "$middle" "$@" || status=$?
    if ((status < 120)); then most=$middle; else least=$middle; fi
  done
  printf '%-30s %-22s %6d kB\n' "$words" "$*" "$most"
}

# The smallest stack, in kilobytes, with which the program answers and ends by no signal.
stack() {
  beside smallest "$@"
}

# The least of some seconds, or none, and those of a processor that the program takes on the files of a directory.
least() {
  local before=$1
  files=$2
  shift 2
  run 600 6000000 8192 "$@" || true
  tail -1 "$here/taken" | awk -v before="$before" '{ taken = $3 + $4; print before == "" || taken < before + 0 ? taken : before }'
}

# Whether twice the text takes more than a second and more than 2.2 times as long.
is_more() {
  awk "BEGIN { exit !($2 > 1 && $2 > 2.2 * $1) }"
}

# The words of two texts, the second twice as long: the least seconds of a processor of three runs of each, in turn. What
# disturbs a run only adds to it: so where they are too many it goes on up to so many runs, and one is enough below a second.
compare() {
  local rounds=$1 first=$2 second=$3 one= two= most verdict= round
  shift 3
  files=$here/one
  make "$first"
  files=$here/two
  make "$second"
  measure "$@"
  most=${large["$second $*"]:-$memory}
  claim "$most"
  for ((round = 1; round <= rounds; round++)); do
    one=$(least "$one" "$here/one" "$@")
    two=$(least "$two" "$here/two" "$@")
    ((round < 3)) || is_more "$one" "$two" || break
    awk "BEGIN { exit !($two > 1) }" || break
  done
  claim "-$most"
  ((rounds == 3)) || ! is_more "$one" "$two" || fail '2.2 times'
  printf '%-30s %-22s %8s s %8s s%s\n' "$second" "$*" "$one" "$two" "$verdict"
}

twice() {
  ! is_meant "${@:2}" || beside compare 9 "$@"
}

# The same of texts that PROFILE says may take more.
grows() {
  ! is_meant "${@:2}" || beside compare 3 "$@"
}

if [ "$times" = twice ]; then
  twice 'excepts 1500000' 'excepts 3000000' valid I D
  twice 'excepts_attribute 1500000' 'excepts_attribute 3000000' valid I D
  twice 'definitions 50000' 'definitions 100000' valid I D
  twice 'calls 50000' 'calls 100000' run S D
  twice 'calls 50000' 'calls 100000' check I O S
  twice 'modes 50000' 'modes 100000' run S D
  twice 'uncalled 50000' 'uncalled 100000' run S D
  twice 'uncalled 50000' 'uncalled 100000' check I O S
  grows 'spots 1450' 'spots 2900' dead I S
  grows 'uncalled 900' 'uncalled 1800' dead I S
  twice 'one_body 1300' 'one_body 2600' run S D
  twice 'twice 20 0' 'twice 21 0' run S D
  grows 'rows 200' 'rows 400' verify I O S C
  twice 'nested 8 1999' 'nested 16 1999' run S D
  twice 'selects 50000' 'selects 100000' run S D
  twice 'alternatives 10000 900' 'alternatives 20000 900' run S D
  twice 'pairs 10000 900' 'pairs 20000 900' run S D
  twice 'path 2000' 'path 4000' run S D
  twice 'path 25000' 'path 50000' run S D
  twice 'windows 25000' 'windows 50000' run S D
  twice 'ancestors 25000' 'ancestors 50000' run S D
  twice 'levels 100 999' 'levels 200 999' run S D
  twice 'levels 100 999' 'levels 100 1999' run S D
  grows 'scopes 2500' 'scopes 5000' run S D
  twice 'prefixes 10000 500000' 'prefixes 20000 1000000' run S D
  grows 'prefixed 10000 5000' 'prefixed 20000 10000' run S D
  twice 'long_calls 250000 1000' 'long_calls 500000 2000' run S D
  twice 'schema_prefixes 10000 500000' 'schema_prefixes 20000 1000000' valid I D
  twice 'names 500000' 'names 1000000' valid I D
  grows 'stars 250 990' 'stars 500 990' valid I D
  twice 'subsets 250 100000' 'subsets 250 200000' valid I D
  twice 'references 500000' 'references 1000000' valid I D
  grows 'declarations 5000 10000' 'declarations 10000 20000' valid I D
  twice 'long_namespace 10000 125000' 'long_namespace 20000 250000' valid I D
  twice 'attributes 3500000' 'attributes 7000000' valid I D
  twice 'tags 96000' 'tags 192000' valid I D
  twice 'chains 250' 'chains 500' valid --stream 65536 I D
  twice 'others 500' 'chains 500' valid --stream 65536 I D
  grows 'unlike 20000' 'alike 20000' valid I D
  for part in text white comment cdata instruction value name brackets characters spaces empty references sections comments; do
    twice "one $part 33554432" "one $part 67108864" valid I D
  done
  for part in literal identifier note lines; do
    twice "one $part 33554432" "one $part 67108864" valid I D
  done
  twice 'marks ( 33554432' 'marks ( 67108864' run P D
  for unit in '{' '(' '*|' '<' '&' ']]' '-' '"' 13 128512; do
    twice "marks $unit 33554432" "marks $unit 67108864" valid I D
  done
  finish
fi

if [ "$times" = stack ]; then
  stack 'elements 2000' valid I D
  stack 'elements 2000' run S D
  stack 'groups 2000' valid I D
  stack 'suffixed 1999' valid I D
  stack 'empties 1999' valid I D
  stack 'starts 1999' valid I D
  stack 'classes 2000' valid I D
  stack 'excepts 100000' valid I D
  stack 'balanced 1998' valid I D
  stack 'divisions 1999' valid I D
  stack 'particles 2000' valid dtd:a:T D
  stack 'tests 2000' run S D
  stack 'predicate 2000' run S D
  stack 'nested 1 1999' run S D
  stack 'copies 1995 2000' run S D
  stack 'copies 1995 2000' check I O S
  stack 'branches 498 2000' check I O S
  stack 'open 5 1597' run S D
  stack 'applies 1999 2' run S D
  stack 'levels 1 1999' run S D
  stack 'repeated_definitions 1999' valid I D
  stack 'ifs 1997' dead I S
  stack 'reach 1990' dead I S
  stack 'copies 1995 2000' dead I S
  stack 'branches 498 2000' dead I S
  stack 'residues 3 5 7 19' check I O S
  stack 'residues 3 5 7 19' include I A
  finish
fi

# What stands within one another, as deep as may be, and once more.
row '0 valid' 'elements 2000' valid I D
row '0 valid' 'elements 2000' valid --stream 7 I D
row '0 <a><a>' 'elements 2000' run S D
row '3 refused D too-deep at 6000' 'elements 2001' valid I D
row '3 refused D too-deep at 6000' 'elements 2001' valid --stream 7 I D
row '3 refused D too-deep at 6000' 'elements 2001' run S D
row '4 limit elements 256' 'braces 2000' valid I D
row '3 refused I too-deep at 20017' 'braces 2001' valid I D
row '4 limit elements 256' 'groups 2000' valid I D
row '3 refused I too-deep at 32017' 'groups 2001' valid I D
row '0 valid' 'pluses 1999' valid I D
row '3 refused I too-deep at 2017' 'pluses 2000' valid I D
row '0 valid' 'empties 1999' valid I D
row '3 refused I too-deep at 14011' 'empties 2000' valid I D
row '0 valid' 'suffixed 999' valid I D
row '4 limit depth 2000' 'suffixed 1000' valid I D
row '4 limit depth 2000' 'suffixed 1999' valid I D
row '3 refused I too-deep at 14011' 'suffixed 2000' valid I D
row '0 valid' 'starts 1999' valid I D
row '3 refused I too-deep at 24017' 'starts 2000' valid I D
row '0 valid' 'classes 2000' valid I D
row '3 refused I too-deep at 6016' 'classes 2001' valid I D
row '3 refused I bad-except at 10' 'excepts 20000' valid I D
row '3 refused I bad-except at 10' 'excepts 3000000' valid I D
row '0 valid' 'excepts_attribute 3000000' valid I D
row '0 valid' 'divisions 1999' valid I D
row '3 refused I too-deep at 8018' 'divisions 2000' valid I D
row '3 refused I too-deep at 8003' 'divisions 2001' valid I D
row '0 valid' 'balanced 1998' valid I D
row '3 refused I too-deep at 2028' 'balanced 1999' valid I D
row '0 valid' 'particles 999' valid dtd:a:T D
row '4 limit depth 2000' 'particles 1000' valid dtd:a:T D
row '4 limit depth 2000' 'particles 2000' valid dtd:a:T D
row '3 refused dtd:a:T too-deep at 8012' 'particles 2001' valid dtd:a:T D
row '0 <x/>' 'tests 2000' run S D
row '3 refused S too-deep at 111' 'tests 2001' run S D
row '0 <x/>' 'predicate 2000' run S D
row '3 refused S too-deep at 93' 'predicate 2001' run S D
row '0 $' 'brackets 6' run S D
row '4 limit predicates 6' 'brackets 2000' run S D
row '3 refused S too-deep at 124' 'brackets 2001' run S D
row '0 <r><a><a>' 'copies 1995 2000' run S D
row '0 safe ' 'copies 1995 2000' check I O S
row '3 refused S too-deep at 52083' 'copies 1996 2000' run S D
row '0 <r><x><x>' 'branches 498 2000' run S D
row '0 safe ' 'branches 498 2000' check I O S
row '3 refused S too-deep at ' 'branches 499 2000' run S D
row '0 rule 1 used <a/>' 'ifs 1997' dead I S
row '0 rule 1 used <a/>' 'reach 1990' dead I S
row '0 rule 1 used <a><d/></a>' 'copies 1995 2000' dead I S
row '1 rule 1 used <a><d/></a>' 'branches 498 2000' dead I S
row '0 <b>st<b>st' 'open 5 1597' run S D
row '4 limit open 8000' 'open 5 1598' run S D
row '0 <a><a>' 'applies 1999 2' run S D
row '4 limit open 8000' 'applies 2000 2' run S D
row '1 unsafe' 'residues 3 5 7 19' check I O S
row '1 unsafe' 'residues 3 5 7 19' prove I O S
row '1 not-included' 'residues 3 5 7 19' include I A
row '1 different' 'residues 3 5 7 19' same I A
beyond '0 accepted' 'rows 3999' verify I O S C
row '0 xslt-typecheck certificate 2' 'rows 3999' upgrade C

# What is long, in rows.
row '0 valid' 'definitions 100000' valid I D
row '0 valid' 'repeated_definitions 1999' valid I D
row '4 limit depth 2000' 'repeated_definitions 2000' valid I D
row '4 limit pattern 65536' 'repeated_definitions 100000' valid I D
row '0 <r/>' 'calls 3999' run S D
row '4 limit open 8000' 'calls 4000' run S D
row '4 limit open 8000' 'calls 100000' run S D
row '4 limit calls 8000' 'calls 100000' check I O S
row '4 limit selects 4096' 'modes 100000' run S D
row '0 <a/>' 'uncalled 100000' run S D
row '0 safe ' 'uncalled 100000' check I O S
row '4 limit calls 8000' 'calls 100000' dead I S
row '0 rule 1 used <a/>' 'spots 2900' dead I S
beyond '0 rule 1 used <a/>' 'spots 10000' dead I S
row '1 rule 1 used <a/>' 'uncalled 1800' dead I S
row '0 $' 'one_body 2600' run S D
row '4 limit work 4000000' 'twice 22 0' run S D
beyond '4 limit work 4000000' 'twice 22 5000' run S D
row '4 limit work 4000000' 'all_applied 2500 4' run S D
beyond '4 limit work 4000000' 'none_applied 1500 4 1' run S D
row '4 limit predicates 6' 'nested 1 1999' run S D
row '4 limit predicates 6' 'nested 16 1999' run S D
row '4 limit selects 4096' 'selects 100000' run S D
row '0 <y/>' 'alternatives 20000 900' run S D
row '4 limit ancestors 64' 'pairs 20000 900' run S D
row '0 $' 'path 4000' run S D
row '4 limit selects 4096' 'path 50000' run S D
row '0 $' 'windows 11' run S D
row '4 limit selects 4096' 'windows 50000' run S D
row '4 limit ancestors 64' 'ancestors 50000' run S D
row '0 $' 'levels 1000 1999' run S D
beyond '0 <e/><e/>' 'scopes 20000' run S D
row '0 $' 'prefixes 20000 1000000' run S D
row '0 $' 'prefixed 20000 10000' run S D
beyond '0 $' 'prefixed 100000 100000' run S D
row '0 $' 'long_calls 500000 2000' run S D
beyond '0 valid' 'schema_prefixes 20000 1000000' valid I D
row '0 valid' 'optionals 510' valid I D
row '4 limit states 512' 'optionals 511' valid I D
row '4 limit states 512' 'interleaves 70' valid I D
row '4 limit pattern 65536' 'doubled 100' valid I D
row '0 valid' 'stars 500 990' valid I D
row '4 limit symbols 1024' 'names 1000000' valid I D
row '0 valid' 'subsets 250 2000000' valid I D
row '0 valid' 'long_namespace 40000 500000' valid I D
row '0 valid' 'references 1000000' valid I D
row '3 refused D malformed at ' 'reference 18446744073709551681' valid I D
row '3 refused D malformed at 4' 'cut_tag' valid I D
row '3 refused D malformed at 4' 'cut_tag' valid --stream 1 I D
beyond '3 refused D malformed at ' 'declarations 20000 40000' valid I D
row '4 limit tag 65536' 'declarations 20000 40000' valid --stream 65536 I D
row '0 valid' 'attributes 7000000' valid I D
row '0 valid' 'tags 192000' valid I D
row '0 valid' 'tags 192000' valid --stream 65536 I D
row '0 valid' 'chains 500' valid --stream 65536 I D
row '0 valid' 'others 500' valid --stream 65536 I D
beyond '0 valid' 'alike 50000' valid I D
row '0 valid' 'unlike 50000' valid I D
beyond '0 <r/>' 'alike_templates 50000' run S D

# As long as a file may be, of one part.
for part in text white comment cdata instruction value name brackets characters spaces empty references sections comments; do
  row '0 valid' "one $part 67108864" valid I D
done
for part in text empty; do
  row '0 valid' "one $part 67108864" valid --stream 65536 I D
done
for part in value name; do
  row '4 limit tag 65536' "one $part 67108864" valid --stream 65536 I D
done
for part in literal identifier note lines; do
  row '1 invalid' "one $part 67108864" valid I D
done

# The same of bytes without any form.
row '3 refused I too-deep at 2000' 'marks ( 67108864' valid I D
beyond '3 refused P too-deep at 124' 'marks ( 67108864' run P D
row '3 refused P malformed at 124' 'marks { 67108864' run P D
beyond '3 refused P malformed at 124' 'marks *| 67108864' run P D
for unit in '{' '*|' '<' '&' ']]' '-' '"' 13 128512; do
  row '3 refused S malformed at ' "marks $unit 67108864" run S D
  row '3 refused D malformed at ' "marks $unit 67108864" valid A D
  row '3 refused D malformed at ' "marks $unit 67108864" valid --stream 65536 A D
done
for unit in '{' '*|' '<' '&' ']]' '-'; do
  row '3 refused I malformed at 0' "marks $unit 67108864" valid I D
done
row '3 refused I ' 'marks " 67108864' valid I D
for unit in 13 128512; do
  row '3 refused I undefined at ' "marks $unit 67108864" valid I D
done
finish
