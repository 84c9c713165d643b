#!/usr/bin/env bash
# Checks safe triples of two schemas and a stylesheet, and `demo 40`: the answer, the time and the peak memory of each, and
# what is aimed at. The article and the first four families of make_triple.py are like real ones, with the instructions that
# callgrind counts; the others are costly within the limits. Each run is stopped after some seconds. It wants python3 and the
# Debian packages time and valgrind. Words: the number of runs (3), the seconds (30).
set -eu
. "$(dirname "$0")/program.sh"
. "$(dirname "$0")/triples.sh"
runs=${1:-3}
seconds=${2:-30}

# A line of a triple, an option of measure.py or nothing, and the words of a command: its answer, which is the line's where that
# has one, and what it takes.
show() {
  name=${1%%:*}
  wanted=${1#"$name"}
  answer=$(timeout "$seconds" "$program" "${@:3}" | head -1)
  echo "$answer"
  [ -z "$wanted" ] || [ ": $answer" = "$wanted" ] || echo "wrong: it is${wanted#:}"
  # shellcheck disable=SC2046,SC2086
  python3 "$top/bench/measure.py" --seconds "$seconds" $2 $(aim_of "$name") "$runs" "$name" "$program ${*:3}"
}

# Lines of triples, and an option of measure.py or nothing.
check_all() {
  echo "$1" | while read -r line; do
    # shellcheck disable=SC2086
    make_triple ${line%%:*}
    show "$line" "$2" check "$triple/I" "$triple/O" "$triple/S"
  done
}

show "demo 40: safe trees 40 hedges 42 outputs 42" "" demo 40
check_all "$like_real" --instructions
check_all "$costly" ""
