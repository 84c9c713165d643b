#!/usr/bin/env bash
# Tells the dead spots of stylesheets like real ones, of one whose select has many alternatives, and of stylesheets with many
# branches: for each how many spots there are and how many of them are dead, the seconds and the peak memory of `dead` and of
# `check` on the same texts, and how many times the seconds of as many checks as there are spots the first takes. Each run is
# stopped after some seconds. It wants python3 and the Debian package time. Words: the number of runs (3), the seconds (120).
set -eu
. "$(dirname "$0")/program.sh"
. "$(dirname "$0")/triples.sh"
runs=${1:-3}
seconds=${2:-120}

# The least seconds, and the kilobytes, of so many runs of some words, or nothing where one is stopped.
taken() {
  local found=
  for _ in $(seq "$runs"); do
    /usr/bin/time -q -o "$work/taken" -f '%e %M' timeout "$seconds" "$program" "$@" >"$work/answer" || [ $? != 124 ] || return 0
    found+=$(cat "$work/taken")$'\n'
  done
  printf %s "$found" | sort -n | head -1
}

# A name and the files of a triple: its line.
show() {
  local name=$1 both check dead places
  check=$(taken check "$2" "$3" "$4")
  dead=$(taken dead "$2" "$4")
  places=$(tail -1 "$work/answer")
  both="$check $dead"
  if [ "$(wc -w <<<"$both")" = 4 ] && [[ $places == places* ]]; then
    awk -v name="$name" -v told="$places" '{
      split(told, words, " ")
      printf "%-16s %-22s check %.2f s %.0f MB, dead %.2f s %.0f MB", name, told, $1, $2 / 1024, $3, $4 / 1024
      if ($1 * words[2] > 0) printf ", %.3f of as many checks", $3 / ($1 * words[2])
      print ""
    }' <<<"$both"
  else
    echo "$name: check ${check:-stopped}, dead ${dead:-stopped}, ${places:-no answer}"
  fi
}

for name in article 'report 12 3 8' 'above 20 1 4' 'paths 900 2 6'; do
  # shellcheck disable=SC2086
  make_triple $name
  show "$name" "$triple/I" "$triple/O" "$triple/S"
done
for branches in 1000 10000; do
  python3 - "$branches" >"$work/S" <<'PY'
import sys

print('<xsl:stylesheet version="1.0" xmlns:xsl="http://www.w3.org/1999/XSL/Transform"><xsl:template match="a">')
print('<xsl:if test="b">t</xsl:if>' * int(sys.argv[1]))
print("</xsl:template></xsl:stylesheet>")
PY
  echo 'element a { element b { empty }* }' >"$work/I"
  show "$branches branches" "$work/I" "$work/I" "$work/S"
done
