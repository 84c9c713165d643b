#!/usr/bin/env bash
# Reads, validates and transforms generated documents beside xmllint, jing and xsltproc: the time and the peak memory of each,
# with its ratio to the first, and the instructions a byte that callgrind counts on smaller ones; that the two transformed
# documents have one normal form; and texts that once cost much, each run stopped after some seconds. It wants python3 and
# the Debian packages time, valgrind, jing, trang, libxml2-utils and xsltproc. Words: the number of runs (3), the bytes of a
# document (14000000), the seconds (60).
set -eu
. "$(dirname "$0")/program.sh"
runs=${1:-3}
bytes=${2:-14000000}
seconds=${3:-60}
small=1000000
trang "$top/bench/article.rnc" "$work/article.rng"

measure() {
  python3 "$top/bench/measure.py" --seconds "$seconds" "$@"
}

# A kind of document of so many bytes, as a file.
document() {
  python3 "$top/bench/make_document.py" "$1" "$2" >"$work/document.xml"
}

# Names and commands, on an article and on a small one; those in `uncounted`, whose instructions can't be counted, on the
# first alone.
beside() {
  document article "$bytes"
  echo "an article of $bytes bytes"
  measure "$runs" "$@" "${uncounted[@]}"
  document article "$small"
  echo "one of $small bytes"
  measure --instructions --bytes "$small" 1 "$@"
}

uncounted=('jing -c' "jing -c $top/bench/article.rnc $work/document.xml")
beside \
  'xmllint --noout' "xmllint --noout $work/document.xml" \
  '  with --stream' "xmllint --noout --stream $work/document.xml" \
  'xmllint --relaxng' "xmllint --noout --relaxng $work/article.rng $work/document.xml" \
  '  with --stream' "xmllint --noout --stream --relaxng $work/article.rng $work/document.xml" \
  'typecheck valid' "$program valid $top/bench/article.rnc $work/document.xml" \
  '  with --stream 65536' "$program valid --stream 65536 $top/bench/article.rnc $work/document.xml" \
  '  with --stream 1' "$program valid --stream 1 $top/bench/article.rnc $work/document.xml" \
  'xmllint --dtdvalid' "xmllint --noout --dtdvalid $top/bench/article.dtd $work/document.xml" \
  'typecheck valid dtd:' "$program valid dtd:article:$top/bench/article.dtd $work/document.xml"

uncounted=()
beside \
  'xsltproc' "xsltproc -o $work/one.xml $top/bench/article.xsl $work/document.xml" \
  'typecheck run' "$program run $top/bench/article.xsl $work/document.xml"
"$program" run "$top/bench/article.xsl" "$work/document.xml" >"$work/other.xml"
python3 "$top/bench/compare.py" "$work/one.xml" "$work/other.xml"

document attributes "$bytes"
echo "attributes, references and namespaces, $bytes bytes"
measure "$runs" \
  'xmllint --noout' "xmllint --noout $work/document.xml" \
  'typecheck valid' "$program valid $top/bench/any.rnc $work/document.xml" \
  '  with --stream 65536' "$program valid --stream 65536 $top/bench/any.rnc $work/document.xml"

echo "texts that cost much"
document tag 33000000
measure 1 'three million attributes' "$program valid $top/bench/any.rnc $work/document.xml"
document scopes 1200000
measure 1 '60,000 declarations' "$program valid $top/bench/any.rnc $work/document.xml"
python3 "$top/bench/make_schema.py" repeated 500 1990 >"$work/repeated.rnc"
echo '<a/>' >"$work/document.xml"
measure 1 'repetitions in repetitions' "$program valid $work/repeated.rnc $work/document.xml"
python3 "$top/bench/make_triple.py" paths "$work/paths" 900 2 6
measure 1 '900 alternatives, run' "$program run $work/paths/S $work/document.xml"
