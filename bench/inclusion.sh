#!/usr/bin/env bash
# Compares schemas: those of the examples with themselves, the article schema with a wider one too, and, with the word
# `all`, the costliest within the limits, of nearly 2,000 by 2,000 rows over some 500 states, which take seconds, one of them
# with 900 names that nothing tells apart: the answer, the time and the peak memory of each. It wants python3. Words: the
# number of runs (3), and `all`.
set -eu
. "$(dirname "$0")/program.sh"
runs=${1:-3}

# Two schemas and a name: the answer of `include`, and what it takes.
compare() {
  "$program" include "$1" "$2" | head -1
  python3 "$top/bench/measure.py" "$runs" "$3" "$program include $1 $2"
}

for schema in "$top"/examples/*/*.rnc "$top/bench/article.rnc"; do
  compare "$schema" "$schema" "$(basename "$schema")"
done
sed 's/section+/section*/; s/{ para+ }/{ (para | itemlist)+ }/' "$top/bench/article.rnc" >"$work/wider.rnc"
compare "$top/bench/article.rnc" "$work/wider.rnc" "article, wider"
if [ "${2:-}" = all ]; then
  python3 "$top/bench/make_schema.py" covers 42 42 7 15 88 >"$work/large.rnc"
  compare "$work/large.rnc" "$work/large.rnc" "large"
  python3 "$top/bench/make_schema.py" covers 41 42 7 15 88 900 >"$work/alike.rnc"
  compare "$work/alike.rnc" "$work/alike.rnc" "large, names alike"
fi
