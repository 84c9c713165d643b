# Safe triples of two schemas and a stylesheet, for the scripts beside this one: a line each, with `article` or a family of
# make_triple.py and its numbers, and the answer where it is known from elsewhere. `make_triple NAME..` makes the files
# $triple/I, O and S of one; `aim_of NAME` tells what is aimed at in words of measure.py: how many times the million
# instructions that a plain engine without contracts took, as far as somebody measured it, or how many seconds.
# shellcheck disable=SC2034,SC2154
like_real="article: safe trees 16 hedges 27 outputs 10
report 12 3 8: safe trees 74 hedges 1507 outputs 17
above 20 1 4: safe trees 103 hedges 691 outputs 14
copies 60: safe trees 60 hedges 239 outputs 239
page 4 3
page 10 3
page 20 2"
costly="bodies 10 20000
dense 9 44
wide 5 3 240
wraps 10 300 5 100 0
paths 900 2 6
sets 59 29
marked 9 63 45: safe trees 19 hedges 1023 outputs 65458"

aim_of() {
  case $1 in
  'report 12 3 8') echo --plain 64 --aim 0.65 ;;
  'above 20 1 4') echo --plain 528 --aim 0.13 ;;
  'copies 60') echo --plain 48 --aim 0.5 ;;
  'page 4 3') echo --plain 34 --aim 0.6 ;;
  bodies* | dense* | wide* | wraps* | paths*) echo --most 3 ;;
  esac
}

make_triple() {
  triple=$work/$1
  if [ "$1" = article ]; then
    mkdir -p "$triple"
    cp "$top/examples/article/article.rnc" "$triple/I"
    cp "$top/examples/article/page.rnc" "$triple/O"
    cp "$top/examples/article/mended.xsl" "$triple/S"
  else
    python3 "$top/bench/make_triple.py" "$1" "$triple" "${@:2}"
  fi
}
