#!/usr/bin/env bash
# Verifies certificates beside what `check` and `prove` take on the same safe triples, those like real ones with the
# instructions that callgrind counts, and what is aimed at: of `verify` a tenth more than of `check`, of `prove` a quarter more,
# of `check` as told; and reads a certificate's text of version 1, of 64 MiB, beside `xmllint --noout` on as
# many bytes: the time and the peak memory of each. Each run is stopped after some seconds. It wants python3 and the Debian
# packages time, valgrind and libxml2-utils. Words: the number of runs (5), the seconds (30), the bytes (67100000).
set -eu
. "$(dirname "$0")/program.sh"
. "$(dirname "$0")/triples.sh"
runs=${1:-5}
seconds=${2:-30}
bytes=${3:-67100000}
measure="python3 $top/bench/measure.py --seconds $seconds"

# Lines of triples, and an option of measure.py or nothing.
verify_all() {
  echo "$1" | while read -r line; do
    name=${line%%:*}
    # shellcheck disable=SC2086
    make_triple $name
    texts="$triple/I $triple/O $triple/S"
    status=0
    # shellcheck disable=SC2086
    timeout "$seconds" "$program" prove $texts >"$triple/C" || status=$?
    if [ "$status" = 0 ]; then
      echo "$name: $("$program" verify $texts "$triple/C"), a certificate of $(wc -c <"$triple/C") bytes"
      # shellcheck disable=SC2046,SC2086
      $measure $2 $(aim_of "$name") --times 1 1.25 1.1 -- "$runs" check "$program check $texts" \
        prove "$program prove $texts" verify "$program verify $texts $triple/C"
    elif [ "$status" = 124 ]; then
      echo "$name: no certificate within $seconds seconds"
    else
      echo "$name: no certificate, $(head -1 "$triple/C")"
    fi
  done
}

verify_all "$like_real" --instructions
verify_all "$costly" ""

python3 "$top/bench/make_certificate.py" "$bytes" >"$work/certificate"
python3 "$top/bench/make_document.py" attributes "$bytes" >"$work/document.xml"
make_triple article
echo "a certificate's text of $(wc -c <"$work/certificate") bytes, a document of $(wc -c <"$work/document.xml")"
$measure "$runs" 'xmllint --noout' "xmllint --noout $work/document.xml" \
  upgrade "$program upgrade $work/certificate" \
  'verify, which rejects it' "$program verify $triple/I $triple/O $triple/S $work/certificate"
