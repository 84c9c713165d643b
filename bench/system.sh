#!/usr/bin/env bash
# Calls the program with operands and outputs that are no plain files: the status and the whole answer of each, which stand
# here as README and PROFILE tell them. It prints a line for each case; another answer is shown, and then the status is 1. It
# wants python3 and, as root, `setpriv` of util-linux and the right to mount; where one is missing the case is told as not
# tried. Word: the seconds within which a call has to end (5; on an idle machine 1).
set -eu
. "$(dirname "$0")/program.sh"
seconds=${1:-5}
wrong=0
usage='usage: check|prove [--limit N] IN OUT SHEET; verify IN OUT SHEET CERT; run SHEET DOC; valid SCHEMA DOC; demo N; upgrade CERT; dead IN SHEET; include A B; same A B; valid --stream N SCHEMA DOC'
commands='check input.rnc output.rnc sheet.xsl
check --limit 9 input.rnc output.rnc sheet.xsl
prove input.rnc output.rnc sheet.xsl
verify input.rnc output.rnc sheet.xsl certificate
upgrade certificate
dead input.rnc sheet.xsl
run sheet.xsl document.xml
valid input.rnc document.xml
valid --stream 7 input.rnc document.xml
include input.rnc output.rnc
same input.rnc output.rnc'
cp "$top"/examples/first/* "$work"
cp "$program" "$work/typecheck"
chmod 711 "$work"
cd "$work"
chmod 644 input.rnc
./typecheck prove input.rnc output.rnc sheet.xsl >certificate

# The program with its words, stopped where it takes too long: status 124.
call() {
  timeout "$seconds" ./typecheck "$@"
}

slow_call() {
  seconds=30 call "$@"
}

# Whether the last call's status and answer, which lies in `told`, are as wanted, with nothing in `complaint`.
is_as_wanted() {
  [ "$1" = "$2" ] && [ "$(cat told)" = "$3" ] && [ ! -s complaint ] && return
  wrong=1
  echo "WRONG, $4: status $1, $(head -c 300 told complaint), in place of status $2, $3"
  return 1
}

# A case: its name, the status and the answer that are wanted, and what is called.
expect() {
  local status=0
  "${@:4}" >told 2>complaint || status=$?
  if is_as_wanted $status "$2" "$3" "$1"; then echo "$1: status $2${3:+, ${3:0:60}}"; fi
}

# The same of each place of each command, with this operand in place of the one that stands there.
in_each_place() {
  local place words status before=$wrong
  while read -ra words; do
    for ((place = 1; place < ${#words[@]}; place++)); do
      [[ ${words[place]} =~ ^(--|[0-9]) ]] && continue
      status=0
      call "${words[@]:0:place}" "$4" "${words[@]:place+1}" >told 2>complaint || status=$?
      is_as_wanted $status "$2" "$3" "$1, ${words[*]:0:place}" || true
    done
  done <<<"$commands"
  [ "$before" != "$wrong" ] || echo "$1, in each place of each command: status $2, ${3:0:60}"
}

# Operands that can't be read.
cannot_read() {
  in_each_place "$1" 5 "cannot read $2" "$2"
}
mkdir folder
ln -s nothing dangling
ln -s loop loop
ln -s turn turn_back
ln -s turn_back turn
long=$(printf 'n%.0s' {1..5000})
python3 -c 'import socket; socket.socket(socket.AF_UNIX).bind("socket")'
cannot_read 'a directory' folder
cannot_read 'no file' nothing
cannot_read 'a link to nothing' dangling
cannot_read 'a link to itself' loop
cannot_read 'two links to each other' turn
cannot_read 'a name below a file' document.xml/a
cannot_read 'a name of 256 bytes' "${long:0:256}"
cannot_read 'a name of 5,000 bytes' "$long"
cannot_read 'a name of 5,000 bytes in folders' "$(printf 'folder/../%.0s' {1..500})document.xml"
cannot_read 'a file whose reads fail' /proc/self/mem
cannot_read 'a socket' socket
expect 'declarations in no file' 5 'cannot read dtd:a:nothing' call valid dtd:a:nothing document.xml
expect 'a malformed schema, no document' 5 'cannot read nothing' call valid sheet.xsl nothing
expect 'no schema, no document' 5 'cannot read nothing' call valid nothing dangling

# Operands that one may not read, for whoever isn't root.
without_rights() {
  if [ "$(id -u)" = 0 ]; then
    timeout "$seconds" setpriv --reuid 65534 --regid 65534 --clear-groups ./typecheck "$@"
  else
    call "$@"
  fi
}
mkdir closed
cp document.xml closed
cp document.xml secret
chmod 000 secret closed
if [ "$(id -u)" != 0 ] || setpriv --reuid 65534 --regid 65534 --clear-groups true; then
  expect 'no right to read the file' 5 'cannot read secret' without_rights valid input.rnc secret
  expect 'no right to enter its folder' 5 'cannot read closed/document.xml' without_rights valid input.rnc closed/document.xml
else
  echo 'no right to read: not tried'
fi
chmod 700 closed

# Operands without an end, and about as long as they may be.
truncate -s 67108864 longest
truncate -s 67108865 longer
truncate -s 1T terabyte
in_each_place '/dev/zero' 4 'limit file 67108864' /dev/zero
in_each_place 'a terabyte' 4 'limit file 67108864' terabyte
expect 'a document of 67,108,864 zero bytes' 3 'refused longest malformed at 0' slow_call valid input.rnc longest
expect 'a schema of as many' 3 'refused longest malformed at 0' slow_call valid longest document.xml
expect 'one byte more' 4 'limit file 67108864' call valid input.rnc longer
expect 'one byte more, behind a malformed schema' 4 'limit file 67108864' call valid sheet.xsl longer
expect 'one byte more, behind no file' 5 'cannot read nothing' call valid nothing longer
expect 'one byte more, before no file' 4 'limit file 67108864' call valid longer nothing

# Operands that are pipes and devices.
in_pieces() {
  rm -f fifo
  mkfifo fifo
  (for piece in '<a' '>' '</a' '>'; do printf '%s' "$piece" && sleep 0.05; done >fifo) &
  call "$@" fifo
}
unwritten() {
  rm -f fifo
  mkfifo fifo
  seconds=1 call "$@" fifo
}
two_pipes() {
  call valid <(cat input.rnc) <(printf '<a' && sleep 0.1 && printf '/>')
}
long_pipe() {
  slow_call valid input.rnc <(python3 -c 'print("<a>" + " " * 9000000 + "</a>")')
}
from_input() {
  printf '%s' "$1" | call "${@:2}"
}
without_input() {
  call valid input.rnc document.xml <&-
}
expect 'a FIFO, to its end' 0 valid in_pieces valid input.rnc
expect 'a FIFO, to its end, --stream' 0 valid in_pieces valid --stream 1 input.rnc
expect 'a FIFO that nobody writes: waited for' 124 '' unwritten valid input.rnc
expect 'two pipes <(..)' 0 valid two_pipes
expect 'nine million bytes by a pipe' 0 valid long_pipe
expect 'the standard input' 0 valid from_input '<a/>' valid input.rnc /dev/stdin
expect 'the standard input twice: nothing is left' 3 'refused /dev/stdin undefined at 0' \
  from_input 'element a { empty }' same /dev/stdin /dev/stdin
expect 'no standard input' 0 valid without_input
expect '/dev/null, a schema' 3 'refused /dev/null undefined at 0' call valid /dev/null document.xml
expect '/dev/null, a document' 3 'refused /dev/null malformed at 0' call valid input.rnc /dev/null
expect '/dev/null, a document, --stream' 3 'refused /dev/null malformed at 0' call valid --stream 7 input.rnc /dev/null
expect '/dev/null, a stylesheet' 3 'refused /dev/null malformed at 0' call run /dev/null document.xml
expect '/dev/null, a certificate' 1 'rejected 1 form' call verify input.rnc output.rnc sheet.xsl /dev/null
expect '/dev/null, a certificate, upgrade' 1 'rejected 1 form' call upgrade /dev/null
expect '/dev/null, declarations' 1 invalid call valid dtd:a:/dev/null document.xml

# One file in two places, and names.
cp document.xml $'two\nlines'
printf '<a' >$'end\n'
expect 'one file twice' 0 same call same input.rnc input.rnc
expect 'a stylesheet as its document' 0 '<r><x/></r>' call run sheet.xsl sheet.xsl
expect 'a schema as a document' 3 'refused input.rnc malformed at 0' call valid input.rnc input.rnc
expect 'a stylesheet in three places' 3 'refused sheet.xsl malformed at 0' call check sheet.xsl sheet.xsl sheet.xsl
expect 'a line feed in a name' 0 valid call valid input.rnc $'two\nlines'
expect 'a line feed in a name that is told' 3 $'refused end\n malformed at 2' call valid input.rnc $'end\n'
expect 'a line feed in the name of no file' 5 $'cannot read no\nfile' call valid input.rnc $'no\nfile'
expect 'a name that is not UTF-8' 2 "$usage" call valid input.rnc $'\xff'
expect 'a name that begins with -' 2 "$usage" call valid input.rnc -document.xml
expect 'an empty name' 2 "$usage" call valid input.rnc ''
expect 'no words' 2 "$usage" call

# Outputs that take nothing.
to_full() {
  call "$@" >/dev/full
}
to_closed() {
  call "$@" >&-
}
to_input() {
  call "$@" 1</dev/null
}
printf '%s' '<xsl:stylesheet version="1.0" xmlns:xsl="http://www.w3.org/1999/XSL/Transform">' \
  '<xsl:template match="/"><r><xsl:value-of select="a"/></r></xsl:template></xsl:stylesheet>' >text.xsl
python3 -c 'print("<a>" + "t" * 1000000 + "</a>", end="")' >text.xml
python3 -c 'print("<r>" + "t" * 1000000 + "</r>")' >text.out
while read -r sink name; do
  expect "$name, yes" 6 '' "$sink" valid input.rnc document.xml
  expect "$name, no" 6 '' "$sink" check input.rnc narrow.rnc sheet.xsl
  expect "$name, a certificate" 6 '' "$sink" prove input.rnc output.rnc sheet.xsl
  expect "$name, a result" 6 '' "$sink" run text.xsl text.xml
  expect "$name, a refusal" 6 '' "$sink" valid input.rnc input.rnc
  expect "$name, a limit" 6 '' "$sink" valid input.rnc longer
  expect "$name, what cannot be read" 6 '' "$sink" valid input.rnc nothing
  expect "$name, the usage line" 6 '' "$sink"
done <<<'to_full /dev/full
to_closed no standard output
to_input an output open for reading'

# Outputs that take a front of a long result: the file that takes it, how many bytes it has to take, and what is called.
front_in() {
  local status=0 size
  "${@:3}" || status=$?
  size=$(wc -c <"$1")
  [ "$size" -ge "$2" ] && [ "$size" -lt "$(wc -c <text.out)" ] && cmp -n "$size" "$1" text.out && return $status
  echo "$1 has $size bytes"
}
to_disk() {
  call run text.xsl text.xml >disk/front
}
to_full_disk() {
  call valid input.rnc document.xml >disk/other
}
to_short_file() (
  ulimit -f 100
  trap "$1" XFSZ
  exec 2>/dev/null
  call run text.xsl text.xml >short
)
mkdir disk
if mount -t tmpfs -o size=64k none disk 2>/dev/null; then
  expect 'a disk of 64 kB that becomes full' 6 '' front_in disk/front 61440 to_disk
  python3 -c 'open("disk/front", "w").write("t" * 65536)' 2>/dev/null || true
  expect 'a disk that is full' 6 '' to_full_disk
  umount disk
else
  echo 'a full disk: not tried'
fi
expect 'a file of 100 kB at most, SIGXFSZ ignored' 6 '' front_in short 102400 to_short_file ''
expect 'a file of 100 kB at most: SIGXFSZ' 153 '' front_in short 102400 to_short_file -

# Pipes that aren't read to their end. The program is started with SIGPIPE ignored before its first write, by the toolchain.
piped() {
  python3 "$top/bench/piped.py" "$1" "$2" front ./typecheck "${@:3}"
}
slowly() {
  piped slow default run text.xsl text.xml && cmp front text.out
}
for handled in ignored default; do
  expect "a pipe whose reader has gone, SIGPIPE $handled" 6 '' piped gone $handled valid input.rnc document.xml
  expect "a reader that goes, SIGPIPE $handled" 6 '' front_in front 4096 piped middle $handled run text.xsl text.xml
done
expect 'a full pipe that does not wait' 6 '' front_in front 4096 piped full default run text.xsl text.xml
expect 'a slow reader: all of it' 0 '' slowly
exit $wrong
