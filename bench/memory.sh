#!/usr/bin/env bash
# Refuses memory. First each request of a call in turn, for each command and each kind of answer: the call has to end with
# status 7 and write nothing, or to answer as before; past 2,000 requests the first and last 500 and 1,000 between. Then
# `valid --stream 7` for two documents of 14,000 bytes, 2,000 nested elements and one tag of spaces, which has to ask as often
# for both, since what a stream takes doesn't depend on its document. Then the commands with files of 64 MB under `ulimit -v`.
# It prints a line for each; where one is otherwise it tells so, and the status is 1. It wants cc, python3 and the C library of
# GNU, to which the program is linked as it starts. Word: `requests`, `stream` or `bounds` for one
# part alone; behind `requests` a part of the names of calls, for these alone.
set -eu
shopt -s extglob
. "$(dirname "$0")/program.sh"
cat >"$work/refuse.c" <<'C'
#include <errno.h>
#include <fcntl.h>
#include <stdio.h>
#include <stdlib.h>
#include <string.h>
#include <sys/mman.h>
#include <sys/wait.h>
#include <unistd.h>

void *__libc_malloc(size_t size);
void *__libc_realloc(void *old, size_t size);

enum { ALL = 2000, OUTER = 500, BETWEEN = 1000, SECONDS = 60 };

/* How many requests there were, shared with the process that counts them; the number of the one that is refused. */
static long *asked, refused;

/* Counts a request, and tells whether it is the one that is refused. */
static int refuse(void) {
  if (!asked) return 0;
  *asked += 1;
  if (*asked == refused) errno = ENOMEM;
  return *asked == refused;
}

void *malloc(size_t size) { return refuse() ? NULL : __libc_malloc(size); }

void *realloc(void *old, size_t size) { return refuse() ? NULL : __libc_realloc(old, size); }

/* The file with what a call writes, and that with what it writes where nothing is refused. */
static int told, first;

/* Whether both files hold the same. */
static int same(void) {
  static char one[65536], other[65536];
  off_t size = lseek(told, 0, SEEK_END), place = 0;
  if (size != lseek(first, 0, SEEK_END)) return 0;
  while (place < size) {
    ssize_t read = pread(told, one, sizeof one, place);
    if (read <= 0 || pread(first, other, read, place) != read || memcmp(one, other, read)) return 0;
    place += read;
  }
  return 1;
}

/* Begins the program with one request refused, or none: 1 in its process, else 0 and how it ended. */
static int begin(long number, int output, int *ended) {
  refused = number;
  *asked = 0;
  if (ftruncate(output, 0)) _exit(99);
  lseek(output, 0, SEEK_SET);
  pid_t child = fork();
  if (child < 0) _exit(99);
  if (!child) {
    if (dup2(output, 1) != 1) _exit(99);
    alarm(SECONDS);
    return 1;
  }
  if (waitpid(child, ended, 0) != child) _exit(99);
  return 0;
}

static const char *wrong(int ended, int wanted) {
  if (WIFSIGNALED(ended)) return "a signal";
  if (WEXITSTATUS(ended) == wanted) return same() ? NULL : "another answer";
  if (WEXITSTATUS(ended) != 7) return "another status";
  return lseek(told, 0, SEEK_END) ? "status 7 with an answer" : NULL;
}

/* Forks a process for each request before the program begins, and lets each go on into it. */
__attribute__((constructor)) static void refuse_each(void) {
  int ended, others = 0, tried = 0, bad = 0;
  const char *name = getenv("NAME");
  if (!name) return;
  unsetenv("LD_PRELOAD");
  asked = mmap(NULL, sizeof *asked, PROT_READ | PROT_WRITE, MAP_SHARED | MAP_ANONYMOUS, -1, 0);
  first = open("first", O_RDWR | O_CREAT | O_TRUNC, 0600);
  told = open("told", O_RDWR | O_CREAT | O_TRUNC, 0600);
  if (asked == MAP_FAILED || first < 0 || told < 0) _exit(99);
  if (begin(0, first, &ended)) return;
  long all = *asked;
  int wanted = WIFEXITED(ended) ? WEXITSTATUS(ended) : -1;
  for (long number = 1; number <= all; number++) {
    if (all > ALL && number > OUTER && number <= all - OUTER && (number - OUTER) * BETWEEN / (all - 2 * OUTER) == (number - OUTER - 1) * BETWEEN / (all - 2 * OUTER)) continue;
    int status;
    if (begin(number, told, &status)) return;
    const char *fault = wrong(status, wanted);
    tried++;
    others += WIFEXITED(status) && WEXITSTATUS(status) == 7;
    if (fault && bad++ < 3) dprintf(1, "WRONG, %s: request %ld of %ld: %s, %d\n", name, number, all, fault, status);
  }
  dprintf(1, "%s: status %d, %ld requests, %d refused: %d times status 7, else as before\n", name, wanted, all, tried, others);
  _exit(bad ? 98 : 0);
}
C
cc -shared -fPIC -O1 -Wall -o "$work/refuse.so" "$work/refuse.c"
cp "$top"/examples/first/* "$work"
cd "$work"
wrong=0

# A call: its name, the status and the answer (a pattern of the shell for its first line) that it has to have, and its words.
# Each of its requests is refused in turn; `requests` tells how many there are.
refuse_each() {
  local line
  line=$(NAME=$1 LD_PRELOAD=$work/refuse.so "$program" "${@:4}") || wrong=1
  echo "$line"
  requests=${line##*"status $2, "}
  requests=${requests%% *}
  # shellcheck disable=SC2053
  [[ $line == *": status $2, "* && $(head -1 first) == $3 ]] && return
  wrong=1
  echo "WRONG, $1: $(head -c 200 first), in place of status $2, $3"
}

each_kind() {
  local name status line words
  python3 "$top/bench/make_answers.py" >calls
  while IFS=$'\t' read -r name status line words; do
    [[ $name == *$1* ]] || continue
    # shellcheck disable=SC2086
    refuse_each "$name" "$status" "$line" $words
  done <calls
}

in_pieces() {
  local nested
  echo 'start = e e = element a{e?}' >schema
  python3 -c 'print("<a>" * 2000 + "</a>" * 2000, end="")' >nested
  python3 -c 'print("<a" + " " * 13996 + "/>", end="")' >tag
  refuse_each 'valid --stream 7: 2,000 nested elements' 0 valid valid --stream 7 schema nested
  nested=$requests
  refuse_each 'valid --stream 7: one tag of spaces' 0 valid valid --stream 7 schema tag
  [ "$nested" = "$requests" ] || { echo 'WRONG, not as many requests for both'; wrong=1; }
}

# A call with files of 64 MB, under each bound: the first line that it has without one (a pattern), or status 7 and nothing.
bounded() {
  local megabytes status words=("${@:3}") found=''
  for megabytes in 64 128 256 512 1024 none; do
    status=0
    (
      [ "$megabytes" = none ] || ulimit -v $((megabytes * 1024))
      exec timeout 120 "$program" "${words[@]}"
    ) >told 2>/dev/null || status=$?
    found+=" $megabytes $status"
    if [ "$status" = 7 ] && [ ! -s told ] && [ "$megabytes" != none ]; then continue; fi
    # shellcheck disable=SC2053
    if [ "$status" -lt 6 ] && [[ $(head -c 1000 told | head -1) == $2 ]]; then continue; fi
    wrong=1
    echo "WRONG, $1, under $megabytes MB: status $status, $(head -c 100 told)"
  done
  echo "$1: by megabytes the status$found"
}

# Files of 64 MB: texts that are accepted, and some that are refused at their last byte.
large_files() {
  python3 - <<'P'
SIZE = 64 << 20
SHEET = '<xsl:stylesheet version="1.0" xmlns:xsl="http://www.w3.org/1999/XSL/Transform">%s</xsl:stylesheet>'


def fill(name, front, part, back):
    with open(name, "w") as file:
        count = (SIZE - len(front) - len(back)) // len(part)
        file.write(front + part * count + back)


fill("comments.rnc", "element a { text }", "# note\n", "")
fill("marks.rnc", "element a { ", "(", "")
fill("names.rnc", "element a { (", "a|", "a) }")
fill("elements.xml", "<a>", "<b/>", "</a>")
fill("text.xml", "<a>", "text ", "</a>")
fill("attributes.xml", "<a", " ", "/>")
fill("open.xml", "<a>", "<b></b>", "")
fill("comments.xsl", SHEET.partition("%s")[0], "<!-- note -->", '<xsl:template match="/"><r/></xsl:template></xsl:stylesheet>')
fill("texts.xsl", SHEET.partition("%s")[0] + '<xsl:template match="/"><r>', "text<b/>", "</r></xsl:template></xsl:stylesheet>")
fill("rules.xsl", SHEET.partition("%s")[0], '<xsl:template match="a"><r/></xsl:template>', "</xsl:stylesheet>")
fill("pairs.cert", "xslt-typecheck certificate 1\noutputs 1\nm", " 0>0", "\n")
fill("lines.cert", "xslt-typecheck certificate 1\noutputs 65536\n", "m 0>0\n", "")
with open("any.rnc", "w") as file:
    file.write("start = any any = element * { (text | any)* }")
with open("apply.xsl", "w") as file:
    file.write(SHEET % '<xsl:template match="*"><xsl:copy><xsl:apply-templates/></xsl:copy></xsl:template>')
with open("small.xml", "w") as file:
    file.write("<a/>")
P
  bounded 'a schema of comments' valid valid comments.rnc small.xml
  bounded 'a schema of parentheses' 'refused marks.rnc *' valid marks.rnc small.xml
  bounded 'a schema of names' '*' valid names.rnc small.xml
  bounded 'two schemas of comments' same same comments.rnc comments.rnc
  bounded 'a schema of comments, include' 'included *' include comments.rnc any.rnc
  for document in elements text attributes; do
    bounded "a document, $document" valid valid any.rnc $document.xml
    bounded "a document in pieces, $document" '@(valid|limit tag 65536)' valid --stream 65536 any.rnc $document.xml
    bounded "a run, $document" '*' run apply.xsl $document.xml
  done
  bounded 'a document that is not closed' 'refused open.xml malformed at *' valid any.rnc open.xml
  bounded 'a document that is not closed, in pieces' 'refused open.xml malformed at *' valid --stream 7 any.rnc open.xml
  for sheet in comments texts rules; do
    bounded "a stylesheet, run, $sheet" '*' run $sheet.xsl small.xml
    bounded "a stylesheet, check, $sheet" '*' check any.rnc any.rnc $sheet.xsl
  done
  for certificate in pairs lines; do
    bounded "a certificate, verify, $certificate" 'rejected *' verify any.rnc any.rnc apply.xsl $certificate.cert
    bounded "a certificate, upgrade, $certificate" 'rejected *' upgrade $certificate.cert
  done
}

for part in ${1:-requests stream bounds}; do
  case $part in
    requests) each_kind "${2:-}" ;;
    stream) in_pieces ;;
    bounds) large_files ;;
    *) echo "no part $part"; exit 2 ;;
  esac
done
exit $wrong
