# The built program, for the scripts beside this one: `$program`, that of the variable TYPECHECK or that of this repository,
# proved and built first where it isn't.
top=$(cd "$(dirname "${BASH_SOURCE[0]}")/.." && pwd)
program=${TYPECHECK:-$top/crates/typecheck/out/typecheck}
[ -n "${TYPECHECK:-}" ] || "$top/typecheck" valid "$top/bench/article.rnc" "$top/bench/article.xml" >&2 || exit 1
work=$(mktemp -d)
trap 'rm -rf "$work"' EXIT
