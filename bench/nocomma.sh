#!/bin/sh
# Times an unanchored BREAK whose byte does not stand in a subject of 1,000,000 bytes, ten times over.
set -eu
top=$(cd "$(dirname "$0")/.." && pwd)
program=${1:-$top/snobol4}
work=$(mktemp -d)
trap 'rm -rf "$work"' EXIT
cat >"$work/nocomma" <<'PROGRAM'
 S = DUPL('A',1000000)
 N = 10
ROUND N = GT(N,0) N - 1 :F(END)
 S BREAK(',') :F(ROUND)
 OUTPUT = 'a comma'
END
PROGRAM
"$program" run --match-steps 1000000000 "$work/nocomma"
time "$program" run --match-steps 1000000000 "$work/nocomma"
