#!/bin/sh
# Times the listing of every way in which three ARBs match 150 bytes: 585,276 ways and a last line.
set -eu
top=$(cd "$(dirname "$0")/.." && pwd)
subject=$(printf '%0150d' 0 | tr 0 A)
lines=$("$top/snobol4" ways --anchor --steps 1000000000 "ARB ARB ARB" "$subject" | wc -l)
[ "$lines" -eq 585277 ] || { echo "ways.sh: $lines lines instead of 585277" >&2; exit 1; }
time "$top/snobol4" ways --anchor --steps 1000000000 "ARB ARB ARB" "$subject" >/dev/null
