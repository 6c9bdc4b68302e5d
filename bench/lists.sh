#!/bin/bash
# Times lists of 100,000 nodes of a type of the program's own, ten of them, beside Icon's records and Perl's arrays where
# these are installed: the least processor time of three runs, and the most memory of the last one.
set -eu
top=$(cd "$(dirname "$0")/.." && pwd)
program=${1:-$top/snobol4}
work=$(mktemp -d)
trap 'rm -rf "$work"' EXIT
TIMEFORMAT='%U %S'
for _round in 1 2 3 4 5 6 7 8 9 10; do echo 5000050000; done >"$work/wanted"

# time_row NAME WORD..: runs the words, holds the output to the sums, and writes a row.
time_row() {
    local name=$1 seconds
    shift
    seconds=$(for _run in 1 2 3; do
        { time "$@" >"$work/sums" 2>"$work/errors"; } 2>&1 | awk '{ print $1 + $2 }'
        cmp -s "$work/wanted" "$work/sums" || echo "$name: other sums" >&2
    done | sort -n | head -n 1)
    printf '%-8s %6s s' "$name" "$seconds"
    if [ -x /usr/bin/time ]; then
        /usr/bin/time -f '%M KB' -o "$work/memory" "$@" >/dev/null
        printf ' %12s' "$(cat "$work/memory")"
    fi
    echo
}

time_row snobol4 "$program" run --statements 100000000 "$top/bench/lists/lists.sno"
if command -v icont >/dev/null; then
    # A dot in the path of what -o names would be taken for one before a suffix.
    (cd "$work" && icont -s -o lists "$top/bench/lists/lists.icn")
    # Its collector goes down a list by recursion, for which the usual stack of 8 MB is too small.
    time_row icon bash -c "ulimit -s unlimited; exec iconx '$work/lists'"
fi
if command -v perl >/dev/null; then
    time_row perl perl "$top/bench/lists/lists.pl"
fi
