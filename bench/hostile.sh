#!/bin/bash
# Times patterns that look at the same bytes from many cursors, each on a subject of 1,000,000 bytes, with the step limit that
# a program has by itself. A row's time grows with its steps and with the subject, never with their product. Then times keys
# whose hashes end in the same bits beside as many others: each ratio stays under 3.
set -eu
top=$(cd "$(dirname "$0")/.." && pwd)
program=${1:-$top/snobol4}
work=$(mktemp -d)
trap 'rm -rf "$work"' EXIT
TIMEFORMAT=%U

# run_row NAME WHAT: the program that was written
run_row() {
    local seconds told
    seconds=$({ time "$program" run "$work/program" >"$work/out" 2>"$work/err" </dev/null || true; } 2>&1)
    told=$(cat "$work/out" "$work/err")
    printf '%7s s  %-26s %-52s %s\n' "$seconds" "$1" "$2" "${told#snobol4: }"
}

# time_row SUBJECT PATTERN
time_row() {
    printf ' S = %s\n T = "A"\n S %s :S(YES)F(NO)\nYES OUTPUT = "found" :(END)\nNO OUTPUT = "none"\nEND\n' "$1" "$2" >"$work/program"
    run_row "$1" "$2"
}

# time_choice COUNT SUBJECT WORD CHOICE: five searches for COUNT words, each joined to the choice P before it
time_choice() {
    printf ' I = %s\n T = DUPL("A",5000) "B"\n P = %s\nMORE P = %s\n I = GT(I,2) I - 1 :S(MORE)\n' "$1" "$3" "$4" >"$work/program"
    printf ' S = %s\n J = 5\nLOOK S P :S(END)\n J = GT(J,1) J - 1 :S(LOOK)\n OUTPUT = "none"\nEND\n' "$2" >>"$work/program"
    run_row "$2" "$1 words $3, P = $4"
}

# alternatives COUNT PRIMITIVE: so many of the primitive, each before a byte that doesn't follow, behind one another
alternatives() {
    local i choice="$2 '1'"
    for ((i = 2; i <= $1; i++)); do choice+=" | $2 '$i'"; done
    printf '(%s)' "$choice"
}

# time_sets COUNT PRIMITIVE BYTES: so many alternatives of the primitive, each with another set, of these and four bytes more
time_sets() {
    awk -v count="$1" -v primitive="$2" -v bytes="$3" -v subject="$same" 'BEGIN {
        printf " S = %s\n P = FAIL\n", subject
        for (i = 0; i < count; i++)
            printf " P = %s(\"%s%s%s%s%s\") \"!\" | P\n", primitive, bytes, substr("BCDEFGHIJKLMNOPQ", int(i / 4096) % 16 + 1, 1),
                substr("abcdefghijklmnop", int(i / 256) % 16 + 1, 1), substr("RSTUVWXYZqrstuvw", int(i / 16) % 16 + 1, 1), substr("0123456789+-*/=_", i % 16 + 1, 1)
        printf " S P :S(YES)F(NO)\nYES OUTPUT = \"found\" :(END)\nNO OUTPUT = \"none\"\nEND\n"
    }' >"$work/program"
    run_row "$same" "$1 alternatives of $2, each with another set"
}

# time_texts COUNT: so many alternatives, each a literal of another length from 100,000 bytes on
time_texts() {
    printf ' I = %s\n P = FAIL\nMORE P = P | DUPL("A",100000 + I)\n I = GT(I,1) I - 1 :S(MORE)\n' "$1" >"$work/program"
    printf ' S = %s\n S P ANY("B") :S(YES)F(NO)\nYES OUTPUT = "found" :(END)\nNO OUTPUT = "none"\nEND\n' "$same" >>"$work/program"
    run_row "$same" "$1 alternatives, each another literal of 100,000 bytes and more"
}

# time_held PATTERN: T, U and A<1> hold long strings
time_held() {
    printf ' S = %s\n T = DUPL("A",500000)\n U = DUPL("A",400000)\n A = ARRAY(1)\n A<1> = T\n' "$same" >"$work/program"
    printf ' S %s :S(YES)F(NO)\nYES OUTPUT = "found" :(END)\nNO OUTPUT = "none"\nEND\n' "$1" >>"$work/program"
    run_row "$same" "$1, T and U of 500,000 and 400,000 bytes"
}

# time_again COUNT PATTERN: so many statements that look for it in 300,000 bytes, none of which is looked at
time_again() {
    printf ' S = DUPL("A",300000)\nLOOK S %s :S(END)\n I = LT(I,%s) I + 1 :S(LOOK)\n OUTPUT = "none"\nEND\n' "$2" "$1" >"$work/program"
    run_row "300,000 times A" "$2, $1 times"
}

same="DUPL('A',1000000)" mixed="DUPL('AB',500000)" open="DUPL('(',1000000)"
nested="DUPL('(',500000) DUPL(')',500000)" unclosed="DUPL('(A',500000)"
time_row "$same" "BREAK(',')"
time_row "$same" "SPAN('A') 'B'"
time_row "$same" "BREAKX('A') 'B'"
time_row "$same" "(BREAK(',') | SPAN('A')) 'B'"
time_row "$same" "BREAK(',') BREAK(';') BREAK(':')"
time_row "$same" "ARB BREAK(',')"
time_row "$same" "ARB SPAN('A') 'B'"
time_row "$same" "ARB ARB 'B'"
time_row "$same" "ARB . X 'B'"
time_row "$mixed" "ARB ('AA' | 'BB')"
time_row "$same" "ARBNO(SPAN('A')) 'B'"
time_row "$same" "ARBNO(SPAN('A') | BREAK(',')) 'B'"
time_row "$same" "ARBNO(BREAKX('A') LEN(1)) 'B'"
time_row "$same" "ARBNO(LEN(1)) 'B'"
time_row "$same" "ARBNO(NOTANY('B')) 'B'"
time_row "$same" "ARBNO(LEN(1) RTAB(0)) 'B'"
time_row "$same" "ARBNO(FENCE(SPAN('A'))) 'B'"
time_row "$same" "DUPL('A',1000) 'B'"
time_row "$same" "ARBNO(DUPL('A',1000)) 'B'"
time_row "$mixed" "SPAN('A') SPAN('B') 'C'"
time_row "$mixed" "SPAN('AB') 'C'"
time_row "$mixed" "ARBNO(BREAK('B') SPAN('B')) 'C'"
time_row "$open" "BAL 'B'"
time_row "$open" "ARBNO(BAL) 'B'"
time_row "$nested" "BAL 'B'"
time_row "$unclosed" "BAL 'B'"
time_row "$unclosed" "ARBNO(BAL) 'B'"
for count in 600 4000; do
    time_choice $count "DUPL('W9 ',133)" "'W' I 'Q'" "P | ('W' I 'Q')"
    time_choice $count "DUPL('W9 ',133)" "'W' I 'Q'" "('W' I 'Q') | P"
done
time_choice 10000 "DUPL('A',20000)" T "P | T"
time_choice 10000 "DUPL('A',20000)" T "T | P"
time_row "$same" "(DUPL('A',500000) 'B')"
for count in 4 8 9 16; do
    time_row "$same" "$(alternatives $count "SPAN('A')")"
    time_row "$same" "$(alternatives $count "BREAK(',')")"
done
for count in 33 64 200 2000 16000 50000; do
    time_sets $count SPAN A
    time_sets $count BREAK ""
    time_sets $count BREAKX ""
    time_sets $count "*SPAN" A
done
time_row "$same" "DUPL('A',500000) ANY('B')"
time_row "$same" "DUPL('A',60000) 'B'"
time_row "$same" "(DUPL('A',250000) 'C' DUPL('A',250000)) ANY('B')"
time_row "$mixed" "(DUPL('AB',200000) | DUPL('AB',100000) 'C' DUPL('AB',100000)) 'C'"
time_row "DUPL(DUPL('A',5000) 'B',199)" "(DUPL(DUPL('A',5000) 'B',30) | LEN(1) DUPL('A',4999)) 'C'"
time_row "DUPL('A',200000)" "ARB DUPL('A',100000) 'B'"
time_texts 1000
time_row "DUPL('A',389990) 'B' DUPL('A',309999) 'B' DUPL('A',299999)" "BREAKX('B') 'C'"
time_row "DUPL(DUPL('A',9990) 'B',100)" "BREAKX('B') 'C'"
time_row "$same" "*SPAN('A') 'B'"
time_row "$same" "SPAN(*T) 'B'"
time_held "*T 'B'"
time_held "(*T | *U) 'B'"
time_held "*T \$ X *U 'B'"
time_held "*A<1> 'B'"
time_row "$same" "REM \$ X 'B'"
time_row "$same" "SPAN('A') \$ X 'B'"
time_row "$same" "ARB \$ X 'B'"
time_again 2000 "POS(0) 'B'"
time_again 2000 "RPOS(300001)"
time_again 2000 "TAB(0) 'B'"
time_again 2000 "LEN(300001)"

# seconds PROGRAM INPUT, the least of three
seconds() {
    "$program" run "$1" <"$2" >"$work/out" || { echo "hostile.sh: status $? of $1" >&2 && return 1; }
    for _ in 1 2 3; do
        { time "$program" run "$1" <"$2" >"$work/out" 2>"$work/err"; } 2>&1
    done | sort -n | head -n 1
}

# ratio ROW PROGRAM INPUT OTHER [OTHER-PROGRAM]
ratio() {
    local slow fast
    slow=$(seconds "$2" "$3")
    fast=$(seconds "${5:-$2}" "$4")
    awk -v row="$1" -v slow="$slow" -v fast="$fast" \
        'BEGIN { printf "%7.2f s  %-40s %7.2f s with other keys, ratio %.2f\n", slow, row, fast, slow / (fast < 0.01 ? 0.01 : fast) }'
}

# text_of KEYS writes a program whose text has them as names, and which ends before any is used
text_of() {
    echo ' :(END)' && paste -d ' ' - - <"$1" | sed 's/\(.*\) \(.*\)/ \1 = \2/' && echo END
}

cc -O2 -o "$work/collide" "$top/bench/collide.c"
printf '%s\n' ' T = TABLE()' 'L W = INPUT :F(END)' ' T<W> = T<W> + 1 :(L)' END >"$work/words"
printf '%s\n' ' T = TABLE()' 'L W = INPUT :F(END)' ' T<+W> = T<+W> + 1 :(L)' END >"$work/numbers"
printf '%s\n' 'L W = INPUT :F(END)' ' $W = 1 :(L)' END >"$work/variables"
for hash in "fold 13" "sip 11"; do
    for kind in word int name; do
        # shellcheck disable=SC2086
        set -- $hash
        "$work/collide" "$1" $kind "$2" 160000 >"$work/keys"
        "$work/collide" "$1" $kind 0 160000 >"$work/others"
        for count in 40000 80000 160000; do
            head -n $count "$work/keys" >"$work/some"
            head -n $count "$work/others" >"$work/as-many"
            case $kind in
            word) ratio "T<W> $hash $count" "$work/words" "$work/some" "$work/as-many" ;;
            int) ratio "T<N> $hash $count" "$work/numbers" "$work/some" "$work/as-many" ;;
            name)
                ratio "\$W $hash $count" "$work/variables" "$work/some" "$work/as-many"
                text_of "$work/some" >"$work/text"
                text_of "$work/as-many" >"$work/other-text"
                ratio "names in a text $hash $count" "$work/text" /dev/null /dev/null "$work/other-text"
                ;;
            esac
        done
    done
done
