# Checks what documents show: the blocks of commands, and the examples of tables. Read by scripts of this folder, which set
# `top`, the repository, and then call `begin`.
#
# A block that begins with `$` is a list of commands with what each writes:
# - `$ cat NAME.sno`, and the program NAME.sno, for the commands below it;
# - `$ snobol4 WORD...`, `$ snobol4-list WORD...` or `$ printf 'TEXT' | snobol4 WORD...`, standard output, and `status N` where the status isn't 0.
#   `./snobol4` is the same. With `faults` standard error belongs to what is shown.
# A block of another kind has a word behind its ```, as ```text has.
#
# A column of a table whose head begins with `Example` has one of these in each cell, or nothing:
# - `P` on `S`: `LINE`, `LINE`     the lines of ways --anchor P S without `exhausted` at the end, or `none`
# - `P` on `S`, c: e, e            the ends of P from the cursor c, or `none`
# - `E` is `V`                     the line that OUTPUT = E writes
# - `E` is error N                 the error of OUTPUT = E, or of the statement E where it has a =
# - `E` is refused                 the statement E is refused

. "$top/tests/results.sh"
. "$top/tests/programs.sh"

# begin [PROGRAM]: what stands in for snobol4, ./snobol4 at the top where none is given; and the folder to work in.
begin() {
    program=${1:-$top/snobol4}
    case $program in
    /*) ;;
    *) program=$PWD/$program ;;
    esac
    list=$(list_program "$program")
    # The first call may build the program and say so, which must not get into a comparison.
    "$program" --help >/dev/null || { echo "not ok $0: cannot run $program"; exit 1; }
    cd "$top" || exit 1
}

# What is expected begins with -, what came with +.
changes() { diff -u "$1" "$2" | sed 1,2d; }

# Cuts the document $1 into commands: for each NUMBER.command, NUMBER.shown and NUMBER.status, and a row in `commands`.
cut_blocks() {
    awk -v work="$work" -v document="$1" '
    function finish(  i, told) {
        if (!open_command) { return }
        told = 0
        if (!is_program && size && shown[size] ~ /^status [0-9]+$/) { told = substr(shown[size], 8); size-- }
        print told >(work "/" count ".status")
        printf "" >(work "/" count ".shown")
        for (i = 1; i <= size; i++) { print shown[i] >(work "/" count ".shown") }
        close(work "/" count ".status"); close(work "/" count ".shown")
        size = 0; open_command = 0
    }
    /^```/ && !within { within = 1; known = ($0 != "```"); begun = NR; next }
    /^```/ { finish(); within = 0; next }
    within && known { next }
    within && /^[$] / {
        finish()
        open_command = 1; count++
        is_program = ($0 ~ /^[$] cat /)
        print substr($0, 3) >(work "/" count ".command"); close(work "/" count ".command")
        print count "|" document ":" NR >(work "/commands")
        next
    }
    within && NR == begun + 1 { print "0|" document ":" NR >(work "/commands"); known = 1; next }
    within { shown[++size] = $0 }
    END { if (within) { print "0|" document ":" begun >(work "/commands") } }' "$top/$1"
}

# Whether the command in the file $1 is one that a document may have. Within double quotes no word of the shell is left:
# no backslash and no backquote, and $ only before a blank or a quote.
allowed() {
    awk -v q="'" '
    BEGIN {
        word = "([A-Za-z0-9_.,:/-]+|" q "[^" q "]*" q "|\"([^\"`$\\\\]|[$][ " q "])*\")"
        command = "^(printf " q "[^" q "]*" q " [|] )?(./)?snobol4(-list)?( " word ")+$"
    }
    $0 !~ command { exit 1 }' "$1"
}

# A program of the document is read where it was put.
with_programs() {
    called=$1
    shift
    for word do
        shift
        if [ -f "$work/programs/$word" ]; then word=$work/programs/$word; fi
        set -- "$@" "$word"
    done
    "$called" "$@"
}
snobol4() { with_programs "$program" "$@"; }
snobol4_list() { with_programs "$list" "$@"; }

# check_blocks DOCUMENT [faults]
check_blocks() {
    rm -rf "$work/programs" "$work/commands"
    mkdir "$work/programs"
    : >"$work/commands"
    cut_blocks "$1"
    while IFS='|' read -r number place; do
        if [ "$number" = 0 ]; then
            not_ok "$place" "the block has no \$ and no word behind its \`\`\`, or no end"
            continue
        fi
        command=$(cat "$work/$number.command")
        case $command in
        'cat '*) cp "$work/$number.shown" "$work/programs/${command#cat }"; continue ;;
        esac
        check_command "$number" "$place $command" "${2:-}"
    done <"$work/commands"
}

# check_command NUMBER NAME [faults]
check_command() {
    if ! allowed "$work/$1.command"; then
        not_ok "$2" "isn't a command for a document"
        return
    fi
    line=$(sed 's#\./snobol4#snobol4#; s#snobol4-list #snobol4_list #' "$work/$1.command")
    status=0
    if [ "$3" = faults ]; then
        (eval "$line") </dev/null >"$work/out" 2>&1 || status=$?
        : >"$work/err"
    else
        (eval "$line") </dev/null >"$work/out" 2>"$work/err" || status=$?
    fi
    told=$(cat "$work/$1.status")
    if ! cmp -s "$work/$1.shown" "$work/out"; then
        { changes "$work/$1.shown" "$work/out"; cat "$work/err"; } >"$work/changes"
        not_ok "$2" "writes something else" "$work/changes"
    elif [ "$status" != "$told" ]; then
        not_ok "$2" "ends with status $status and not $told" "$work/err"
    else
        ok "$2"
    fi
}

# Cuts the examples of the document $1 into files NUMBER.example: kind, first text, second text, and what is expected.
cut_examples() {
    awk -v work="$work" -v document="$1" '
    function quoted(text, parts,  n, i, count) {
        n = split(text, pieces, "`"); count = 0
        for (i = 2; i <= n; i += 2) { parts[++count] = pieces[i] }
        return count
    }
    function put(kind, first, second, lines) {
        number++
        printf "%s\n%s\n%s\n%s", kind, first, second, lines >(work "/" number ".example")
        close(work "/" number ".example")
        print number "|" document ":" NR >(work "/examples")
    }
    /^```/ { within = !within; next }
    within { next }
    !/^[|]/ { column = 0; next }
    {
        row = $0
        gsub(/\\[|]/, "\001", row)
        n = split(row, cells, "|")
        for (i = 1; i <= n; i++) { gsub(/^ +| +$/, "", cells[i]); gsub("\001", "|", cells[i]) }
        if (!column) {
            column = -1
            for (i = 2; i < n; i++) { if (cells[i] ~ /^Example/) { column = i } }
            next
        }
        if (column < 0 || cells[column] ~ /^-+$/ || cells[column] == "") { next }
        cell = cells[column]; count = quoted(cell, part)
        expected = ""
        if (cell ~ /^`[^`]+` on `[^`]*`: (none|(`[^`]+`(, )?)+)$/) {
            for (i = 3; i <= count; i++) { expected = expected part[i] "\n" }
            put("ways", part[1], part[2], expected "exhausted\n")
        } else if (cell ~ /^`[^`]+` on `[^`]*`, [0-9]+: (none|[0-9, ]+)$/) {
            rest = cell; sub(/^`[^`]+` on `[^`]*`, /, "", rest)
            cursor = rest + 0; sub(/^[0-9]+: /, "", rest)
            m = (rest == "none") ? 0 : split(rest, ends, ", ")
            for (i = 1; i <= m; i++) { expected = expected "way 0 " ends[i] "\n" }
            put("ways", "TAB(" cursor ") (" part[1] ")", part[2], expected "exhausted\n")
        } else if (cell ~ /^`[^`]+` is `[^`]*`$/) {
            put("value", part[1], "", part[2] "\n")
        } else if (cell ~ /^`[^`]+` is error [0-9]+$/) {
            sub(/^.* /, "", cell)
            put("error", part[1], "", "snobol4: error " cell " in statement 1\n")
        } else if (cell ~ /^`[^`]+` is refused$/) {
            put("refused", part[1], "", "")
        } else {
            put("none", cell, "", "")
        }
    }' "$top/$1"
}

# check_examples DOCUMENT
check_examples() {
    : >"$work/examples"
    cut_examples "$1"
    while IFS='|' read -r number place; do
        kind=$(sed -n 1p "$work/$number.example")
        first=$(sed -n 2p "$work/$number.example")
        sed 1,3d "$work/$number.example" >"$work/expected"
        check_example "$kind" "$first" "$(sed -n 3p "$work/$number.example")" "$place $first"
    done <"$work/examples"
}

# check_example KIND FIRST SECOND NAME
check_example() {
    case $2 in
    *' = '*) statement=$2 ;;
    *) statement="OUTPUT = $2" ;;
    esac
    printf ' %s\nEND\n' "$statement" >"$work/example.sno"
    status=0
    case $1 in
    ways) "$program" ways --anchor -- "$2" "$3" </dev/null >"$work/out" 2>&1 || status=$? ;;
    value | error) "$program" run "$work/example.sno" </dev/null >"$work/out" 2>&1 || status=$? ;;
    refused)
        "$program" check "$work/example.sno" </dev/null >"$work/out" 2>&1 || status=$?
        if [ "$status" = 2 ]; then ok "$4"; else not_ok "$4" "isn't refused" "$work/out"; fi
        return
        ;;
    *)
        not_ok "$4" "isn't an example"
        return
        ;;
    esac
    if cmp -s "$work/expected" "$work/out"; then
        ok "$4"
    else
        changes "$work/expected" "$work/out" >"$work/changes"
        not_ok "$4" "gives something else" "$work/changes"
    fi
}
