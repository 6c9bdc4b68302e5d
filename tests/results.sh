# Tells results in the lines that ./test reads. Read by tests, which end with `[ "$failed" -eq 0 ]`.
failed=0

ok() {
    printf 'ok %s\n' "$1"
}

# Tells that $1 failed, why, and below it the files behind these two words.
not_ok() {
    printf 'not ok %s: %s\n' "$1" "$2"
    shift 2
    for file do sed 's/^/    /' "$file"; done
    failed=$((failed + 1))
}

skip() {
    echo "skip $1: $2"
}

# A folder for the test's files, which goes with it.
work=$(mktemp -d)
trap 'rm -rf "$work"' EXIT
trap 'exit 1' HUP INT PIPE TERM
