# Finds the second program. Read by tests.

# The program snobol4-list that belongs to the program snobol4 at the path $1: the one that ./test found, or the one that was
# built or put where that one was.
list_program() {
    if [ -n "${SNOBOL4_LIST:-}" ]; then
        echo "$SNOBOL4_LIST"
        return
    fi
    case $1 in
    *snobol4/out/snobol4) echo "${1%snobol4/out/snobol4}snobol4_list/out/snobol4_list" ;;
    *) printf '%s\n' "$1" | sed 's/snobol4\(-[^\/]*\)\{0,1\}$/snobol4-list\1/' ;;
    esac
}
