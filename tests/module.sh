# Finds what was compiled a second time. Read by tests, which set `here` to the repository's root.

# Sets `module` to the file $1 that was built here or, where it was made of these sources, to the one that ships; where there is
# neither, `lacking` tells why.
find_module() {
    lacking="there is no bin/$1"
    module=$(
        top=$here
        . "$here/tools/program.sh"
        choose "$1"
        if [ -f "$built" ] && ! is_older "$built"; then
            echo "$built"
        elif [ -f "$shipped" ] && is_told && [ "$(told_of_shipped sources)" = "$(sources_digest)" ] &&
            [ "$(told_of_shipped second)" = "$(second_digest)" ]; then
            echo "$shipped"
        fi
    )
    if [ -z "$module" ] && [ -f "$here/bin/$1" ]; then lacking='what ships in bin/ is of other sources'; fi
}
