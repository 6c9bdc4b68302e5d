# Proves and builds the program with the kit.
# Read behind program.sh.

# (as there)
unset takes log waited began kit signal status crates told now

# What it takes from nothing, as README.md has it.
takes='half an hour or more on 4 processors, and 5 GB of disk'

# Proves and builds the program, or the file of the library, that is meant, and sets `program` to it. `why` says why, where there is a reason to tell.
# Another call that is building it is waited for, and what it built is taken, where that is not older than the sources.
build_program() {
    log=$top/crates/$crate/out/build.log
    if ! command -v rt >/dev/null; then
        say "${why:+$why, and }to prove and build the program needs the Rattle kit, whose command rt is not on PATH;" \
            "what is needed is told in README.md, below its first two commands"
        exit 70
    fi
    if ! { mkdir -p "$cache" "${log%/*}" && touch "$cache/lock" "$log"; } 2>/dev/null; then
        say "${why:+$why, and }the program cannot be built here, since $top cannot be written"
        exit 70
    fi
    # The lock is the open file: it goes when the last that holds it ends, however it ends. Without flock the kit's own locks
    # still keep two builds from meeting in a crate.
    exec 9>>"$cache/lock"
    waited=no
    if command -v flock >/dev/null && ! flock -n 9; then
        say "another call is building the program, which this one waits for; its log is $log"
        flock 9
        waited=yes
    fi
    if [ "$waited" = no ] || ! is_usable "$built" || is_older "$built"; then
        say "${why:+$why; }the program is proved and built${why:+ first}: $takes; the log is $log"
        prove
    fi
    exec 9>&-
    program=$built
}

# Runs the kit and tells how far it is. All that it starts is a group of its own, which ends where this call is ended.
prove() {
    began=$(date +%s)
    : >"$cache/began"
    kit=
    trap end_kit EXIT
    for signal in HUP INT PIPE TERM; do trap "stop $signal" "$signal"; done
    setsid "$top/tools/prove" $(program_crates "$name") </dev/null >"$log" 2>&1 &
    kit=$!
    follow 9>&-
    status=0
    wait "$kit" || status=$?
    trap - EXIT HUP INT PIPE TERM
    if [ "$status" -ne 0 ] || ! is_usable "$built"; then
        say "the build failed; the last lines of $log:"
        tail -n 12 "$log" | sed 's/^/    /' >&2
        exit 70
    fi
    # Sources that changed while it was proved are newer than this, and so are seen by the next call.
    touch -r "$cache/began" "$built"
}

# Tells how far the kit is while it runs: on a terminal in one line that is written over, else by a line a crate.
follow() {
    crates=$(program_crates "$name" | tr '\n' ' ') told=beginning looks=0
    while kill -0 "$kit" 2>/dev/null; do
        # (where little has changed it ends soon)
        if [ "$looks" -lt 25 ]; then sleep 0.2; else sleep 1; fi
        looks=$((looks + 1))
        now=$(awk -v crates="$crates" -v seconds="$(($(date +%s) - began))" -f "$top/tools/progress.awk" "$log")
        if on_terminal; then
            printf '\r\033[K%s: %s' "$name" "$now" >&2
        elif [ "${now%%,*}" != "$told" ]; then
            say "$now"
        fi
        told=${now%%,*}
    done
    clear_line
}

on_terminal() {
    [ -t 2 ] && [ "${TERM:-dumb}" != dumb ]
}

clear_line() {
    if on_terminal; then printf '\r\033[K' >&2; fi
}

# Ends the kit's whole group.
end_kit() {
    if [ -z "$kit" ]; then return; fi
    # It may not be the leader of its group yet.
    kill -s TERM -- "-$kit" 2>/dev/null || kill -s TERM "$kit" 2>/dev/null || :
    sleep 1
    kill -s KILL -- "-$kit" 2>/dev/null || :
    wait "$kit" 2>/dev/null || :
}

# Ends the kit, and then this call by the signal $1 that it was sent. There may be nobody left to tell.
stop() {
    trap '' HUP INT PIPE TERM
    end_kit
    clear_line || :
    say "the build was interrupted; the crates that were proved are kept for the next one" || :
    trap - EXIT HUP INT PIPE TERM
    kill -s "$1" "$$"
    exit 70
}
