# Runs the program that is meant: the one built here, where it isn't older than the sources; the shipped one, where it was built
# from these very sources; where no program runs, it as the module for WebAssembly has it, by node; else one that is proved and
# built first, with the kit.
# Read behind program.sh.

# Runs the module that ships by node, where the shipped programs can't run; comes back where that can't be done either.
run_by_node() {
    if ! [ -f "$top/bin/snobol4-commands.wasm" ] || { runs_here && is_usable "$shipped"; }; then return; fi
    if ! command -v node >/dev/null; then
        why="$why, and elsewhere node from 18 on, which is not on PATH"
        return
    fi
    # (other systems may have no sha256sum)
    if command -v sha256sum >/dev/null && [ "$(told_of_shipped sources)" != "$(sources_digest)" ]; then
        why="$why, and the sources are not those of the module that node runs elsewhere"
        return
    fi
    SNOBOL4_MODULE=$top/bin/snobol4-commands.wasm
    export SNOBOL4_MODULE
    exec node "$top/web/$name.mjs" "$@"
}

find_program || {
    run_by_node "$@"
    . "$top/tools/build.sh"
    build_program
}
exec "$program" "$@"
