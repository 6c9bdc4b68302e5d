# Finds a program, a file of the library for C, or a module for WebAssembly: the one built here, the one that ships, or none.
# Read by scripts that have set top to the repository's root.

# What the environment has by these names would be exported with what they are set to here, to each command that is called.
unset cache answers machine name crate built shipped one part link looks answer why program

cache=$top/.cache
answers=$cache/answers

# The programs of the repository, by crates.txt.
programs() {
    for one in snobol4 snobol4-list; do
        if grep -q "^$(crate_of "$one"):" "$top/crates.txt"; then echo "$one"; fi
    done
}

# The files of the library for C, which lib/make makes of one crate.
libraries() {
    if grep -q "^$(crate_of libsnobol4.so)[ :]" "$top/crates.txt"; then printf '%s\n' libsnobol4.a libsnobol4.so; fi
}

# The modules for WebAssembly, which web/make makes: of the same crate, and of those of the programs.
modules() {
    if [ -n "$(libraries)" ]; then printf '%s\n' snobol4.wasm snobol4-commands.wasm; fi
}

# The programs for aarch64 Linux, which aarch64/make makes.
others() {
    if [ -n "$(libraries)" ]; then printf '%s\n' snobol4-aarch64-linux snobol4-list-aarch64-linux; fi
}

# The crate of the program, or of the file of the library or module, $1.
crate_of() {
    case $1 in
    snobol4-commands.wasm) echo snobol4 ;;
    *.a | *.so | *.wasm) echo snobol4_c ;;
    *) printf '%s\n' "${1%-aarch64-linux}" | tr - _ ;;
    esac
}

# Says which program, or which such file, is meant below: $1. Where this machine is aarch64 Linux, a program is the one for it.
choose() {
    name=$1
    crate=$(crate_of "$1")
    case $1 in
    *.* | *-aarch64-linux) built=$top/crates/$crate/out/$1 shipped=$top/bin/$1 ;;
    *)
        if [ "$machine" = 'Linux aarch64' ]; then
            built=$top/crates/$crate/out/$1-aarch64-linux shipped=$top/bin/$1-aarch64-linux
        else
            built=$top/crates/$crate/out/$crate shipped=$top/bin/$1-x86_64-linux
        fi
        ;;
    esac
}
machine=$(uname -sm)

# Whether the file $1 is there, and can be run where it is a program.
is_usable() {
    case $1 in
    *.a | *.so | *.wasm) [ -f "$1" ] ;;
    *) [ -x "$1" ] ;;
    esac
}
choose snobol4

say() {
    printf '%s: %s\n' "$name" "$*" >&2
}

# The crates that the programs or libraries $* stand on, by crates.txt: the lowest first, a program behind those that it stands on.
program_crates() {
    awk -v programs="$(for one do crate_of "$one"; done | tr '\n' ' ')" '
    { sub(/#.*/, "") }
    /:/ {
        split(substr($0, 1, index($0, ":") - 1), head)
        below[head[1]] = substr($0, index($0, ":") + 1)
    }
    function reach(name,   count, names, i) {
        if (name in reached || !(name in below)) { return }
        reached[name] = 1
        count = split(below[name], names)
        for (i = 1; i <= count; i++) { reach(names[i]) }
        print name
    }
    END { count = split(programs, roots); for (i = 1; i <= count; i++) { reach(roots[i]) } }' "$top/crates.txt"
}

# Where the sources of all programs stand, as paths from the root.
source_places() {
    echo crates.txt
    for one in $(program_crates $(programs) $(libraries)); do
        for part in src specs proofs; do
            if [ -d "$top/crates/$one/$part" ]; then echo "crates/$one/$part"; fi
        done
    done
}

# The digest of the sources: of their paths and of what they hold, and of nothing else. What an editor leaves beside them
# isn't read by the kit, and so doesn't count.
sources_digest() (
    LC_ALL=C
    export LC_ALL
    cd "$top"
    find $(source_places) -type f \( -name '*.rt' -o -name '*.antt' -o -name crates.txt \) -print0 |
        sort -z | xargs -0 sha256sum | sha256sum | cut -d ' ' -f 1
)

# The digest of what is compiled a second time by, beside the sources.
second_digest() (
    cd "$top"
    cat tools/code.sh web/make web/heap.h web/runtime.c web/system.c aarch64/make aarch64/system.c | sha256sum | cut -d ' ' -f 1
)

# The first link under the paths $*, from the root: the digest does not see what it leads to, so no source may be one. The kit
# minds what it made.
link_under() (
    cd "$top"
    find "$@" -regex 'crates/[^/]*/out' -prune -o -type l -print | head -n 1
)

# Whether the file $1 is older than a source. A folder's time counts too: it tells that a file went or was moved in.
is_older() {
    [ -n "$(cd "$top" && find $(source_places) \
        \( -type d -o -name '*.rt' -o -name '*.antt' -o -name crates.txt \) -newer "$1" -print)" ]
}

# What bin/BUILD tells of $1: sources, kit or second.
told_of_shipped() {
    sed -n "s/^$1: *//p" "$top/bin/BUILD"
}

# The SHA-256 that bin/BUILD tells of the program that is meant.
told_sum() {
    awk -v file="${shipped##*/}" '
    /^(program|library|module|elsewhere): / { is_it = ($2 == file) }
    /^sha256: / && is_it { print $2 }' "$top/bin/BUILD"
}

# Whether the shipped program that is meant is the one that bin/BUILD tells of.
is_told() {
    [ "$(told_sum)" = "$(sha256sum <"$shipped" | cut -d ' ' -f 1)" ]
}

# Why the shipped programs and libraries are not those of these sources; `fits` where they are.
judge_shipped() (
    link=$(link_under $(source_places))
    if [ -n "$link" ]; then
        echo "$link is a link, and the sources are files"
        return
    fi
    if [ "$(told_of_shipped sources)" != "$(sources_digest)" ]; then
        echo "the sources are not those that the program in bin/ was built from"
        return
    fi
    for one in $(programs) $(libraries); do
        choose "$one"
        if ! is_usable "$shipped" || ! is_told; then
            echo "the program in bin/ is not the one that bin/BUILD tells of"
            return
        fi
    done
    echo fits
)

# Whether what is meant is a program.
is_program() {
    case $name in *.*) false ;; esac
}

# Whether the shipped programs run on this machine. Those for aarch64 need no C library.
runs_here() {
    case $machine in
    'Linux x86_64') [ -e /lib64/ld-linux-x86-64.so.2 ] ;;
    'Linux aarch64') ;;
    *) false ;;
    esac
}

# Whether what is meant ships, and is of these sources, and runs on this machine where it is a program; else `why` tells why not.
# To judge it takes longer than to run it, so the answer is kept under a digest of what all the files looked like: their
# sizes and the times at which they were written or moved. Where it can't be kept, it is found anew by each call.
shipped_fits() {
    if ! runs_here && is_program; then
        why="the programs in bin/ run on x86-64 Linux with the GNU C library, and on aarch64 Linux"
        return 1
    fi
    if ! is_usable "$shipped" || ! [ -r "$top/bin/BUILD" ]; then
        why="no built program comes with these sources"
        return 1
    fi
    looks=$(cd "$top" && find $(source_places) bin -printf '%p %s %T@ %C@\n' 2>/dev/null) || looks=
    answer=$answers/$(printf '%s' "$looks" | sha256sum | cut -d ' ' -f 1)
    why=
    if [ -n "$looks" ]; then { read -r why <"$answer"; } 2>/dev/null || :; fi
    if [ -z "$why" ]; then
        why=$(judge_shipped)
        if [ -n "$looks" ]; then keep_answer 2>/dev/null || :; fi
    fi
    [ "$why" = fits ]
}

# Keeps the newest answer alone. It is written beside its place, so that no other call reads a half of it.
keep_answer() {
    mkdir -p "$answers" && rm -f "$answers"/* && printf '%s\n' "$why" >"$answer.$$" && mv "$answer.$$" "$answer"
}

# Sets `program` to the program, or file, built here, where it isn't older than the sources, or to the shipped one, where it fits.
# Where there is neither, `why` tells why the shipped one isn't it.
find_program() {
    if is_usable "$built" && ! is_older "$built"; then
        program=$built
    elif shipped_fits; then
        program=$shipped
    else
        return 1
    fi
}
