# Has the kit prove a crate and compile it, and keeps the code that was proved on its way to the compiler: crates/CRATE/out/module.bc.
# web/make and aarch64/make compile that a second time.
# Read behind program.sh, by scripts that have made a folder of their own, work.

kit=$(dirname "$(rt doc)")
compilers=$kit/toolchain/bin

refuse() {
    say "$1"
    exit 1
}

# The words for a crate that the kit brings, or for one of this repository.
extern() {
    if [ -d "$top/crates/$1" ]; then place=$top/crates/$1/out/rlib; else place=$kit/rlibs; fi
    [ -d "$place/$1.rlib" ] || refuse "the crate $1 is not built: run ./build first"
    printf '%s\n' --extern "$1=$place/$1.rlib"
}

# All words of the kit's command that proves the crate that is meant and then compiles it to $1, one a line.
words() {
    case $name in
    *.so) printf '%s\n' src/lib.rt --crate-type staticlib ;;
    *) echo src/main.rt ;;
    esac
    printf '%s\n' --crate-name "$crate" --antt-project "$kit/rattle/logic/antt-project.json" --logic-built "$kit/logic_built" \
        --links "$crate=" --jobs "${RT_JOBS:-$("$top/tools/jobs")}" --backend llvm --toolchain "$work/toolchain" -o "$1" \
        -L "dependency=$kit/rlibs"
    for one in std $(sed -n "s/^$crate\( [a-z]*\)\{0,1\}://p" "$top/crates.txt"); do extern "$one"; done
    for one in $(program_crates "$name"); do
        if [ "$one" != "$crate" ]; then printf '%s\n' -L "dependency=$top/crates/$one/out/rlib"; fi
    done
}

# Proves the crate that is meant and compiles it to $1, by the kit's command with a compiler of the line $2. What that is given is
# kept before.
compile() {
    mkdir -p "$work/toolchain/bin" "$top/crates/$crate/out"
    ln -sfn "$kit/toolchain/lib" "$work/toolchain/lib"
    ln -sf "$compilers/llvm-ar" "$compilers/ld.lld" "$work/toolchain/bin"
    {
        echo '#!/bin/sh'
        echo "if [ -f module.bc ]; then cp module.bc '$work/module.bc'; fi"
        echo "$2"
    } >"$work/toolchain/bin/clang"
    chmod +x "$work/toolchain/bin/clang"
    (words "$1") >"$work/words"
    (
        cd "$top/crates/$crate"
        IFS='
'
        exec "$kit/bin/rattle" build $(cat "$work/words")
    ) >"$work/log" 2>&1 || {
        cat "$work/log" >&2
        exit 1
    }
    grep '^logic=' "$work/log"
    mv "$work/module.bc" "$top/crates/$crate/out/module.bc"
}

# Sets `code` to the code of the program or library that is meant. That of a program is made first where need be: it is proved once
# more, and compiled to nothing.
find_code() {
    code=$top/crates/$crate/out/module.bc
    if [ -f "$code" ] && ! is_older "$code"; then return; fi
    case $name in *.*) refuse 'there is no module.bc of these sources: run lib/make first' ;; esac
    say 'the program is proved once more, and its code kept'
    compile "$work/program.o" ': >module.o'
}

# Writes the code as a text for another machine, $1: for its name and its layout, $2 and $3, with no features of x86-64, and with
# C's `main` by the name $4.
write_code() {
    "$compilers/clang" -S -emit-llvm -Xclang -disable-llvm-passes -x ir "$code" -o "$work/first.ll"
    sed -E -e "s/^target triple.*/target triple = \"$2\"/" -e "s/^target datalayout.*/target datalayout = \"$3\"/" \
        -e '/^attributes/s/"(probe-stack|stack-probe-size|target-cpu|target-features|frame-pointer)"="[^"]*"//g' \
        -e "s/^define i32 @main\(\)/define i32 @$4()/" "$work/first.ll" >"$1"
    if grep -q 'llvm\.x86\.\|asm sideeffect' "$1"; then refuse 'the code has instructions of x86-64'; fi
}
