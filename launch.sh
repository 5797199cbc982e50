# What the launchers of the programs share; each sources it. `build NAME ARGUMENTS` proves and builds a program where it is missing or older than its sources, and what that says goes to
# standard error; the arguments are for the run with no input that ends a build. `run NAME ARGUMENTS` runs it, and gives back its exit status. Exit status 1 where a program can't be built,
# 2 without the kit.
say() { printf '%s: %s\n' "$name" "$*" >&2; }

root=$(dirname "$(readlink -f "$0")")
if [ -n "${RATTLE_HOME:-}" ]; then
    rt=$RATTLE_HOME/bin/rt
else
    rt=$(command -v rt) || { say "rt is not there: put the kit's bin/ into PATH, or its folder into RATTLE_HOME"; exit 2; }
fi
tools=$(dirname "$(dirname "$(readlink -f "$rt")")")/toolchain

build() {
    program=$1
    shift
    built=$root/target/$program.built
    if [ ! -x "$root/target/bin/$program" ] || [ ! -e "$built" ] ||
        [ -n "$(find "$root/crates.txt" "$root"/crates/*/src "$root"/crates/*/specs "$root"/crates/*/proofs -newer "$built" 2>/dev/null | head -n 1)" ]; then
        say "proving and building the program; the first time takes some minutes"
        mkdir -p "$root/target/bin"
        touch "$built.new"
        if ! { (cd "$root/crates/$program" && "$rt" run -- "$@") </dev/null >/dev/null && cp "$root/crates/$program/out/$program" "$built.copy"; }; then
            say 'it could not be built'
            exit 1
        fi
        mv "$built.copy" "$root/target/bin/$program"
        mv "$built.new" "$built"
    fi
}

# Programs are for x86-64 and run under the kit's loader; on another processor qemu-x86_64 runs them, the kit's or the one in PATH.
run() {
    program=$root/target/bin/$1
    shift
    emulator=
    if [ "$(uname -m)" != x86_64 ]; then
        emulator=$tools/bin/qemu-x86_64
        [ -x "$emulator" ] || emulator=$(command -v qemu-x86_64) || { say 'qemu-x86_64 is not there'; exit 1; }
        say "emulated: an x86-64 program on $(uname -m)"
    fi
    ${emulator:+"$emulator"} "$tools/lib/ld-linux-x86-64.so.2" --library-path "$tools/lib" "$program" "$@"
}
