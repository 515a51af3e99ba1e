# What the benchmarks share, to be read by their scripts: a small crate over the proved ones, whose text is calls.rattle beside
# the script, is proved and built, and timed. Without BUILT the crates below it are proved and built in a copy of
# the sources, which can take an hour. Where BUILT names a copy of this repository in which `rt ci` has built them, they are
# taken from there, and only the small crate is proved and built; then the caller answers for their being of these sources.
set -euo pipefail

here=$(cd "$(dirname "$0")" && pwd)
top=$(cd "$(dirname "${BASH_SOURCE[0]}")/../.." && pwd)
kit=$(dirname "$(rt doc)")
work=$(mktemp -d)
trap 'rm -rf "$work"' EXIT

# Runs a command, of whose output the end is shown only where it fails.
quietly() {
    if ! "$@" >"$work/log" 2>&1 </dev/null; then
        tail -n 40 "$work/log" >&2
        exit 1
    fi
}

copy_sources() {
    local crate part
    for crate in "$top"/crates/*/; do
        mkdir -p "$work/crates/$(basename "$crate")"
        for part in src specs proofs; do
            if [ -d "$crate$part" ]; then
                cp -r "$crate$part" "$work/crates/$(basename "$crate")"
            fi
        done
    done
    cp "$top/crates.txt" "$work"
}

# Proves and builds the crate of this name over the built crates named after it; rattle's other words stand in `more`.
build_over() {
    local name=$1 crate folder words=(--extern "std=$kit/rlibs/std.rlib" -L "dependency=$kit/rlibs")
    for crate in "${@:2}"; do
        words+=(--extern "$crate=$BUILT/crates/$crate/out/rlib/$crate.rlib")
    done
    for folder in "$BUILT"/crates/*/out/rlib; do
        words+=(-L "dependency=$folder")
    done
    words+=(--antt-project "$kit/rattle/logic/antt-project.json" --logic-built "$kit/logic_built")
    words+=(--jobs 1 --links "$name=" --toolchain "$kit/toolchain" --backend llvm)
    quietly "$kit/bin/rattle" build --crate-name "$name" "${words[@]}" "${more[@]}"
}

# Proves and builds the static library of this name, whose text is calls.rattle, over the crates named after it, and leaves it
# in the folder `library`.
build_library() {
    library=$work/crates/$1/out
    mkdir -p "$work/crates/$1/src"
    cp "$here/calls.rattle" "$work/crates/$1/src/lib.rt"
    cd "$work/crates/$1"
    if [ -n "${BUILT:-}" ]; then
        mkdir -p out
        more=(src/lib.rt --crate-type staticlib -o "out/lib$1.a")
        build_over "$@"
    else
        copy_sources
        echo "$1 staticlib: ${*:2}" >>"$work/crates.txt"
        quietly rt lib
    fi
}

# Proves, builds and runs the program of this name over the crates named up to --, with the words after that.
run_program() {
    local name=$1 crates=()
    shift
    while [ "$1" != -- ]; do
        crates+=("$1")
        shift
    done
    cd "$work/crates/$name"
    if [ -n "${BUILT:-}" ]; then
        mkdir -p out
        more=(src/main.rt -o "out/$name.o")
        build_over "$name" "${crates[@]}"
        quietly "$kit/bin/rattle-link" --target x86_64-unknown-linux-gnu --toolchain "$kit/toolchain" \
            -o "out/$name" "out/$name.o" "$kit/c/libos_c.a" "$kit/c/liblibc_c.a"
        "out/$name" "${@:2}"
    else
        copy_sources
        echo "$name: ${crates[*]}" >>"$work/crates.txt"
        rt run "$@" 2>"$work/log" </dev/null || {
            tail -n 40 "$work/log" >&2
            exit 1
        }
    fi
}

# Runs driver.rs, linked with the static library of this name; further words are rustc's.
time_calls() {
    rustc --edition 2024 -O -C panic=abort "$here/driver.rs" -L "$library" -l "static=$1" "${@:2}" -o "$work/driver"
    "$work/driver"
}
