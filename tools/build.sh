#!/usr/bin/env bash
# Proves and builds what is linked and run outside of rt: target/staticlib/libpsg.a and liboverview.a, which C and Rust
# link, and the programs target/bin/listing and vectors. The arguments say which of psg, overview, listing and vectors;
# without any it is all four. It proves what has changed, over what earlier checks kept.
# `tools/build.sh --after-ci ..` is for behind a whole `rt ci`, before any file changes: it takes the libraries and the
# programs that `rt ci` has just proved and built, and checks anew only the exports above them.
set -euo pipefail
cd "$(dirname "$0")/.."
after_ci=false
if [ "${1:-}" = --after-ci ]; then
    after_ci=true
    shift
fi
[ $# -gt 0 ] || set -- psg overview listing vectors

# Whether all libraries below a crate are as `rt ci` built them. What `rt check` kept has a stamp; where `rt ci` has put
# that back, the libraries do not fit one another.
built_by_ci() {
    local dep
    ! compgen -G 'crates/*/out/rlib/stamp' >/dev/null || return 1
    for dep in $(depends "$1"); do
        [ -e "crates/$dep/out/rlib/$dep.rlib/format" ] || return 1
    done
}

# What the line of a static library in crates.txt names.
depends() {
    sed -nE "s/^$1 staticlib: *//p" crates.txt
}

# What `rt lib` does, over the libraries of `rt ci`.
archive_over_ci() {
    local kit dep libraries=()
    kit=$(dirname "$(rt doc)")
    for dep in $(depends "$1"); do
        libraries+=(--extern "$dep=$PWD/crates/$dep/out/rlib/$dep.rlib")
    done
    for dep in crates/*/out/rlib; do
        libraries+=(-L "dependency=$PWD/$dep")
    done
    (
        cd "crates/$1"
        mkdir -p out
        "$kit/bin/rattle" build --crate-name "$1" --crate-type staticlib src/lib.rt --extern "std=$kit/rlibs/std.rlib" \
            -L "dependency=$kit/rlibs" "${libraries[@]}" --antt-project "$kit/rattle/logic/antt-project.json" \
            --logic-built "$kit/logic_built" --jobs 2 --links "$1=" --toolchain "$kit/toolchain" --backend llvm \
            -o "out/lib$1.a"
    )
}

archive() {
    if ! $after_ci || ! built_by_ci "$1_c" || ! archive_over_ci "$1_c"; then
        (cd "crates/$1_c" && rt lib)
    fi
    mkdir -p target/staticlib
    cp "crates/$1_c/out/lib$1_c.a" "target/staticlib/lib$1.a"
}

# rt runs each program that it builds; here only that it was built counts.
program() {
    if ! $after_ci || [ ! -x "crates/$1/out/$1" ]; then
        rm -f "crates/$1/out/$1"
        (cd "crates/$1" && rt run </dev/null >/dev/null) || [ -x "crates/$1/out/$1" ]
    fi
    mkdir -p target/bin
    cp "crates/$1/out/$1" "target/bin/$1"
}

for name in "$@"; do
    case $name in
    psg | overview) archive "$name" ;;
    listing | vectors) program "$name" ;;
    *)
        echo "tools/build.sh: psg, overview, listing or vectors, and not $name" >&2
        exit 2
        ;;
    esac
done
