#!/usr/bin/env bash
# Makes crates/vectors anew: data/vectors.bin, files of the second program packed one after the other, each behind its
# length in four bytes, and stdout, what the second program says of them.
set -euo pipefail
cd "$(dirname "$0")/.."
(cd rust && cargo build --release --offline --quiet --package psg-second)
files=$(mktemp -d)
trap 'rm -rf "$files"' EXIT
rust/target/release/second make "${SEED:-20261429}" "${COUNT:-250}" "$files" >/dev/null
mkdir -p crates/vectors/data
: >crates/vectors/data/vectors.bin
: >crates/vectors/stdout
for f in "$files"/*.bin; do
    n=$(stat -c %s "$f")
    [ "$n" -le 32768 ] || continue
    length=$(printf '\\x%02x' $((n & 255)) $((n >> 8 & 255)) $((n >> 16 & 255)) $((n >> 24 & 255)))
    printf "$length" >>crates/vectors/data/vectors.bin
    cat "$f" >>crates/vectors/data/vectors.bin
    cat "${f%.bin}.out" >>crates/vectors/stdout
done
