#!/usr/bin/env bash
# Makes tests/corpus/files.tar.gz anew: small files of the second program, valid and damaged, with what it says of them
# and its answers to questions (`second make-corpus`). The archive depends on SEED, COUNT and the second program alone;
# tests/second/tests/corpus.rs says what it has to show. Make it again where the rules change.
set -euo pipefail
cd "$(dirname "$0")/.."
(cd rust && cargo build --release --offline --quiet --package psg-second)
files=$(mktemp -d)
trap 'rm -rf "$files"' EXIT
rust/target/release/second make-corpus "${SEED:-20261131}" "${COUNT:-300}" "$files/corpus"
mkdir -p tests/corpus
tar -C "$files" --sort=name --mtime=@0 --owner=0 --group=0 --numeric-owner --mode=u=rwX,go=rX -cf - corpus |
    gzip -9n >tests/corpus/files.tar.gz
ls -l tests/corpus/files.tar.gz
