#!/usr/bin/env bash
# A long run against the second program: files made afresh, valid and damaged, through the library (verdict and table,
# every question, overviews, turning there and back, rewriting). The argument is how many files, or for how long:
# `tests/damage.sh 1000000`, `tests/damage.sh 3600s`. Needs libpsg.a and liboverview.a in target/staticlib
# (`tools/build.sh psg overview`). Prints the seed, which SEED chooses, and the count.
set -euo pipefail
cd "$(dirname "$0")/.."
(cd rust && cargo build --release --offline --quiet --package psg-agree)
exec rust/target/release/agree "${SEED:-$(date +%s)}" "${1:-1000000}"
