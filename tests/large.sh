#!/usr/bin/env bash
# A sparse file of more than 2 GiB through the library: listed, its samples placed and cut, turned there and back,
# rewritten, and compared with the second program. It takes about 15 GB of memory for less than a minute; it is not part
# of the gate.
set -euo pipefail
cd "$(dirname "$0")/.."
bash tools/build.sh psg >/dev/null
path=$(mktemp)
trap 'rm -f "$path"' EXIT
(cd rust && cargo run --release --offline --quiet --package psg-large -- "$path")
