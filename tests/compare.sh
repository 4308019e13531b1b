#!/usr/bin/env bash
# Compares the second program with two corpora, and the proved code with both: every file and every question of the
# project's own (tests/corpus) and, where it is there, of the one beside the checkout (or its archive is the argument),
# which another program made, the one with the requests that have landed; then files made afresh, through `listing` and
# through the library, and a short run of many files at once. SEED and COUNT choose the files made afresh, ROUNDS those
# that go through the library. Needs what `tools/build.sh` builds.
set -euo pipefail
cd "$(dirname "$0")/.."
own=tests/corpus/files.tar.gz
beside=${1:-../shared/corpus/files-1-2-3-6.tar.gz}
listing=$PWD/target/bin/listing
seed=${SEED:-$(date +%s)}
count=${COUNT:-5000}
rounds=${ROUNDS:-20000}

(cd rust && cargo build --release --offline --quiet)
built=rust/target/release
files=$(mktemp -d)
trap 'rm -rf "$files"' EXIT

# Everything that a corpus says, for the second program, the library and `listing`.
compare_corpus() {
    local folder differ=0 listed=0 f name asked
    folder=$(mktemp -d -p "$files")
    tar xzf "$1" -C "$folder"
    "$built/second" corpus "$folder/corpus"
    for name in questions questions-3 questions-1 questions-4 questions-7 questions-8 questions-14; do
        asked=$folder/corpus/$name.ask
        [ -e "$asked" ] || continue
        "$built/ask" "$folder/corpus" <"$asked" | diff - "${asked%.ask}.ans"
        echo "$(wc -l <"$asked") lines of $1, $name.ask, through the library, 0 differences"
    done
    for f in "$folder"/corpus/*.bin; do
        listed=$((listed + 1))
        "$listing" <"$f" | cmp -s - "${f%.bin}.out" || { echo "listing differs: $f"; differ=$((differ + 1)); }
    done
    echo "$listed files of $1 listed, $differ differences"
    [ "$differ" -eq 0 ]
}

compare_corpus "$own"
if [ -e "$beside" ]; then
    compare_corpus "$beside"
else
    echo "no corpus at $beside: the project's own is the only one compared"
fi
"$built/agree" "$seed" "$rounds"
"$built/load" --small
"$built/second" compare "$listing" "$seed" "$count"
