#!/usr/bin/env bash
# The overview uses only what the library's contracts say (request 14 of document 02): of the proofs of the
# repository's other crates, crate `overview` cites those of `demands` alone. Each other is printed, and fails the gate.
# The argument is the crate's folder, if it is not the usual one.
set -euo pipefail
cd "$(dirname "$0")/.."
folder=${1:-crates/overview}
[ -d "$folder" ] || { echo "imports: no crate at $folder"; exit 1; }

# A proof is named as `Rattle.walk.proofs.Laws`, and in a `#[tactic(..)]` as `walk::proofs::Laws`. The crate's own are
# `crate::proofs` there; `std` is the toolchain's.
cited=$(grep -rnoE --include='*.antt' --include='*.rt' '(Rattle\.)?\w+(\.|::)proofs(\.|::)[^ ;,){]*' \
    "$folder"/src "$folder"/specs "$folder"/proofs || true)
others=$(grep -vE ':((Rattle\.)?(std|demands|overview)\.proofs\.|(crate|std|demands)::proofs::)' <<<"$cited" || true)
if [ -n "$others" ]; then
    printf 'imports: of the proofs of other crates overview cites those of demands alone:\n%s\n' "$others"
    exit 1
fi

# Nor by way of demands: what its proofs only hand on is another crate's.
passed=$(grep -rnE --include='*.antt' '^\s*pub use Rattle\.\w+\.proofs\b' crates/demands/proofs \
    | grep -vE 'pub use Rattle\.(std|demands)\.' || true)
if [ -n "$passed" ]; then
    printf 'imports: the proofs of demands hand on those of other crates:\n%s\n' "$passed"
    exit 1
fi
