#!/bin/sh
# The construction is run, not only believed: for trees of the stored cases its whole op list and
# output forms, computed by the prover from the definition in crate construct, are the Rust's. The
# program `ops` writes a crate in a scratch folder, with the definition's files, the Rust's forms as
# tables and theorems by computation.
set -eu
cd "$(dirname "$0")/.."

if [ ! -e ../shared/docs/src/circuit/src/lower.rs ]; then
    echo "construction: no ../shared here, so the construction is not compared with the Rust"
    exit 0
fi

# A repository of that one crate, outside this one: rt ci refuses a crate that crates.txt does not list.
scratch=$(mktemp -d)
trap 'rm -rf "$scratch"' EXIT
log=$scratch/log
crate=$scratch/crates/construction
echo "construction:" >"$scratch/crates.txt"

# Writes the crate anew, with `ops`'s options.
tables() {
    rm -rf "$crate"
    (cd oracle && cargo run --offline --release --quiet -p compare --bin ops -- .. "$crate" "$@")
}

# Proves it.
prove() {
    (cd "$crate" && rt check) >"$log" 2>&1
}

compared=$(tables) || { echo "construction: $compared"; exit 1; }
if ! prove; then
    cut -c1-1500 "$log"
    echo "construction: the definition and the Rust differ, or the prover could not tell"
    exit 1
fi
echo "construction: $compared, as the Rust's"

# A comparison is worth what it finds.
for slip in sign order cursor; do
    status=0
    tables --wrong $slip >/dev/null
    prove || status=$?
    if [ $status -ne 1 ] || ! grep -q 'error: `rows_hold`' "$log"; then
        cut -c1-1500 "$log"
        echo "construction: the wrong table '$slip' was not found (exit $status)"
        exit 1
    fi
done
echo "construction: a wrong sign, order and cursor are each found"
