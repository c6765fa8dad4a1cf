#!/bin/sh
# Crate arena_c against the Rust's own `Affine`: builds the crate's archive, the test, and runs it.
set -eu
cd "$(dirname "$0")/../.."
if [ ! -e ../shared/docs/src/circuit/src/wire.rs ]; then
    echo "arenatest: no ../shared here, so the arena is not compared with the Rust"
    exit 0
fi
tools/archive arena_c
cd oracle
cargo test --offline --release --quiet -p arenatest --test '*' -- --nocapture
