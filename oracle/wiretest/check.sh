#!/bin/sh
# Crate wire_c against plain Rust f32 arithmetic: builds the crate's archive, the test, and runs it.
set -eu
cd "$(dirname "$0")/../.."
tools/archive wire_c
cd oracle
cargo test --offline --release --quiet -p wiretest --test '*' -- --nocapture
