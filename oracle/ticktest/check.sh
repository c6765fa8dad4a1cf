#!/bin/sh
# The proved compile and tick, through C, against the Rust circuit, and against document 01's words on random and damaged circuits. Needs
# ../shared beside this repository. Any difference ends it with a non-zero exit.
set -eu
cd "$(dirname "$0")/../.."
if [ ! -e ../shared/docs/src/circuit/src/lower.rs ]; then
    echo "ticktest: no ../shared here, so compile and tick are not compared"
    exit 0
fi
tools/archive palthengi
cd oracle
cargo build --offline --release --quiet -p ticktest
run() {
    name=$1
    shift
    cargo run --offline --release --quiet -p ticktest --bin "$name" -- "$@"
}
run compiles
run runs
run ticks
run damage
# A comparison is worth what it finds: each slip must make program $1 fail.
slips() {
    name=$1
    shift
    for slip in "$@"; do
        status=0
        run "$name" --wrong "$slip" >/dev/null || status=$?
        if [ $status -ne 1 ]; then
            echo "ticktest: the slip '$slip' was not found by $name (exit $status)"
            exit 1
        fi
    done
    echo "ticktest: $name finds each slip: $*"
}
slips runs idle fresh edge table past
slips damage order own wide
