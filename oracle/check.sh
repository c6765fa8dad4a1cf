#!/bin/sh
# The oracle's tests: the Rust circuit module, from ../shared beside this repository, against the
# reading of document 01; sizes; the stored cases; and against the construction as it is defined.
# Without ../shared only the reading is built, and the stored cases are replayed against it. Any
# failure ends it with a non-zero exit.
set -eu
cd "$(dirname "$0")"

vectors=../vectors/vectors.txt
if [ -e ../../shared/docs/src/circuit/src/lower.rs ]; then
    packages="-p reading -p compare"
else
    packages="-p reading"
    echo "oracle: no ../shared here, so the Rust is not compared; the stored cases are replayed"
fi

# A program's input is a file of its crate (rt follows no link), so the crate that replays the stored cases holds a copy.
copy=../crates/replay/stdin
if ! cmp -s $vectors "$copy"; then
    echo "oracle: $copy is not a copy of vectors/vectors.txt"
    exit 1
fi

# Runs program $2 of package $1 with the arguments after them.
program() {
    package=$1 name=$2
    shift 2
    cargo run --offline --release --quiet -p "$package" --bin "$name" -- "$@"
}

cargo build --offline --release --quiet $packages
cargo test --offline --release --quiet $packages --lib --test '*'
program reading replay $vectors
[ "$packages" = "-p reading" ] && exit 0

program compare compare
program compare vectors --check $vectors
program compare counts

# A comparison is worth what it finds: each slip that document 01 names must make it fail.
for slip in spared through kept; do
    status=0
    program compare compare --wrong $slip >/dev/null || status=$?
    if [ $status -ne 1 ]; then
        echo "oracle: the wrong walk '$slip' was not found (exit $status)"
        exit 1
    fi
done
echo "oracle: the wrong walks spared, through and kept are each found"

./construction.sh
