#!/bin/sh
# The program ticklist against the listing that document 01's words give, byte for byte, on inputs good and bad. It needs no ../shared. Any
# difference ends it with a non-zero exit.
set -eu
cd "$(dirname "$0")/../.."
tools/program ticklist
cd oracle
cargo build --offline --release --quiet -p listings

listings=../target/oracle/release/listings
ticklist=../target/bin/ticklist
$listings $ticklist
# A comparison is worth what it finds: each slip in the listing must make it fail.
slips="edges halted first before fresh kind order cut empty any"
for slip in $slips; do
    status=0
    $listings --wrong "$slip" $ticklist >/dev/null || status=$?
    if [ $status -ne 1 ]; then
        echo "listings: the slip '$slip' was not found (exit $status)"
        exit 1
    fi
done
echo "listings: each slip is found: $slips"
