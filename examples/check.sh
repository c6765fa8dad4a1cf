#!/bin/sh
# Builds each C example against the static library and the header, runs it, and compares what it writes, and its exit status where that is
# not 0, with the .txt beside it; then lists the divert by ticklist, and compares that with the .listing. Any difference ends it with a
# non-zero exit.
set -eu
cd "$(dirname "$0")/.."
tools/archive palthengi
out=target/examples
mkdir -p $out
for name in divert refusals one_leaf; do
    cc -std=c11 -Wall -Wextra -Werror -O1 -Iinclude examples/$name.c target/staticlib/libpalthengi.a -o $out/$name
    $out/$name >$out/$name.txt || echo "exit $?" >>$out/$name.txt
    diff examples/$name.txt $out/$name.txt
    echo "examples: $name agrees"
done
tools/program ticklist
examples/divert.sh | target/bin/ticklist >$out/divert.listing
diff examples/divert.listing $out/divert.listing
echo "examples: the divert's listing agrees"
