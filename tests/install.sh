#!/usr/bin/env bash
# Installs the library under a prefix of its own and builds the tree example with no other flags than those that pkg-config gives
# for it. Where pkg-config is missing, they are read from the file that it would read. The example must print what it printed when
# ./test built it with the repository's own files.
set -euo pipefail
cd "$(dirname "$0")/.."

prefix=$(mktemp -d)
trap 'rm -rf "$prefix"' EXIT
./install "$prefix"

if command -v pkg-config > /dev/null; then
    flags=$(PKG_CONFIG_PATH="$prefix/lib/pkgconfig" pkg-config --cflags --libs rcds)
else
    flags=$(sed -n "s|\${libdir}|$prefix/lib|; s|\${includedir}|$prefix/include|; s/^Libs: //p; s/^Cflags: //p" \
        "$prefix/lib/pkgconfig/rcds.pc")
fi
# Not in quotes: the flags are several words.
gcc -std=c99 -O2 examples/c/tree.c $flags -o "$prefix/tree"
"$prefix/tree" examples/channel.bin | cmp - target/tree.out
