#!/usr/bin/env bash
# The header alone, its readers' test and the C examples as C99 and as C++17, without a warning: with gcc, and with clang where it is
# installed. The readers' test is run too; it needs no library.
set -euo pipefail
cd "$(dirname "$0")/.."
mkdir -p target

# compile COMPILER LANGUAGE STANDARD
compile() {
    local options=(-x "$2" "-std=$3" -Wall -Wextra -Wpedantic -Werror -O2 -Iinclude)
    "$1" "${options[@]}" -c -o /dev/null - <<< '#include "rcds.h"'
    "$1" "${options[@]}" -c -o /dev/null examples/c/tree.c
    "$1" "${options[@]}" -c -o /dev/null examples/c/sync.c
    "$1" "${options[@]}" tests/readers.c -o target/readers
    target/readers
}

for compiler in gcc clang; do
    command -v "$compiler" > /dev/null || continue
    compile "$compiler" c c99
    compile "$compiler" c++ c++17
    echo "$compiler: C99 and C++17"
done
