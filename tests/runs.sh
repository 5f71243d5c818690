#!/usr/bin/env bash
# Runs the two programs over the stored runs of tests/runs and compares what they write. A run with a file stdin is one of target/bin/rcds_tree,
# which reads it; the others are pairs for target/bin/rcds_sync, which writes the sender's string, or nothing where the sketch does not open or
# the string is empty. A run of each over few bytes is stored beside its code.
#
# Both programs read at most 16,384 bytes. In past_16384_bytes both files have more, and the receiver's are chosen so that with one byte more or
# one byte fewer of them the sketch would not open.
set -euo pipefail
cd "$(dirname "$0")/.."

for run in tests/runs/*; do
    if [ -f "$run/stdin" ]; then
        target/bin/rcds_tree < "$run/stdin" | cmp - "$run/stdout"
    else
        (cd "$run" && ../../../target/bin/rcds_sync) | cmp - "$run/stdout"
    fi
    echo "$(basename "$run"): $(wc -c < "$run/stdout") bytes"
done
