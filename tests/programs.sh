#!/usr/bin/env bash
# Puts programs into target/bin, tests/programs.sh [NAME..], or all that others run. rt ci leaves each program that it has proved and run in
# the crate's out/. One that is missing there or older than the code is proved and built by `rt run`, which also runs it, over no input.
set -euo pipefail
cd "$(dirname "$0")/.."
[ $# != 0 ] || set -- rcds_tree rcds_sync messages spread_table
mkdir -p target/bin

for name; do
    program=crates/$name/out/$name
    log=target/$name.log
    if [ ! -x "$program" ] || [ -n "$(find crates/*/src crates.txt -newer "$program" -print -quit)" ]; then
        rm -f "$program"
        # The program's own status is not asked: rcds_sync finds no files here.
        (cd "crates/$name" && rt run < /dev/null) > "$log" 2>&1 || true
        [ -x "$program" ] || { tail -n 20 "$log"; exit 1; }
    fi
    cmp -s "$program" "target/bin/$name" || cp "$program" "target/bin/$name"
done
