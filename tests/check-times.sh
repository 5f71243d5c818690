#!/usr/bin/env bash
# Prints docs/CHECK-TIMES.md: how long each crate takes to prove from nothing (`rt verdict`), over its libraries as they are built, and how many
# wrong programs it has. It takes about as long as all of them together; nothing else should run meanwhile.
set -euo pipefail
cd "$(dirname "$0")/.."

programs() { cat "crates/$1"/must-fail/*.edit 2> /dev/null | grep -c '^refused: ' || true; }

all_check=0 all_programs=0 all_files=0
rows=''
for name in $(sed -n 's/^\([a-z_]*\)\( staticlib\)\?:.*/\1/p' crates.txt); do
    # Once before, so that the libraries below are built.
    (cd "crates/$name" && rt check) > /dev/null 2>&1
    start=$SECONDS
    (cd "crates/$name" && rt verdict) > /dev/null 2>&1
    seconds=$((SECONDS - start)) wrong=$(programs "$name")
    files=$(find "crates/$name" -path '*/must-fail/*.edit' | wc -l)
    rows+="| \`$name\` | $seconds | $wrong | $files |"$'\n'
    all_check=$((all_check + seconds)) all_programs=$((all_programs + wrong)) all_files=$((all_files + files))
done

cat << END
# Check times

Made by tests/check-times.sh on $(nproc) processors with $(rt version): seconds by the clock of \`rt verdict\`, one crate at a time. docs/CONTRIBUTING.md
says how the gate is kept short.

| crate | seconds | wrong programs | in files |
|---|---:|---:|---:|
$rows| all | $all_check | $all_programs | $all_files |
END
