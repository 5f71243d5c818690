#!/usr/bin/env bash
# Sessions between two processes, over a link that loses, repeats and reorders messages (examples/c/sync.c), and their status.
set -euo pipefail
cd "$(dirname "$0")/.."

file=examples/channel.bin
own=target/edited.bin
gcc -std=c99 -O2 -Iinclude examples/c/sync.c target/staticlib/librcds.a -o target/sync

# The receiver's own file: 19 bytes of the sender's are not there yet, 7 others are different.
{ head -c 3000 $file; head -c 10000 $file | tail -c +3020; printf 'changed'; tail -c +10008 $file; } > $own

# expect STATUS A B: the session's log is left in target/sync.log.
expect() {
    local status=0
    target/sync "$2" "$3" > target/sync.log 2>&1 || status=$?
    tail -n 3 target/sync.log
    [ "$status" = "$1" ] || { echo "status $status in place of $1"; exit 1; }
}

echo "-- two versions of a file"
expect 0 $file $own
echo "-- an empty own file"
expect 0 $file /dev/null
echo "-- an own file with more other blocks than the sketch has cells: it does not open"
seq 12000 > target/numbers.txt
expect 1 $file target/numbers.txt
echo "-- a file that is too long"
head -c 65537 /dev/zero > target/long.bin
expect 2 target/long.bin $own
