#!/usr/bin/env bash
# The hostile campaign, which is no part of ./test:
#
#     tests/hostile.sh [SECONDS [SEED]]
#
# Forged and damaged strings, settings, lengths, distances, ranges, messages, tables, states and buffer lengths, drawn as tests/conformance
# draws them, over fresh seeds for so many seconds (60, unless it is told otherwise; building is not counted). Every answer and every
# lent byte is the reference's.
#
# Each lent piece stands between pages that may not be touched: in the first run its last byte is the last before such a page, in the
# second its first byte is the first after one, so that a byte read or written there ends the process. AddressSanitizer would not see it:
# the archive is not instrumented, and it sees only the accesses of code that is. A page meets every access.
#
# A call may take a second of its thread's processor time. One that never ends is ended a minute after the seconds of its run, or two
# minutes under valgrind.
#
# A sample runs under valgrind, where that is installed, each lent piece a block of the heap of exactly its length: no byte on either side
# of it is touched, and nothing depends on memory that was never written.
#
# Without a seed the time is the seed. A failure leaves the words that repeat it.
set -euo pipefail
cd "$(dirname "$0")/.."

seconds=${1:-60}
seed=${2:-$(date +%s)}
package=tests/conformance
program=$package/target/release/conformance
last=target/hostile.case

mkdir -p target
if [ -z "${RCDS_LIB:-}" ] && [ ! -f target/staticlib/librcds.a ]; then
    tests/archive.sh
fi
cargo build --release --offline --quiet --manifest-path $package/Cargo.toml --target-dir $package/target --bin conformance

# run LENT SECONDS MORE [COMMAND...]: one run, by a command that runs the program. It is ended after so many seconds more.
run() {
    local status=0
    RCDS_LENT=$1 RCDS_CASE=$last timeout $(($2 + $3)) "${@:4}" $program campaign "$2" "$seed" || status=$?
    [ "$status" != 0 ] || return 0
    # The case is not in quotes: it is several words.
    # shellcheck disable=SC2046
    echo "status $status; to repeat the last case:" "RCDS_LENT=$1" "${@:4}" $program $(cat $last)
    exit 1
}

echo "== the hostile campaign, $seconds s from seed $seed"
part=$((seconds / 5))
echo "-- no page after a lent piece is touched"
run after $((2 * part)) 60
echo "-- no page before a lent piece is touched"
run before $((2 * part)) 60
if command -v valgrind > /dev/null; then
    echo "-- a sample under valgrind"
    # A case can take more than ten seconds there.
    run heap $part 120 valgrind --error-exitcode=3 --exit-on-first-error=yes -q
else
    echo "-- no valgrind, no sample under it"
fi
