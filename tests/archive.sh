#!/usr/bin/env bash
# Proves and builds the library for C, crate rcds_c, and puts the archive where everything else looks for it: target/staticlib/librcds.a.
# What an earlier run proved is not proved again.
set -euo pipefail
cd "$(dirname "$0")/.."
mkdir -p target/staticlib

(cd crates/rcds_c && rt lib) > target/archive.log 2>&1 || { tail -n 20 target/archive.log; exit 1; }
# An archive that has not changed keeps its time, so that nothing is linked again.
cmp -s crates/rcds_c/out/librcds_c.a target/staticlib/librcds.a || cp crates/rcds_c/out/librcds_c.a target/staticlib/librcds.a
