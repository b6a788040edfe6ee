#!/usr/bin/env bash
# How long a run of 4,096 steps takes beside the plain archive; the results are compared first. No part of the gate. On an Arm machine the
# library is x86-64 code under an emulator, and a time would say nothing.
set -euo pipefail
cd "$(dirname "${BASH_SOURCE[0]}")/.."

if [ "$(uname -m)" != x86_64 ]; then
    echo "the library is x86-64 code: measure on an x86-64 machine" >&2
    exit 1
fi
tests/tools.sh
(cd crates/headend && rt lib)
export TANGVRAK_LIB=$PWD/crates/headend/out CARGO_TARGET_DIR=$PWD/build/rust
(cd tests/rust && cargo build --offline --release --bin bench)
grep -m 1 'model name' /proc/cpuinfo || true
for _ in 1 2 3; do build/rust/release/bench; done
