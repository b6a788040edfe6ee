#!/usr/bin/env bash
# The exported calls from Rust and from C: the plain archive's own tests, the comparison of the two on the same steps and bytes, and the
# C example. Arguments go to cargo test.
set -euo pipefail
cd "$(dirname "${BASH_SOURCE[0]}")/.."

tests/tools.sh
(cd crates/headend && rt lib)
export TANGVRAK_LIB=$PWD/crates/headend/out CARGO_TARGET_DIR=$PWD/build/rust
mkdir -p build

case $(uname -m) in
aarch64)
    # static and not position-independent: other programs crash the emulator
    export RUSTC=/usr/bin/rustc \
        CARGO_TARGET_X86_64_UNKNOWN_LINUX_GNU_LINKER=x86_64-linux-gnu-gcc \
        CARGO_TARGET_X86_64_UNKNOWN_LINUX_GNU_RUNNER=qemu-x86_64 \
        CARGO_TARGET_X86_64_UNKNOWN_LINUX_GNU_RUSTFLAGS='-C target-feature=+crt-static -C relocation-model=static'
    cargo_test=(/usr/bin/cargo test --offline --release --target x86_64-unknown-linux-gnu)
    compile=(x86_64-linux-gnu-gcc -static)
    execute=(qemu-x86_64)
    ;;
*)
    cargo_test=(cargo test --offline --release)
    compile=(cc)
    execute=()
    ;;
esac

(cd tests/rust && "${cargo_test[@]}" "$@")
"${compile[@]}" -std=c99 -Wall -Wextra -Werror -O2 -Iinclude examples/c/move.c "$TANGVRAK_LIB/libheadend.a" -o build/move
"${execute[@]}" build/move >build/move.out
echo "the C example: $(wc -l <build/move.out) steps answered as they should be"
