#!/usr/bin/env bash
# What the tests need beside the kit, from Debian's packages where it is missing: cargo and a C compiler; on an Arm machine also what builds
# and runs x86-64 programs there, since the kit's static library is x86-64 code.
set -euo pipefail

as_root=()
[ "$(id -u)" -eq 0 ] || as_root=(sudo)
install() { # PACKAGES
    "${as_root[@]}" apt-get update -qq
    "${as_root[@]}" env DEBIAN_FRONTEND=noninteractive apt-get install -y -qq --no-install-recommends "$@"
}

if [ "$(uname -m)" = aarch64 ]; then
    if ! { command -v qemu-x86_64 && command -v x86_64-linux-gnu-gcc && [ -x /usr/bin/cargo ] &&
        [ -d /usr/lib/rustlib/x86_64-unknown-linux-gnu ]; } >/dev/null; then
        "${as_root[@]}" dpkg --add-architecture amd64
        install rustc cargo gcc libc6-dev libstd-rust-dev:amd64 gcc-x86-64-linux-gnu libc6-dev-amd64-cross libc6-dev:amd64 qemu-user
    fi
elif ! { command -v cargo && command -v cc; } >/dev/null; then
    install rustc cargo gcc libc6-dev
fi
