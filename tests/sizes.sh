#!/usr/bin/env bash
# Prints the first table of docs/SIZES.md: lines of each crate, and how many edits must be refused. (The gate's log has no seconds of single
# crates and edits.) No part of the gate.
set -euo pipefail
cd "$(dirname "${BASH_SOURCE[0]}")/.."

lines() { # FOLDER SUFFIX
    { [ ! -d "$1" ] || find "$1" -name "*.$2" -exec cat {} +; } | wc -l
}
edits() { { [ ! -d "crates/$1/must-fail" ] || find "crates/$1/must-fail" -name '*.edit'; } | wc -l; }

row='| %s | %s | %s | %s | %s |\n'
# shellcheck disable=SC2059
{
    printf "$row" crate code definitions proofs edits
    printf '|---|---|---|---|---|\n'
    code=0 definitions=0 proofs=0 count=0
    for crate in $(sed -nE 's/^([a-z_]+)( staticlib)?:.*/\1/p' crates.txt); do
        c=$(lines "crates/$crate/src" rt) d=$(lines "crates/$crate/specs" antt) p=$(lines "crates/$crate/proofs" antt) n=$(edits "$crate")
        printf "$row" "$crate" "$c" "$d" "$p" "$n"
        code=$((code + c)) definitions=$((definitions + d)) proofs=$((proofs + p)) count=$((count + n))
    done
    printf "$row" all "$code" "$definitions" "$proofs" "$count"
}
