#!/usr/bin/env bash
# The built program on each case of tests/replay: NAME.in on standard input, NAME.out on standard output, byte by byte. The outputs come
# from the plain archive (tests/rust/plain), which shares no code with the program. Then the two are compared on random texts, good and
# damaged. `rt run` builds the program; SEEDS says how many seeds, of four texts each.
set -euo pipefail
cd "$(dirname "${BASH_SOURCE[0]}")/.."

(cd crates/replay && rt run <stdin >/dev/null)
program=$PWD/crates/replay/out/replay
[ -x "$program" ] || { echo "no $program: rt run did not build it" >&2; exit 1; }
run=("$program")
if [ "$(uname -m)" != x86_64 ]; then
    # the program is x86-64 code: the kit's emulator and loader, as `rt` itself runs it
    tools=$(dirname "$(dirname "$(readlink -f "$(command -v rt)")")")/on/$(uname -m)/toolchain
    run=("$tools/bin/qemu-x86_64" "$tools/lib/ld-linux-x86-64.so.2" --library-path "$tools/lib" "$program")
fi

printed=$(mktemp)
trap 'rm -f "$printed"' EXIT
cases=0 wrong=0
for input in tests/replay/*.in; do
    cases=$((cases + 1))
    "${run[@]}" <"$input" >"$printed" || { echo "$input: the program failed" >&2; wrong=$((wrong + 1)); continue; }
    cmp -s "$printed" "${input%.in}.out" || { echo "$input: another output" >&2; wrong=$((wrong + 1)); }
done
echo "replay: $cases cases, $wrong wrong"
[ "$wrong" -eq 0 ]

tests/tools.sh
mkdir -p build
export CARGO_TARGET_DIR=$PWD/build/plain REPLAY="${run[*]}" SEEDS=${SEEDS:-400}
(cd tests/rust/plain && cargo test --offline --release --test program -- --include-ignored --nocapture) | tee build/texts.log
grep -q '^[1-9][0-9]* texts' build/texts.log
