#!/usr/bin/env bash
# The "Errors that look reasonable", and other wrong readings of a step, each put into the definitions: the theorems of `demands` must
# refuse it. (A must-fail edit stays within its crate; here the definitions are in `model` and what refuses them in `demands`.) Laws of
# single steps that would refuse most of them already, and all that demands 2 and 3 do not use, are left out, so that these have to.
# With an edit it tries that one, else all of tests/wrong-steps.
set -euo pipefail
cd "$(dirname "${BASH_SOURCE[0]}")/.."

if [ $# -eq 0 ]; then
    printf '%s\n' tests/wrong-steps/*.edit | xargs -P "$(nproc)" -n 1 tests/wrong-steps.sh
    exit
fi
edit=$1

work=$(mktemp -d)
trap 'rm -rf "$work"' EXIT

# Replaces the one occurrence of $2 in file $1 by $3.
replace() {
    OLD=$2 NEW=$3 awk '
        { text = text $0 "\n" }
        END {
            old = ENVIRON["OLD"]; at = index(text, old)
            if (!at || index(substr(text, at + length(old)), old)) exit 3
            printf "%s%s%s", substr(text, 1, at - 1), ENVIRON["NEW"], substr(text, at + length(old))
        }' "$1" >"$1.new" && mv "$1.new" "$1"
}

apply() { # EDIT: its replacements in the copy
    local file='' old='' line
    while IFS= read -r line; do
        case $line in
        'file: '*) file=$work/${line#file: } ;;
        'old: '*) old=${line#old: } ;;
        'new: '*) replace "$file" "$old" "${line#new: }" ;;
        esac
    done <"$1"
}

label=$(basename "$edit" .edit)
mkdir -p "$work/crates"
cp -R crates/model crates/demands "$work/crates/"
printf 'model:\ndemands: model\n' >"$work/crates.txt"
for law in model/proofs/Effects model/proofs/Answered demands/proofs/Requests demands/proofs/KeptOut demands/proofs/NoWrap; do
    rm "$work/crates/$law.antt"
    replace "$work/crates/${law%/*}/Lib.antt" "pub mod ${law##*/}
" ''
done
apply "$edit"
log=$work/$label.log
if (cd "$work/crates/demands" && rt check) >"$log" 2>&1; then
    echo "$label: NOT REFUSED: demands is still proved"
    exit 1
fi
# what fails by itself, and not because something before it failed; an error of another form, say of an import, is none that is meant. Model,
# which is checked first, must prove: its lines end before the crate demands is begun
errors=$(grep -E '^\./proofs/[A-Za-z]+\.antt:[0-9]+:[0-9]+: error: ' "$log" | grep -vE 'declarations? that depends? on' || true)
failed=$(sed -nE 's/^\.\/proofs\/([A-Za-z]+)\.antt:[0-9:]+ error: `([^`]+)`: .*/\1 \2/p' <<<"$errors" | sort -u | paste -sd,)
odd=$(grep -vE 'error: `[^`]+`: ' <<<"$errors" || true)
if ! grep -q '^logic=proved' < <(sed '/^rt: .* for demands$/,$d' "$log") || [ -z "$failed" ] || [ -n "$odd" ]; then
    echo "$label: refused, but not by a theorem of demands:"
    grep -m 3 -E 'error|rt:' "$log" || tail -n 3 "$log"
    exit 1
fi
echo "$label: refused, as it must be, by ${failed//,/, }"
