#!/usr/bin/env bash
# What docs/PROOFS.md names is there: each statement, written `crate/folder/File.antt: name, name`, is declared in its file; each file of the
# reading order has the length that it says; and its list of wrong programs has every edit that must be refused, and no other. So are the
# files of a crate that its own comments name.
set -euo pipefail
cd "$(dirname "${BASH_SOURCE[0]}")/.."

fail=0
wrong() {
    echo "$*"
    fail=1
}
complain() { wrong "docs/PROOFS.md $*"; }

statements=0
while IFS= read -r reference; do
    file=crates/${reference%%: *}
    [ -f "$file" ] || { complain "names $file, which is not there"; continue; }
    IFS=', ' read -r -a names <<<"${reference#*: }"
    for name in "${names[@]}"; do
        statements=$((statements + 1))
        grep -qE "^ *((unfoldable|abbrev|pub|record|data|fn|extern|\"C\") )*$name( |:|\(|<|$)" "$file" ||
            complain "names $name in $file, which does not declare it"
    done
done < <(grep -oE '`[a-z_]+/(src|specs|proofs)/[A-Za-z_/]+\.(antt|rt): [^`]+`' docs/PROOFS.md | tr -d '`')

files=0
while IFS='|' read -r _ _ file length _; do
    file=crates/$(tr -d ' `' <<<"$file") length=$(tr -d ' ' <<<"$length")
    files=$((files + 1))
    [ "$(wc -l <"$file")" -eq "$length" ] || complain "says that $file has $length lines: it has $(wc -l <"$file")"
done < <(grep -E '^\| [0-9]+ \| `[a-z_]+/(src|specs)/[A-Za-z]+\.(antt|rt)` \| [0-9]+ \|' docs/PROOFS.md)

listed=$(sed -n '/^## Wrong programs/,$p' docs/PROOFS.md | { grep -oE '`[a-z_-]+/[a-z0-9_]+`' || true; } | tr -d '`' | sort)
edits=$(ls crates/*/must-fail/*.edit tests/wrong-steps/*.edit | sed -E 's#^(crates|tests)/##; s#/must-fail/#/#; s#\.edit$##' | sort)
while IFS= read -r odd; do
    complain "and the edits differ: $odd"
done < <(diff <(echo "$listed") <(echo "$edits") | sed -n 's/^< /listed once too often or not there: /p; s/^> /not listed: /p')

while IFS= read -r row; do
    crate=$(sed -E 's#.*\| `([a-z_]+)/.*#\1#' <<<"$row") function=$(sed -E 's#.* of `([a-z0-9_]+)`.*#\1#' <<<"$row")
    grep -qE "fn $function[(<]" "crates/$crate"/src/*.rt || complain "names the function $function of $crate, which is not there"
done < <(grep -E '^\|.*\| `[a-z_]+/[a-z0-9_]+` \| the (contract|walk) of `' docs/PROOFS.md)

comments=0
while IFS=: read -r file line name; do
    comments=$((comments + 1)) crate=${file#crates/}
    [ -f "crates/${crate%%/*}/${name%.antt}.antt" ] || wrong "$file:$line names $name, which is not there"
done < <(grep -rnoE '(specs|proofs)/[A-Z][A-Za-z]*(\.antt)?' crates --include='*.antt' --include='*.rt')

[ "$statements" -gt 0 ] && [ "$files" -gt 0 ] || complain "names no statement, or has no reading order"
[ "$comments" -gt 0 ] || wrong "no comment names a file"
echo "$statements names, $files lengths and $(wc -l <<<"$edits") edits looked up"
exit "$fail"
