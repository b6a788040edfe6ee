#!/usr/bin/env bash
# How many places of the older forms src/ has, point by point (docs/DESIGN-PASS.md), at a commit, or in the working tree where none is named.
# With -l before it, each place is listed. The forms are found by what they look like, and the twins and conversions by their names.
set -euo pipefail
cd "$(dirname "${BASH_SOURCE[0]}")/.."

list=
if [ "${1-}" = -l ]; then
    list=1
    shift
fi

places() { # POINT, REGEX, WHAT
    local found
    found=$(git grep -nE "$2" ${commit:+"$commit"} -- 'crates/*/src/*.rt' || true)
    printf '%-3s %4s  %s\n' "$1" "$(grep -c . <<<"$found" || true)" "$3"
    if [ -n "$list" ] && [ -n "$found" ]; then sed 's/^/            /' <<<"$found"; fi
}
commit=${1-}

places 1a 'enum (Change|Found|Reached|Part|Parsed) ' 'own enums of the shape of Option or Result'
places 1b 'Refused\([0-9]+\)|refused\([a-z]+, [0-9]+\)|choose\(.*, [0-9]+, |^ +return ([1-9]|1[0-5]);' 'a number for a refusal or a broken rule'
places 1c 'if 0 < [a-z] |first_broken\(.*!= 0|[!=]= (NONE|NOWHERE|ABSENT)\b|\bNONE [!=]=|return (NONE|ABSENT|CELLS);|^    (NONE|CELLS|0)$' '0, 65535 or 1,024 that stands for none'
places 1d 'stage(\)|) [=<!]|[<] (mv\.)?stage\b|match stage|\btag [=<%]|< tag\b' 'a stage or a phase tested as a number'
places 1e '\b(to|which|admission|write): bool' 'a bool that says which kind'
places 1f 'n: usize, rows|^    n: usize,$' 'a flag or a length with the value beside it'
places 2a 'fn (join|get|put)[248]\(|fn (words|halves|longs)_(in|out)\(' 'twins by type or size'
places 2b 'fn ((take|free)_run|is_(plain|flagged)|(plain|flagged)_header|is_(early|late)|no_row|fresh_row|no_rows)\(|const NO_MOVE|let mv = Move \{' 'twins by a constant'
places 3a '^ +(while|loop)\b' 'while and loop'
places 3b '^ +for [a-z_]+ in [a-z0-9]+\.\.' 'for over an index'
places 4a 'fn (pack|unpack|pack_label|unpack_label|tell|say|coded|is_refused|phase_of|phase_words|busy_words|access_of|choose)\(' 'conversions and choices by hand'
places 4b 'fn (same_words|no_numbers|no_access|is_among|is_busy|all_empty)\(' 'comparisons by hand'
places 4c 'let mut next = |^ +(attached|passed|swaps): row\.' 'copies field by field'
places 4d '^ +let [a-z]+ = [a-z]+\.[a-z]+;$' 'a field copied into a local'
places 5a 'requires.*(length|IsMap)' 'a length that stands in requires'
places 5b 'requires.*R1' 'R1 that stands in requires'
places 5c 'dir: &(.. )?(.a )?\[u16; 256\],|begun: u32, committed: u32' 'directory, move, map and counts as parameters beside each other'
places 5d 'tag: u32, cell: u32|code: u32,$' 'five numbers as parameters beside each other'
places 5e '\(control: Control, arena|^    (mut )?(control|was): Control,$' 'control record, arena and table as parameters beside each other'
places 6a '\bEight\b' 'eight fields for an array'
places 6b 'out: &mut \[u8\], at: usize|^    out: &mut \[u8\],$' 'a page and a place beside it'
places 6c '\bs: &\[u8\], ' 'a text and a place beside it'
places 7a 'match (code|who|stage) |if admission|, (true|false), (admissions|steps)|^ +admission,$' 'a switch on which step to run'
places 7b 'fn (fresh|step|run|fill|audit)(_rows)?\(|fn tangvrak_[a-z]+\(|fn (records|headers|rows|all_swaps|cells)_right\(|fn (rest|open|drop|access|record|admit)_refusal\(|fn keep_(row|phase|swap)\(' 'the same skeleton again'
answers=$(git grep -hE '^pub ' ${commit:+"$commit"} -- 'crates/*Answers.antt' | wc -l)
printf '%-3s %4s  %s\n' 8 "$answers" 'answers in proof files'
