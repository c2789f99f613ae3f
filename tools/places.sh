#!/bin/bash
# Counts, in crates/*/src, the places that docs/DESIGN-PASS.md speaks of. With -v it prints them.
cd "$(dirname "$0")/.." || exit 1
show=$1
count() { # count LABEL PATTERN
    printf '%-52s' "$1"
    grep -rnE "$2" crates/*/src --include=*.rt | wc -l
    if [ "$show" = -v ]; then grep -rnE "$2" crates/*/src --include=*.rt | sed 's/^/    /'; fi
}
count '1 arms and tests on Option and Result' '^\s*(Some|None|Ok|Err)\b.*=>|if let (Some|None|Ok|Err)\b|let (Some|Ok|Err)\(.*else'
count '1 numbers for kinds and refusals' '\b(part|side): (u8|usize)|=> [0-9]+,$|\bABSENT\b|scale == 1'
count '1 flags beside a value' '(with_floor|with_ceiling|stands): bool'
count '3 loops that count by hand' 'for [a-z]+ in 0\.\.|while |loop \{'
count '4 conversions, equality and printing by hand' 'fn (number|code|kind|kept|asked|signed|word_of|on_line|in_part|replied|told|left_back|right_back|window_reply|starts_reply|is_row|is_fault|is_window|is_told|renewed|adopted|fresh_row|lowered|raised|widened)\b'
count '5 parameters that travel together' '\bside: usize|\bfloor: i32|\blefts: &\[Window\]|\blead: &Benches|\bstations: usize,? '
count '5 facts and meanings that are repeated' '≤ 32|model L\.Network\.meaning R\.Network\.meaning'
count '6 fixed buffers' '; (32|MOST)\]|count: usize'
count '7 closures, impl Fn and dyn' '\|[a-z_&]+\||Fn(Once|Mut)?\(|\bdyn '
printf '%-52s' '2 twins'; python3 tools/twins.py | tail -1
if [ "$show" = -v ]; then python3 tools/twins.py | sed '$d; s/^/    /'; fi
printf '%-52s' '8 lines of answers and lemmas, by crate'; for c in crates/*; do printf '%s %s  ' "${c#crates/}" "$(find "$c/proofs" -name '*.antt' -exec cat {} + | wc -l)"; done; echo
