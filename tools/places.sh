#!/bin/sh
# Lists the places that docs/DESIGN-PASS.md counts, a search for each of its points.
#
#     tools/places.sh [FOLDER] [-l]
#
# FOLDER is a checkout of this repository (the present one where it is left out); with -l each line found is printed too.
# What a search finds is read by hand: the page says which lines are places and what became of each.
folder=${1:-.}
cd "$folder" || exit 1

lines() { # point, words, pattern
    found=$(grep -rnE "$3" crates/*/src --include='*.rt')
    printf '%s %s: %s\n' "$1" "$2" "$(printf '%s' "$found" | grep -c .)"
    [ -z "$list" ] || printf '%s\n' "$found" | sed 's/^/    /'
}

list=$2
lines 1 'flags, codes, numbers told' ': bool,|: bool\)|-> \(?u8\b|\br: i32|Option<i32>'
printf '2 names of functions written twice or more: %s\n' \
    "$(grep -rhoE '\bfn [a-z_0-9]+' crates/*/src --include='*.rt' | sort | uniq -d | wc -l)"
[ -z "$list" ] || grep -rhoE '\bfn [a-z_0-9]+' crates/*/src --include='*.rt' | sort | uniq -dc | sed 's/^/    /'
lines 3 'counted loops' 'for [a-z_(), ]+ in .*(\.\.|enumerate\(\))|\+= |wrapping_add\(1\)|while |loop \{'
lines 4 'comparing, copying, converting, printing' \
    'fn (number|code|other|differs|word|read_[a-z]+|letter_code|is_word|is_amount|half_points|from|try_from|fmt|eq|cmp|clone|first|second|[a-z]+_text)\b|format!|println!\(rt; "no|print!\(rt; "\{word\}|[^a-z]as (u8|u16|u32|i16|i32|i64|usize)\b|[<>]=? -?[0-9_]+ (&&|\|\|)'
lines 5 'facts and parameters that come together' \
    'length tokens\.(old|now) ≤ 64|sum tokens\.old ≤ 8192|tokens: &(mut )?\[u16\], limit: u16|held [a-z]+[.a-z]*cells|held self\.[a-z]+\.stations|\(6, 9, line\)|rt: &(impl Print|HostRuntime),? *(word|tally)?|word: &str|heap: Global'
lines 6 'fixed cells, lengths beside them' '\[[iu](8|16|32); ?[0-9]+\]|\[0(u8)?; ?[0-9]+\]|(len|stations): usize'
lines 7 'cases of a step' 'match \*?(self|step|call|kind)\b|dyn |impl Fn|\bfn\('
printf '8 answers: %s, statements of lemmas: %s\n' \
    "$(find crates/*/proofs -name Answers.antt -exec cat {} + | grep -cE '^pub [^ ]+ : goal\.')" \
    "$(find crates/*/proofs crates/*/specs -name '*.antt' ! -name Answers.antt ! -name Invariants.antt -exec cat {} + | grep -cE '^(pub )?[a-z][^ ]* : ')"
