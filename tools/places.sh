#!/bin/bash
# Counts the places of each point of docs/DESIGN-PASS.md in the sources at a commit:  bash tools/places.sh COMMIT [--list]
# Each count is of lines; docs/DESIGN-PASS.md says which of them are places and what became of each.
set -u
rev=${1:?a commit}
list=${2:-}
here=(-- 'crates/*/src/*.rt' ':!crates/*_tests/src/*')
all=(-- 'crates/*/src/*.rt')

count() { # what, then the command that prints a line for each
  local what=$1 lines
  shift
  lines=$("$@" | grep -vE ':[0-9]+: *//' | sed "s/^$rev://")
  printf '%4d  %s\n' "$(grep -c . <<<"$lines")" "$what"
  [ "$list" = --list ] && [ -n "$lines" ] && sed 's/^/          /' <<<"$lines"
}

echo "1  shapes of Option and Result, flags, numbers"
count "enums of our own" git grep -nE '^ *(pub(\(crate\))? )?enum ' "$rev" "${here[@]}"
count "results that are a code and a figure, as two numbers" git grep -nE -- '-> (Option<)?\(u64, u64\)' "$rev" "${here[@]}"
count "refusals by return" git grep -nE 'return (Err\()?(Answer|Refusal)::|Err\(refusal\) => return' "$rev" "${here[@]}"
count "None handed on by return behind let .. else" bash -c "git grep -nE -A1 'let Some\(.*else \{\$' $rev -- 'crates/*/src/*.rt' ':!crates/*_tests/src/*' | grep -E 'return None;'"
count "results of bool of what changes something" git grep -nE 'fn .*&mut .*-> bool' "$rev" "${here[@]}"

echo "2  twins"
count "names of functions that stand twice or more outside impls" bash -c "git grep -hoE '^(pub(\(crate\))? )?fn [a-z_0-9]+' $rev -- 'crates/*/src/*.rt' | sed -E 's/^(pub(\(crate\))? )?//' | sort | uniq -c | awk '\$1>1'"
count "constants and types that stand twice or more" bash -c "git grep -hoE '^(pub(\(crate\))? )?(const|type) [A-Za-z_0-9]+' $rev -- 'crates/*/src/*.rt' | sed -E 's/^(pub(\(crate\))? )?//' | sort | uniq -c | awk '\$1>1'"

echo "3  loops"
count "loops" git grep -nE "^ *('[a-z]+: )?(for .* in |while |loop )" "$rev" "${all[@]}"
count "of these, loops over a range, by enumerate, or with a condition of their own" git grep -nE "^ *('[a-z]+: )?(for .* in .*\.\.|for .*enumerate\(\)|while [^l])" "$rev" "${all[@]}"

echo "4  equality, order, copying, conversion, printing"
count "conversions and comparisons that are functions" git grep -nE 'fn ([a-z_]*from[a-z_]*|from_word|word|pair|answer|key|request|kind_of|page_words|head_words|bound_key|bound_words|place_key|place_name|by_number|and_then|compare|fold|read_digits|write_digits|digit_count|is_printed)(<|\()' "$rev" "${here[@]}"
count "types that derive Clone, Copy alone or Drop alone" git grep -nE 'derive\((Clone, Copy|Drop)\)\]' "$rev" "${here[@]}"

echo "5  facts and parameters that come again"
count "requires" git grep -nE '^ *requires ' "$rev" "${here[@]}"
count "of these, that a page is there" git grep -nE '^ *requires .*is_there' "$rev" "${here[@]}"

echo "6  buffers"
count "arrays in structs and in bodies" git grep -nE '(: \[[^;]*; [A-Za-z_0-9]+\],$)|= \[[^;]*; [A-Za-z_0-9]+\];' "$rev" "${here[@]}"

echo "7  switches"
count "matches" git grep -nE '\bmatch ' "$rev" "${here[@]}"
count "closures, Fn and dyn" git grep -nE '\bFn(Once|Mut)?\(|\bdyn |\|[a-z_&, ()*]+\| |\(\|\| ' "$rev" "${all[@]}"

echo "8  proofs"
count "files of answers" bash -c "git ls-tree -r --name-only $rev | grep -E '^crates/[a-z_]+/proofs/.*/Answers.antt'"
count "files of invariants" bash -c "git ls-tree -r --name-only $rev | grep -E '^crates/[a-z_]+/proofs/.*/Invariants.antt'"
for c in order store page model index runner store_tests; do
  printf '%6d lines of proofs in %s\n' "$(git ls-tree -r --name-only "$rev" "crates/$c/proofs" | while read -r f; do git show "$rev:$f"; done | wc -l)" "$c"
done
