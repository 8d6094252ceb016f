#!/bin/sh
# Lists places in crates/*/src where an older form of the language may stand, a heading and a count for each kind.
# A place listed is a place to look at and not a fault. `tools/forms.sh -c` prints the counts alone.
# The folder of another checkout may follow, to count there.
show=1
[ "$1" = "-c" ] && { show=0; shift; }
cd "${1:-$(git rev-parse --show-toplevel)}" || exit 1
src=$(git ls-files 'crates/*/src/*.rt')

# A heading, and then the lines of the standard input with their count.
section() {
    found=$(cat)
    if [ -z "$found" ]; then n=0; else n=$(printf '%s\n' "$found" | wc -l); fi
    printf '%-72s %3d\n' "$1" "$n"
    if [ "$show" = 1 ] && [ -n "$found" ]; then printf '%s\n' "$found" | sed 's/^/    /'; fi
}

# Lines that fit a pattern, but for clauses and comments.
code() { grep -nE -e "$1" $src | grep -vE ':[0-9]+:\s*(//|ensures|requires|ghost)'; }

echo "1. Option, Result, enums"
code '^\s*(pub(\([a-z]+\))? )?enum ' | section "  enums of the repository's own"
code 'usize::MAX' | section "  numbers that stand for none"
grep -nE -A2 '=> (None|Err\([a-z]+\)|\{\}),?$' $src | grep -E '(None|Err\(([a-z]+)\)) => (None|Err\(\2\)|\{\}),?$' | section "  a match that hands an absence or an error on"
grep -nE -A1 'let (Some|Ok)\(.*else \{$' $src | grep -E 'return (None|false);' | section "  a let-else that hands an absence on"
for f in $src; do tr '\n' ' ' < "$f" | grep -oE 'fn [a-z_0-9]+(<[^>]*>)?\([^{]*&mut [^{]*\) -> bool' | sed "s|^|$f: |; s|(.*||"; done | section "  changes that answer whether they were made by a bool"
code 'fn [a-z_]+\(.*\) -> u8' | section "  kinds as numbers"
code '-> Option<(Limit|CoverageFault|Stop|Difference)>' | section "  an error as an Option"

echo "2. Twins"
for f in $src; do grep -nE '^\s*(pub(\([a-z]+\))? )?fn ' "$f" | sed "s|^|$f:|"; done | sed -E 's/^([^:]*:[0-9]+):.*fn ([a-z_0-9]+).*/\2 \1/' | sort | awk '{n[$1]++; at[$1]=at[$1] " " $2} END {for (f in n) if (n[f] > 1 && f !~ /^(main|fmt|from|raw|from_raw|size|from_count|new|enter|strike|next|capacity|run|show)$/) print f ":" at[f]}' | sort | section "  functions of one name in several files"
code '^impl (Scalar|CountScalar) for ' | section "  impls of Scalar and CountScalar"
code '_virtual|_real|virtual_|real_' | grep -E 'fn [a-z_]+' | section "  functions for real or for virtual links alone"
code 'pub struct (ObjectView|SeenObject)' | section "  structs of an object that was read"

echo "3. Loops"
code '^\s*(for|while|loop)\b' | section "  all loops"
code '^\s*for .* in [0-9a-z_.()]+\.\.' | section "  of these, over a range of numbers"
code '^\s*while ' | section "  of these, while"

echo "4. Equality, order, conversion, printing"
code '^impl.* (PartialEq|Eq|PartialOrd|Ord|Clone|Hash) for ' | section "  comparisons and copies written out"
code '\.0 (==|!=|<=?|>=?) |(==|!=|<=?|>=?) [a-zA-Z_:.]+\.0\b' | section "  comparisons of what a struct holds"
code 'fn [a-z_]*(_name|_byte)\(' | section "  a name or a code of a value, by a function"
code '^\s*let [a-z]+ = [a-z.]+\.0;' | section "  a number taken out to be printed"
code 'fn (new_checked|to_u32|again|same|same_link)\(' | section "  conversions and copies by a function"

echo "5. Facts and parameters that go together"
cat $src | grep -oE '(ensures|requires) [a-z]* ?\{.*\}' | sort | uniq -c | awk '$1 > 2' | section "  clauses that stand three times or more"
for f in $src; do tr '\n' ' ' < "$f" | grep -oE 'fn [a-z_0-9]+(<[^>]*>)?\([^)]*\)' | awk -F, 'NF > 5 || (NF == 5 && $5 !~ /^ *\)$/)' | sed "s|^|$f: |" | tr -s ' '; done | section "  functions of five parameters or more"

echo "6. Buffers, arrays, lists"
code '&(mut )?Vec<' | section "  parameters that are a reference to a Vec"
code '^\s*(pub(\([a-z]+\))? )?[a-z_]+: Vec<' | section "  fields that are a Vec"
code '\[[a-z_]+\.len\(\) - 1\]|\[n - 1\]' | section "  the last of a slice by its index"

echo "7. Steps and functions by a switch"
code '\bfn\(|dyn ' | section "  function pointers and dyn"
code '\bimpl Fn|: Fn(Mut|Once)?\(|[(,=] *(move )?\|[a-z_&, ]*\| ' | section "  closures"

echo "8. Proofs"
git ls-files 'crates/*/proofs/*Answers.antt' | section "  files of answers"
