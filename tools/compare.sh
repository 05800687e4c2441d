#!/usr/bin/env bash
# Compares waterbook with the second engine on generated cases, and counts the refusals that were met.
#   tools/compare.sh [CASES [SEED]]      after 'rt run' in crates/waterbook; 300 cases of seed 1 where none are given
set -euo pipefail
cd "$(dirname "$0")/.."
count=${1:-300} seed=${2:-1}
waterbook=$PWD/crates/waterbook/out/waterbook
work=$(mktemp -d)
trap 'rm -rf "$work"' EXIT
rustc -O -o "$work/engine" tools/engine/engine.rs
rustc -O -o "$work/cases" tools/engine/cases.rs
"$work/engine" --selftest
"$work/cases" "$seed" "$count" "$work/all"
differ=0
for folder in "$work"/all/*/; do
    (cd "$folder" && "$waterbook" < feed.bin > first.txt && "$work/engine" < feed.bin > second.txt && cmp first.txt second.txt) || differ=$((differ + 1))
done
echo "$count cases of seed $seed, $(cat "$work"/all/*/first.txt | wc -l) lines, $differ differ"
echo "refusals met (times number): $(cat "$work"/all/*/first.txt | awk '$1 == "X" { print $2 }' | sort -n | uniq -c | awk '{ printf "%s x %s  ", $1, $2 }')"
[ "$differ" -eq 0 ]
