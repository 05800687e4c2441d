#!/usr/bin/env bash
# Programs that the check must reject, and the same programs mended, which it must accept.
#   tools/rejected.sh
# A program of tools/rejected has lines marked '// rejected' and lines marked '// mended'; it is checked once with the ones and
# once with the others, as a crate of its own in a copy. Its first line gives words of the message with which it is rejected.
set -euo pipefail
cd "$(dirname "$0")/.."
work=$(mktemp -d)
trap 'rm -rf "$work"' EXIT
tar -c --exclude out crates | tar -x -C "$work"
{ cat crates.txt; echo 'trial: refusals storages banks basin card land'; } > "$work/crates.txt"
trial=$work/crates/trial
mkdir -p "$trial/src"
failed=0
for program in tools/rejected/*.txt; do
    name=$(basename "$program" .txt)
    words=$(sed -n '1s,^// rejected with: ,,p' "$program")
    sed '/\/\/ mended$/d' "$program" > "$trial/src/main.rt"
    if (cd "$trial" && rt check) > "$work/log" 2>&1 || ! grep -qF -- "$words" "$work/log"; then
        echo "$name: NOT REJECTED as it should be"
        tail -n 5 "$work/log"
        failed=1
    else
        echo "$name: rejected, as it must be ($words)"
    fi
    sed '/\/\/ rejected$/d' "$program" > "$trial/src/main.rt"
    if (cd "$trial" && rt check) > "$work/log" 2>&1; then
        echo "$name, mended: proved"
    else
        echo "$name, mended: NOT PROVED"
        tail -n 5 "$work/log"
        failed=1
    fi
done
exit $failed
