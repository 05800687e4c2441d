#!/usr/bin/env bash
# Times waterbook beside the second engine on two million records, best of several runs in turn, with peak memory and
# instructions a record where /usr/bin/time and valgrind are at hand.
#   tools/bench.sh [RUNS]      after 'rt run' in crates/waterbook; nine runs where no number is given
set -euo pipefail
cd "$(dirname "$0")/.."
runs=${1:-9}
waterbook=$PWD/crates/waterbook/out/waterbook
work=$(mktemp -d)
trap 'rm -rf "$work"' EXIT
rustc -O -o "$work/engine" tools/engine/engine.rs
cp crates/waterbook/data/card.dat "$work/"
python3 - "$work" <<'PY'
import random, struct, sys
random.seed(5)
def feed(hours):
    out = bytearray()
    for hour in range(hours):
        depth = random.randrange(60_000) if hour % 24 < 8 else 0
        out += b"R\0\0\0" + struct.pack("<II", depth, 1_500) + bytes(4)
        out += (b"C" if hour % 720 == 719 else b"T") + bytes(15)
    return out
open(sys.argv[1] + "/feed", "wb").write(feed(1_000_000))
open(sys.argv[1] + "/short", "wb").write(feed(20_000))
PY
cd "$work"
python3 - "$waterbook" ./engine "$runs" <<'PY'
import os, resource, subprocess, sys, time
programs, runs = sys.argv[1:3], int(sys.argv[3])
best = {p: 9e9 for p in programs}
for _ in range(runs):
    for p in programs:
        with open("feed", "rb") as feed, open(os.path.basename(p) + ".out", "wb") as out:
            before = resource.getrusage(resource.RUSAGE_CHILDREN)
            subprocess.run([p], stdin=feed, stdout=out, check=True)
            after = resource.getrusage(resource.RUSAGE_CHILDREN)
        best[p] = min(best[p], after.ru_utime + after.ru_stime - before.ru_utime - before.ru_stime)
for p in programs:
    print(f"{os.path.basename(p)}: {best[p]:.3f} s for 2,000,000 records, {best[p] * 500:.0f} ns a record")
print(f"ratio {best[programs[0]] / best[programs[1]]:.2f}")
PY
cmp waterbook.out engine.out
if [ -x /usr/bin/time ]; then
    for program in "$waterbook" ./engine; do
        /usr/bin/time -f "$(basename "$program"): peak memory %M KB" "$program" < feed > /dev/null
    done
fi
if command -v valgrind > /dev/null; then
    for program in "$waterbook" ./engine; do
        count=$(valgrind --tool=callgrind --callgrind-out-file=/dev/null "$program" < short 2>&1 > /dev/null | awk '/Collected/ { print $4 }')
        echo "$(basename "$program"): $((count / 40000)) instructions a record"
    done
fi
