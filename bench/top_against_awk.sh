#!/usr/bin/env bash
# Times `flame top` against the awk script that people use for the same list, on one generated input, and prints the
# ratio.
#   bench/top_against_awk.sh [MEGABYTES]     (20)
# ./build must have made the program. Not part of the gate.
set -eu
root=$(cd "$(dirname "$0")/.." && pwd)
program=$root/out/flame
[ -x "$program" ] || { echo "first run ./build"; exit 1; }
work=$(mktemp -d)
trap 'rm -rf "$work"' EXIT

python3 - "${1:-20}" >"$work/input.folded" <<'PYTHON'
import random, sys
random.seed(7)
names = ["module_%d.function_%d" % (k % 97, k) for k in range(4000)]
stacks = [";".join(random.choice(names) for _ in range(random.randint(3, 30))) for _ in range(5000)]
left = int(sys.argv[1]) * 1_000_000
while left > 0:
    line = "%s %d\n" % (random.choice(stacks), random.randint(1, 50))
    left -= len(line)
    sys.stdout.write(line)
PYTHON

top_by_awk() {
    awk '{
        weight = $NF; sub(/ [0-9]+$/, ""); count = split($0, frames, ";"); total += weight
        flat[frames[count]] += weight; split("", seen)
        for (k = 1; k <= count; k++) if (!(frames[k] in seen)) { seen[frames[k]]; cumulative[frames[k]] += weight }
    } END {
        print "total", total
        for (name in cumulative) print flat[name] + 0, cumulative[name], name | "LC_ALL=C sort -k1,1nr -k3 | head -n 20"
    }' "$work/input.folded"
}

seconds() {
    local start end
    start=$(date +%s%N)
    "$@" >"$work/out"
    end=$(date +%s%N)
    echo $(((end - start) / 1000000))
}

flame_ms=$(seconds "$program" top <"$work/input.folded"); cp "$work/out" "$work/flame.out"
awk_ms=$(seconds top_by_awk); cmp "$work/out" "$work/flame.out"
echo "$(wc -c <"$work/input.folded") bytes: flame $flame_ms ms, awk $awk_ms ms, the same list"
awk -v f="$flame_ms" -v a="$awk_ms" 'BEGIN { printf "ratio of flame to awk: %.2f\n", f / a }'
