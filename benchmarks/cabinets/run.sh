#!/bin/bash
# Proves and builds the load on cabinets, builds the independent cabinets beside it, compares what both print and times them.
set -eu
cd "$(dirname "$0")/../.."
slots=${1:-2000000}
mkdir -p target
(cd crates/load && rt run -- 1 latest) > target/load.out 2>&1 || { cat target/load.out; exit 1; }
load=crates/load/out/load
rustc --edition 2021 -C opt-level=3 -C panic=abort -o target/cabinets benchmarks/cabinets/main.rs
cmp <("$load" "$slots" latest gathering prompt) <(target/cabinets "$slots" latest gathering prompt)
echo "both print the same for $slots slots"

# Median processor time, in seconds, of nine runs of each; the two take turns.
TIMEFORMAT=%U
echo "| kind | proved, s | independent, s | ratio |"
echo "|---|---|---|---|"
for kind in latest gathering prompt; do
    : > target/proved.times
    : > target/independent.times
    for _ in 1 2 3 4 5 6 7 8 9; do
        { time "$load" "$slots" "$kind" > /dev/null; } 2>> target/proved.times
        { time target/cabinets "$slots" "$kind" > /dev/null; } 2>> target/independent.times
    done
    proved=$(sort -n target/proved.times | sed -n 5p)
    independent=$(sort -n target/independent.times | sed -n 5p)
    awk -v k="$kind" -v a="$proved" -v b="$independent" 'BEGIN { printf "| %s | %s | %s | %.2f |\n", k, a, b, a / b }'
done
