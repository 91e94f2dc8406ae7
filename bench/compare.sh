#!/bin/sh
# Proves and builds the program `bench`, builds its counterpart in plain Rust, runs both in turn, and prints of each line the answer's
# agreement, both best times and their ratio. It needs rt and rustc.
# usage: bench/compare.sh [TURNS]
set -eu
cd "$(dirname "$0")/.."
turns=${1:-30}
work=$(mktemp -d)
trap 'rm -rf "$work"' EXIT

(cd crates/bench && rt run >"$work/log" 2>&1) || { cat "$work/log"; exit 1; }
rustc --edition 2021 -C opt-level=3 -C codegen-units=1 -o "$work/rust" bench/rust/bench.rs

for round in 1 2 3; do
    crates/bench/out/bench "$turns" >>"$work/ours"
    "$work/rust" "$turns" >>"$work/theirs"
done

# A line is NAME: ANSWER ns TIME. A name that ends in ', bare' is compared with ours of the name before that.
awk -F': | ns ' '
    NR == FNR { answer[$1] = $2; if (!($1 in ours) || $3 < ours[$1]) ours[$1] = $3; next }
    !($1 in theirs) { name[++lines] = $1; theirs[$1] = $3; said[$1] = $2 }
    $3 < theirs[$1] { theirs[$1] = $3 }
    END {
        printf "%-34s %12s %12s %7s\n", "", "ours, us", "Rust, us", "ratio"
        for (i = 1; i <= lines; i++) {
            n = name[i]; m = n; sub(/, bare$/, "", m)
            same = answer[m] == said[n]
            if (!same) differ = 1
            printf "%-34s %12.1f %12.1f %7.2f%s\n", n, ours[m] / 1000, theirs[n] / 1000, ours[m] / theirs[n], same ? "" : "  ANSWERS DIFFER"
        }
        exit differ
    }
' "$work/ours" "$work/theirs"
