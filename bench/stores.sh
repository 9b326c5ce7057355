#!/usr/bin/env bash
# bench/stores.sh [ROUNDS]: times the proved stores and whole exchanges (crates/bench) against the same in plain Rust (bench/plain.rs).
# The rounds of both alternate in one run, and the best of each row counts. It is not part of the gate.
set -euo pipefail
cd "$(dirname "${BASH_SOURCE[0]}")/.."
rounds=${1:-5}
room=$(mktemp -d)
trap 'rm -rf "$room"' EXIT

echo "building bench/plain.rs" >&2
rustc -O --edition 2021 bench/plain.rs -o "$room/plain"
tools/run bench >/dev/null
for round in $(seq "$rounds"); do
    echo "round $round of $rounds" >&2
    target/bin/bench >>"$room/proved.txt"
    "$room/plain" >>"$room/plain.txt"
done

awk -F '\t' '
    { time = $3 / $2 }
    FNR == NR { if (!($1 in plain) || time < plain[$1]) plain[$1] = time; if (!($1 in place)) { place[$1] = ++rows; name[rows] = $1 } next }
    { if (!($1 in proved) || time < proved[$1]) proved[$1] = time }
    END {
        printf "%-36s %12s %12s %7s\n", "row (nanoseconds an operation)", "proved", "plain", "ratio"
        for (k = 1; k <= rows; k++) {
            n = name[k]
            if (n in proved) printf "%-36s %12.1f %12.1f %7.2f\n", n, proved[n], plain[n], proved[n] / plain[n]
            else printf "%-36s %12s %12.1f\n", n, "", plain[n]
        }
        if ("GetObject 32768" in proved) printf "\nGetObject of 32,768 bytes takes %.2f times as long as copying them once.\n", proved["GetObject 32768"] / plain["memcpy 32768"]
    }' "$room/plain.txt" "$room/proved.txt"
