#!/usr/bin/env bash
# bench/image.sh [ROUNDS]: opening and listing a large image with inspect, against sha256sum of the same file.
# The rounds of both alternate in one run, and the best of each counts. Wanted: a ratio below 1.
set -euo pipefail

rounds=${1:-10}
root=$(cd "$(dirname "${BASH_SOURCE[0]}")/.." && pwd)
"$root/tools/run" inspect --help > /dev/null
inspect=$root/target/bin/inspect
folder=$(mktemp -d)
trap 'rm -rf "$folder"' EXIT

# the microseconds that a command takes
elapsed() {
    local start=$EPOCHREALTIME end
    "$@" > /dev/null
    end=$EPOCHREALTIME
    echo $((${end/./} - ${start/./}))
}

# compare LABEL FILE: the best times of both, and their ratio
compare() {
    local label=$1 image=$2 ours=999999999 theirs=999999999 time i
    for ((i = 0; i < rounds; i++)); do
        time=$(elapsed "$inspect" --strict "$image")
        ((time >= ours)) || ours=$time
        time=$(elapsed sha256sum "$image")
        ((time >= theirs)) || theirs=$time
    done
    printf '%-8s %9d bytes   inspect %6d us   sha256sum %6d us   ratio %d.%02d\n' "$label" "$(stat -c %s "$image")" \
        "$ours" "$theirs" $((ours / theirs)) $((ours * 100 / theirs % 100))
}

for label in full nested; do
    "$root/tools/make_images.py" "$label" "$folder/$label.img"
    compare "$label" "$folder/$label.img"
done
