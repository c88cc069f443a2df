#!/usr/bin/env bash
# What a sample costs over a long record: bench/air.sh [SAMPLES] (2,000,000 if not given). 64 nodes that each hear four
# others have sent 50, 500 and 5,000 bytes each; the samples are taken at the newest sends and drawn over the record.
# The processor time of the run without a sample is taken off; the fastest of three.
. "$(dirname "$0")/help.sh"
set -eu
top=$(cd "$(dirname "$0")/.." && pwd)
samples=${1:-2000000}
crate=$top/crates/command_facts
program=$crate/out/command_facts
work=$(mktemp -d)
trap 'rm -rf "$work"' EXIT
# The gate leaves the program there.
[ -x "$program" ] || (cd "$crate" && rt run -- trials=all:10:1000 >/dev/null)

# The least processor time of three runs, in seconds.
least() {
    best=
    for _ in 1 2 3; do
        { /usr/bin/env time -f '%U' "$program" "trials=$1" >/dev/null; } 2>"$work/time"
        read -r seconds <"$work/time"
        if [ -z "$best" ] || awk "BEGIN { exit !($seconds < $best) }"; then best=$seconds; fi
    done
    echo "$best"
}

for sends in 50 500 5000; do
    start=$(least "front:$sends:0")
    for where in front all; do
        took=$(least "$where:$sends:$samples")
        awk -v n="$sends" -v w="$where" -v t="$took" -v s="$start" -v c="$samples" \
            'BEGIN { d = t - s; printf "%d sends a node, %s: %.0f ns a sample, %.1f million a second\n", n, w, d / c * 1e9, c / d / 1e6 }'
    done
done
