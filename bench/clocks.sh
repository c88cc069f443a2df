#!/usr/bin/env bash
# What a call on the clock words costs on one thread: bench/clocks.sh [COUNT] (100,000,000 calls if not given). For each
# of the three calls the program makes that many in a loop, five times; the fastest run's processor time is printed for
# one call, the loop around it included.
. "$(dirname "$0")/help.sh"
set -eu
top=$(cd "$(dirname "$0")/.." && pwd)
count=${1:-100000000}
crate=$top/crates/command_facts
program=$crate/out/command_facts
work=$(mktemp -d)
trap 'rm -rf "$work"' EXIT
# The gate leaves the program there.
[ -x "$program" ] || (cd "$crate" && rt run -- trials=load:1 >/dev/null)

for call in load peek raise; do
    best=
    for _ in 1 2 3 4 5; do
        { /usr/bin/env time -f '%U' "$program" "trials=$call:$count" >/dev/null; } 2>"$work/time"
        read -r seconds <"$work/time"
        if [ -z "$best" ] || awk "BEGIN { exit !($seconds < $best) }"; then best=$seconds; fi
    done
    awk -v c="$count" -v s="$best" -v n="$call" 'BEGIN { printf "%s: %.2f ns a call\n", n, s / c * 1e9 }'
done
