#!/usr/bin/env bash
# What a post and a sample cost through the lock: bench/shared.sh [ROUNDS] (2,000 if not given). In each round node 0
# posts 1,000 bytes on a new air, raising its clock past each, and node 1 takes 1,000 samples of them: first on one
# thread, one node after the other, then on two threads at once. The fastest of five by the clock on the wall, with what
# a run of no rounds takes taken off; the opening of each air is part of its posts.
. "$(dirname "$0")/help.sh"
set -eu
top=$(cd "$(dirname "$0")/.." && pwd)
rounds=${1:-2000}
crate=$top/crates/command_facts
program=$crate/out/command_facts
work=$(mktemp -d)
trap 'rm -rf "$work"' EXIT
# The gate leaves the program there.
[ -x "$program" ] || (cd "$crate" && rt run -- trials=both:1 >/dev/null)

# The least time of five runs, in seconds.
least() {
    best=
    for _ in 1 2 3 4 5; do
        { /usr/bin/env time -f '%e' "$program" "trials=$1" >/dev/null; } 2>"$work/time"
        read -r seconds <"$work/time"
        if [ -z "$best" ] || awk "BEGIN { exit !($seconds < $best) }"; then best=$seconds; fi
    done
    echo "$best"
}

start=$(least post:0)
post=$(least "post:$rounds")
sample=$(least "sample:$rounds")
both=$(least "both:$rounds")
awk -v r="$rounds" -v a="$start" -v p="$post" -v s="$sample" -v b="$both" 'BEGIN {
    n = r * 1000; post = (p - a) / n * 1e9; sample = (s - p) / n * 1e9; both = (b - a) / n * 1e9
    printf "one thread: %.0f ns a post with its raise, %.1f million a second\n", post, 1e3 / post
    printf "one thread: %.0f ns a sample, %.1f million a second\n", sample, 1e3 / sample
    printf "two threads over one link: %.0f ns a post and a sample side by side, %.1f times the two one after another, %.1f times the dearer of them\n", both, both / (post + sample), both / (post > sample ? post : sample)
}'
