#!/usr/bin/env bash
# What threads gain: bench/threads.sh [PROGRAM [BUSY]] (without it, the program that ./avrora builds), with so many
# programs beside it that only reckon. Each network is run seven times, in turns, with `run --plain`, with `run`, and as
# a yardstick as many times with `run --plain` at once as there are processors. It prints the medians of the time on the
# wall, and how many times as fast the run by threads is. It prints how many times as much the yardstick gets done in a
# time, and what part of that the threads get. It prints the medians of the processor time of `run --plain` and of
# `run`. With strace it counts in one run by threads how often a node slept at a sample until another was far enough,
# how often a thread slept at the lock of the record, and the threads begun. It counts the samples, and compares the
# traces.
. "$(dirname "$0")/help.sh"
set -eu -o pipefail
. "$(dirname "$0")/program.sh"
cp "$top"/bench/ring.hex "$top"/bench/mixed.hex "$top"/bench/sleep.hex "$top"/bench/network/net.hex "$top"/bench/make0/* "$top"/examples/flood.hex "$work"
cd "$work"
turns=7
# as where the launcher starts a run
. <(sed -n '/^keep_stacks() {/,/^}/p' "$top/scripts/launcher.sh")
keep_stacks
cores=$(nproc)
for ((k = 0; k < ${2:-0}; k++)); do (while :; do :; done) & done
trap 'kill $(jobs -p) 2>/dev/null; rm -rf "$work"' EXIT

# since BEGAN: the microseconds since then.
since() { echo $((($(date +%s%N) - $1) / 1000)); }

# timed OUT WORD ..: a line with the seconds on the wall, of the user and of the system that a run with these words takes.
timed() {
    local out=$1 TIMEFORMAT='%3R %3U %3S'
    shift
    { time "$program" "$@" >"$out" 2>&3; } 3>&2 2>&1
}

# wall FILE, used FILE: the medians of the seconds on the wall and of processor time, of lines of `timed`.
wall() { awk '{ print $1 }' "$1" | median; }
used() { awk '{ print $2 + $3 }' "$1" | median; }

# at_once FILE: the microseconds on the wall of as many plain runs as there are processors, side by side.
at_once() {
    local began k
    began=$(date +%s%N)
    local runs=()
    for ((k = 0; k < cores; k++)); do
        "$program" run --plain "$1" >"side$k.out" &
        runs+=($!)
    done
    wait "${runs[@]}"
    since "$began"
}

# median: of the numbers in the input, a line each.
median() { sort -n | sed -n "$((turns / 2 + 1))p"; }

# sleeps FILE: of a run by threads the sleeps at samples, those at the lock, and the threads begun; a `-` for each where
# strace is missing. At a sample a node sleeps for less than a second at a time. A thread at the lock sleeps without an
# end, on a word that is 2 while somebody sleeps there. A call that came too late (EAGAIN) slept for no time.
sleeps() {
    if ! command -v strace >/dev/null || ! strace -f -e trace=futex,clone,clone3 -o calls.txt "$program" run "$1" >/dev/null 2>&1; then
        echo - - -
        return
    fi
    awk '/= -1 EAGAIN/ { next }
        /FUTEX_WAIT_PRIVATE, [0-9]+, \{tv_sec=0,/ { waits++ }
        /FUTEX_WAIT_PRIVATE, 2, (NULL|\{tv_sec=[1-9])/ { lock++ }
        / clone3?\(/ { begun++ }
        END { print waits + 0, lock + 0, begun + 0 }' calls.txt
}

# report NAME FILE
report() {
    : >plain.s; : >threads.s; : >side.us
    local k waits lock begun
    for ((k = 0; k < turns; k++)); do
        timed plain.out run --plain "$2" >>plain.s
        timed threads.out run "$2" >>threads.s
        at_once "$2" >>side.us
        cmp plain.out threads.out
    done
    read -r waits lock begun < <(sleeps "$2")
    awk -v n="$1" -v p="$(wall plain.s)" -v t="$(wall threads.s)" -v s="$(median <side.us)" -v m="$cores" \
        -v q="$(used plain.s)" -v u="$(used threads.s)" -v r="$(wc -l <plain.out)" \
        -v w="$waits" -v l="$lock" -v b="$begun" -v a="$(grep -c ' heard ' plain.out || :)" 'BEGIN {
        printf "%s: one thread %.3f s, a thread a node %.3f s, %.2f times as fast, ", n, p, t, p / t
        printf "yardstick %.2f, part %.2f, ", m * p * 1e6 / s, s / (m * t * 1e6)
        printf "processors %.3f s and %.3f s, %.2f times as much, ", q, u, u / q
        printf "%s sleeps at samples, %s at the lock, %s threads begun, %d samples, %d rows\n", w, l, b, a, r }'
}

echo "$cores processors, ${2:-0} busy programs beside, load $(cut -d' ' -f1 /proc/loadavg)"
network 8 mixed 5000000 "latency = 3072" "byte_time = 3072" >apart.toml
report "8 nodes that do not use the radio" apart.toml
network 8 ring 5000000 "latency = 3072" "byte_time = 3072" >ring8.toml
report "ring of 8, latency 3,072" ring8.toml
network 64 ring 2400000 "latency = 3072" "byte_time = 3072" >ring64.toml
report "ring of 64, latency 3,072" ring64.toml
sed 's/^cycles.*/cycles = 5000000/' make0.toml >make5.toml
report "make 0, five times as long" make5.toml
# It sleeps between its samples.
network 8 flood 10000000 "latency = 300" "byte_time = 1024" >flood8.toml
report "ring of 8 with the program of flood" flood8.toml
network 8 ring 2000000 "latency = 1" "byte_time = 256" >close8.toml
report "ring of 8, latency 1, byte time 256" close8.toml
network 64 ring 1200000 "latency = 1" "byte_time = 256" >close64.toml
report "ring of 64, latency 1, byte time 256" close64.toml
network 8 sleep 100000000 "latency = 3072" "byte_time = 3072" >sleep8.toml
report "8 nodes asleep but for a timer, 100 million cycles" sleep8.toml
network 64 sleep 20000000 "latency = 3072" "byte_time = 3072" >sleep64.toml
report "64 nodes asleep but for a timer, 20 million cycles" sleep64.toml
