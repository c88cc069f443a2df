#!/usr/bin/env bash
# Speed and memory of whole networks on one thread: bench/networks.sh [PROGRAM] (without it, the program that ./avrora
# builds). It makes scenarios over the images of bench/ and runs each five times with `run --plain`. For the fastest run
# it prints the processor time in user mode, node cycles and rows per second of that time, and the most KiB. The first
# line is `node` over as many cycles as each network's nodes have together.
. "$(dirname "$0")/help.sh"
set -eu
. "$(dirname "$0")/program.sh"
cp "$top"/bench/ring.hex "$top"/bench/sleep.hex "$top"/bench/registers.hex "$work"
cd "$work"

# report NAME NODE_CYCLES WORD ..: the fastest of five runs with these words.
report() {
    local name=$1 cycles=$2 best= seconds kib rows
    shift 2
    for _ in 1 2 3 4 5; do
        /usr/bin/env time -o time -f '%U %M' "$program" "$@" >rows
        read -r seconds kib <time
        if [ -z "$best" ] || awk "BEGIN { exit !($seconds < $best) }"; then best=$seconds; fi
    done
    rows=$(wc -l <rows)
    awk -v n="$name" -v c="$cycles" -v s="$best" -v k="$kib" -v r="$rows" 'BEGIN {
        below = s < 0.01 ? "under " : ""; if (s < 0.01) s = 0.01
        printf "%s: %d cycles of nodes and %d rows in %s%.2f s: %.1f million cycles and %.2f million rows a second, %d KiB at most\n", n, c, r, below, s, c / s / 1e6, r / s / 1e6, k }'
}

report "ring, a node alone" 10000000 node ring.hex 10000000
network 8 ring 1250000 "window = [0, 0]" >ring8.toml
report "ring, 8 nodes" 10000000 run --plain ring8.toml
network 64 ring 156250 "window = [0, 0]" >ring64.toml
report "ring, 64 nodes" 10000000 run --plain ring64.toml
report "sleep, a node alone" 10000000 node sleep.hex 10000000
network 64 sleep 10000000 "window = [0, 0]" >sleep64.toml
report "sleep, 64 nodes" 640000000 run --plain sleep64.toml

# The sample of number 0, and the same network by its files.
report "make 0" 8000000 make 0
cp "$top"/bench/make0/* .
report "the network of make 0" 8000000 run --plain make0.toml

# The memory of a run does not grow with its cycles.
network 2 ring 5000000 "window = [0, 0]" >short.toml
report "ring, 2 nodes, 10^7 cycles" 10000000 run --plain short.toml
network 2 ring 50000000 "window = [0, 0]" >long.toml
report "ring, 2 nodes, 10^8 cycles" 100000000 run --plain long.toml

# A million rows, each of an instruction.
network 64 registers 20000 "window = [0, 20000]" >traced.toml
report "a row an instruction, 64 nodes" 1280000 run --plain traced.toml
network 64 registers 20000 "window = [0, 0]" >silent.toml
report "the same without them" 1280000 run --plain silent.toml
