#!/usr/bin/env bash
# Speed and memory of `monitor` and `sniff`: bench/watch.sh [PROGRAM] (without it, the program that ./avrora builds). It
# runs each call five times; of the fastest it prints the processor time in user mode and in the system, and KiB at
# most.
. "$(dirname "$0")/help.sh"
set -eu
. "$(dirname "$0")/program.sh"
cp "$top"/bench/mixed.hex "$top"/bench/registers.hex "$work"
python3 "$top/bench/network/watch.py" image >"$work/frames.hex"
cd "$work"

# report NAME WORD ..: the fastest of five runs with these words.
report() {
    local name=$1 best= user system kib lines
    shift
    for _ in 1 2 3 4 5; do
        /usr/bin/env time -o time -f '%U %S %M' "$program" "$@" >lines
        read -r user system kib <time
        if [ -z "$best" ] || awk "BEGIN { exit !($user + $system < $best) }"; then best=$(awk "BEGIN { print $user + $system }"); fi
    done
    lines=$(wc -l <lines)
    echo "$name: $lines lines in $best s, $kib KiB at most"
}

# A window of 20,000 cycles with 64 nodes that execute in all of them.
for image in mixed registers; do
    network 64 $image 20000 "window = [0, 20000]" >window.toml
    report "$image, 64 nodes, 20,000 cycles, run --plain" run --plain window.toml
    report "the same, monitor" monitor window.toml
done
network 64 mixed 1000000 "window = [0, 20000]" >long.toml
report "mixed, 64 nodes, 1,000,000 cycles, run --plain" run --plain long.toml
report "the same, monitor" monitor long.toml

# Frames of two nodes that send without end.
for cycles in 1000000 100000000; do
    network 2 frames $cycles "byte_time = 512" >frames.toml
    report "frames, 2 nodes, $cycles cycles, run --plain" run --plain frames.toml
    report "the same, sniff" sniff frames.toml
done
