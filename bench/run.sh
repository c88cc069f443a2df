#!/usr/bin/env bash
# Simulated cycles per second of one node, and its peak memory: bench/run.sh [CYCLES [PROGRAM]] (50,000,000 if not
# given). It runs PROGRAM, or the one that ./avrora built, by `run --plain` without a window, forty times for each
# image. It prints the processor time of the fastest run, the start included. If a C compiler, Debian's libsimavr-dev
# and avr-objcopy are installed, each image also runs on simavr after each four of those runs, and the ratio of the
# fastest is printed. This leaves out the images of the radio and of sleep, at which simavr idles by the clock. If
# valgrind is installed, host instructions per AVR instruction follow, counted between 100,000 and 300,000 cycles; they
# hardly vary.
. "$(dirname "$0")/help.sh"
set -eu
top=$(cd "$(dirname "$0")/.." && pwd)
cycles=${1:-50000000}
program=$(realpath "${2:-$top/crates/avrora_program/out/rlib/avrora_program}")
work=$(mktemp -d)
trap 'rm -rf "$work"' EXIT
[ -n "${2:-}" ] || "$top/avrora" node "$top/examples/two.hex" 1 >/dev/null

# report NAME SECONDS COMMAND..: with the peak memory of one run more. A run that is too short for the clock is said to
# take a thousandth of a second at most.
report() {
    name=$1 seconds=$2
    shift 2
    /usr/bin/env time -o "$work/time" -f %M "$@" >/dev/null 2>&1
    awk -v c="$cycles" -v s="$seconds" -v k="$(cat "$work/time")" -v n="$name" 'BEGIN {
        below = s < 0.001 ? "under " : ""; if (s < 0.001) s = 0.001
        printf "%s: %d cycles in %s%.4f s, %s%.1f million cycles a second, %d KiB at most\n", n, c, below, s, below == "" ? "" : "over ", c / s / 1e6, k }'
}

peer=
if cc -O2 -w -o "$work/peer" "$top/bench/peer.c" -lsimavr 2>/dev/null && command -v avr-objcopy >/dev/null; then peer=$work/peer; fi

images="registers mixed floats ticks ticks400 kernel counter uart delay ends ring sleep"
# Programs that nobody looked at while the simulator was made fast.
images="$images sha1 aes crc memcpy list sort matrix printf"
cp "$top"/bench/*.hex "$top"/bench/everyday/*.hex "$work"
cd "$work"
for image in $images; do
    printf 'version = 3\ncycles = %d\nnode = [{ image = "%s.hex" }]\n' "$cycles" "$image" >"$image.toml"
    ours=("$program" run --plain "$image.toml")
    if [ -n "$peer" ] && [ "$image" != ring ] && [ "$image" != sleep ]; then
        avr-objcopy -I ihex -O binary "$image.hex" "$image.bin"
        theirs=("$peer" "$image.bin" "$cycles")
        { read -r first; read -r second; } < <("$top/bench/turns.py" 10 4 "${ours[@]}" -- 1 "${theirs[@]}")
        report "$image" "$first" "${ours[@]}"
        report "simavr, $image" "$second" "${theirs[@]}"
        awk -v o="$first" -v p="$second" 'BEGIN { printf "ratio: %.2f\n", p / (o < 0.001 ? 0.001 : o) }'
    else
        report "$image" "$("$top/bench/turns.py" 10 4 "${ours[@]}")" "${ours[@]}"
    fi
done

# A thousand million cycles of sleep, in runs of ten million, starts of the program included.
start=$(date +%s.%N)
for _ in $(seq 100); do "$program" node "$top/bench/sleep.hex" 10000000 >/dev/null; done
awk -v a="$start" -v b="$(date +%s.%N)" 'BEGIN { printf "sleep: 100 runs of 10000000 cycles in %.2f s\n", b - a }'

# Host instructions of a run, and the AVR instructions that it executed.
count() {
    host=$(valgrind --tool=callgrind --callgrind-out-file=/dev/null "$program" node "$1" "$2" 2>&1 >"$work/rows" | awk '/Collected/ { print $4 }')
    executed=$(awk 'END { print $(NF - 1) }' "$work/rows")
}

if command -v valgrind >/dev/null; then
    for image in $images; do
        count "$image.hex" 100000
        h=$host e=$executed
        count "$image.hex" 300000
        awk -v n="$image" -v h="$((host - h))" -v e="$((executed - e))" 'BEGIN { printf (h < e ? "%s: %.2f" : "%s: %.0f") " host instructions an instruction\n", n, h / e }'
    done
fi
