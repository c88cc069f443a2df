#!/usr/bin/env bash
# Speed and memory of `save` and `resume`: bench/resume.sh [PROGRAM] (without it, the program that ./avrora builds).
# Each network is cut after its first epoch of 262,144 cycles. For the fastest of five runs it prints the processor time
# in user mode that the cycles after the cut take with `resume`, and with `run --plain` (the whole run less `head`), and
# how many times as long that is. If valgrind is installed, it prints the same in host instructions; from `resume` it
# takes off what it takes to read the state and to run one cycle on. Then it prints what a state of 64 nodes takes to
# write and to read, what large and hostile texts take, and the memory of long runs.
. "$(dirname "$0")/help.sh"
set -eu
epoch=262144
. "$(dirname "$0")/program.sh"
cp "$top"/bench/ring.hex "$top"/bench/sleep.hex "$top"/bench/make0/* "$work"
cd "$work"

# fastest WORD ..: the seconds in user mode and the KiB at most of the fastest of five runs with these words.
fastest() {
    local best= seconds kib
    for _ in 1 2 3 4 5; do
        /usr/bin/env time -q -o time -f '%U %M' "$program" "$@" >out 2>err || true
        read -r seconds kib <time
        if [ -z "$best" ] || awk "BEGIN { exit !($seconds < $best) }"; then best=$seconds; fi
    done
    echo "$best $kib"
}

counted() {
    valgrind --tool=callgrind --callgrind-out-file=/dev/null "$program" "$@" 2>&1 >/dev/null | awk '/Collected/ { print $4 }'
}

# report NAME FILE
report() {
    local whole head rest kib
    "$program" save "$2" 1 >state
    read -r whole kib < <(fastest run --plain "$2")
    read -r head kib < <(fastest head "$2" 1)
    read -r rest kib < <(fastest resume "$2" state)
    awk -v n="$1" -v w="$whole" -v h="$head" -v r="$rest" -v k="$kib" 'BEGIN {
        p = w - h; if (p < 0.01) p = 0.01
        printf "%s: resume %.2f s, run --plain %.2f s, %.2f times as long, %d KiB at most\n", n, r, p, r / p, k }'
}

# host NAME FILE: the same, by host instructions.
host() {
    "$program" save "$2" 1 >state
    sed "s/^cycles.*/cycles = $((epoch + 1))/" "$2" >one.toml
    awk -v n="$1" -v w="$(counted run --plain "$2")" -v h="$(counted head "$2" 1)" -v r="$(counted resume "$2" state)" \
        -v s="$(counted resume one.toml state)" 'BEGIN {
        printf "%s: %.2f times as many host instructions, and %d to begin\n", n, (r - s) / (w - h), s }'
}

# networks MOST: their files, of so many cycles of nodes.
networks() {
    network 8 ring $(($1 / 8 + epoch)) >ring8.toml
    network 64 ring $(($1 / 64 + epoch)) >ring64.toml
    network 8 ring $(($1 / 8 + epoch)) "latency = 100" "byte_time = 256" >ring8_100.toml
    network 8 ring $(($1 / 8 + epoch)) "latency = 1" "byte_time = 256" >ring8_1.toml
    sed "s/^cycles.*/cycles = $(($1 / 8 + epoch))/" make0.toml >made.toml
    network 64 sleep $(($1 / 8 + epoch)) >sleep64.toml
    # A byte is heard on one link at once, and kept for long for the sake of another.
    network 64 ring $(($1 / 64 + epoch)) "version = 2" "latency = 1" "byte_time = 256" >far64.toml
    printf 'latency = 65535\n' >>far64.toml
}

all() {
    "$1" "ring of 8, latency 3,072" ring8.toml
    "$1" "ring of 64, latency 3,072" ring64.toml
    "$1" "ring of 8, latency 100, byte time 256" ring8_100.toml
    "$1" "ring of 8, latency 1, byte time 256" ring8_1.toml
    "$1" "the network of make 0" made.toml
    "$1" "64 nodes asleep but for a timer" sleep64.toml
    "$1" "ring of 64, latency 1, and of one link 65,535" far64.toml
}

networks 40000000
all report
if command -v valgrind >/dev/null; then
    networks 2000000
    all host
fi

# A state of 64 nodes, written and read: a run of no more than the first epoch, and of one cycle behind it.
network 64 ring $((epoch + 1)) >cut.toml
"$program" save cut.toml 1 >state
read -r head _ < <(fastest head cut.toml 1)
read -r save _ < <(fastest save cut.toml 1)
read -r read kib < <(fastest resume cut.toml state)
echo "a state of 64 nodes, $(wc -c <state) bytes: run to it $head s, with its text $save s, read and run one cycle on in $read s, $kib KiB at most"

# Texts of 4 MiB: lines of nothing, one number, many numbers, and a state with as many sends as there is room for.
head -c 4194304 </dev/zero | tr '\0' '\n' >lines.state
{ printf 'avrora state 1\ncycle '; head -c 4194282 </dev/zero | tr '\0' 1; echo; } >number.state
{ printf 'avrora state 1\ncycle %d\ncore 0' $epoch; yes ' 1' | tr -d '\n' | head -c 4194260; echo; } >numbers.state 2>/dev/null
{ grep -v '^send\|^end' state; awk -v e=$epoch 'BEGIN { for (t = e - 6142; t < e; t++) for (k = 0; k < 64; k++) print "send " k, t, "55" }' | head -n 200000; echo end; } >sends.state 2>/dev/null
for name in lines number numbers sends; do
    read -r seconds kib < <(fastest resume cut.toml $name.state)
    echo "$name, $(wc -c <$name.state) bytes: $seconds s, $kib KiB at most; $(head -c 80 err)"
done

# The memory of a run does not grow with its cycles.
for cycles in 2000000 100000000; do
    network 2 ring $cycles >long.toml
    "$program" save long.toml 1 >state
    /usr/bin/env time -o time -f '%U %M' "$program" resume long.toml state >/dev/null
    read -r seconds kib <time
    echo "ring, 2 nodes, $cycles cycles: $seconds s, $kib KiB at most"
done
