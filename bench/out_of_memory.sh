#!/usr/bin/env bash
# Runs by threads that memory does not suffice for: bench/out_of_memory.sh [PROGRAM] (without it, the program that
# ./avrora builds). The network of eight nodes of bench/make0 runs with a window of 20,000 cycles, once in its first
# epoch and once in its second, 25 times each, with 4 to 64 MB of addresses in all. Wherever an allocation fails, also
# in a node while others wait for it, the run must end within ten seconds. It ends with status 6, the line `avrora: out
# of memory` and a prefix of what is due, or with status 0 and all of it. At least ten runs of each kind must end out of
# memory, and at least one of the second kind with rows written. It takes some seconds. Exit status: 0 all did, 1 one
# did not, 2 bad words.
set -eu
case ${1:-} in
--help | -h) sed -n '2,/^set/{/^set/d;s/^# \{0,1\}//;p}' "$0" && exit 0 ;;
-*) echo "bench/out_of_memory.sh: $1 is no program" >&2 && exit 2 ;;
esac
. "$(dirname "$0")/program.sh"
program=$(realpath "$program")
cp "$top"/bench/make0/* "$work"
cd "$work"

# tell TEXT: what went wrong, and the end.
tell() {
    echo "bench/out_of_memory.sh: $1" >&2
    exit 1
}

# starved SPACE: how the run of net.toml ended with so many kilobytes of addresses: `short`, `rows` where it wrote some, or `all`.
starved() {
    local status=0
    (ulimit -v "$1" && exec timeout -k 1 10 "$program" run net.toml >net.out 2>net.err) || status=$?
    cmp -s -n "$(stat -c %s net.out)" due.out net.out || tell "with $1 KB the output is no prefix of what is due"
    case $status in
    0)
        cmp -s due.out net.out || tell "with $1 KB the status is 0 and rows are missing"
        echo all
        ;;
    6)
        [ "$(cat net.err)" = "avrora: out of memory" ] || tell "with $1 KB the line is $(cat net.err)"
        if [ -s net.out ]; then echo rows; else echo short; fi
        ;;
    124 | 137) tell "with $1 KB the run did not end" ;;
    *) tell "with $1 KB the status is $status" ;;
    esac
}

for from in 100000 300000; do
    sed "1a window = [$from, $((from + 20000))]" make0.toml >net.toml
    "$program" run --plain net.toml >due.out
    ended=$(for step in $(seq 0 24); do starved $((4000 + 2500 * step)); done)
    short=$(grep -c -v all <<<"$ended" || true)
    rows=$(grep -c rows <<<"$ended" || true)
    [ "$short" -ge 10 ] || tell "only $short of 25 runs ended for want of memory"
    [ "$from" = 100000 ] || [ "$rows" -ge 1 ] || tell "no run ended for want of memory behind its first epoch"
    echo "window from $from: $short of 25 runs out of memory, $rows of them behind their first epoch; the others whole"
done
