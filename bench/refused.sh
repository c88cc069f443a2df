#!/usr/bin/env bash
# Runs by threads where the system refuses some of them, or all: bench/refused.sh [PROGRAM] (without it, the program
# that ./avrora builds). The runs are those of the user nobody, with room for 1, 2, 3, 5, 9 and 64 processes and threads
# in all, with little stack, and with an address space for few stacks of threads. Each must write what a run on one
# thread writes. In a small address space it may end out of memory, with status 6 and a prefix of that. The script needs
# root, for setpriv.
. "$(dirname "$0")/help.sh"
set -eu
. "$(dirname "$0")/program.sh"
cp "$program" "$work/program"
cp "$top"/examples/*.hex "$top"/examples/*.toml "$top"/bench/make0/* "$top"/bench/ring.hex "$work"
chmod -R a+rX "$work"
cd "$work"
network 64 ring 20000 "latency = 1" "byte_time = 256" >ring64.toml

# limited MOST WORD ..: a run with these words where so many processes and threads are allowed.
limited() {
    local most=$1
    shift
    setpriv --reuid 65534 --regid 65534 --clear-groups prlimit --nproc="$most" ./program "$@"
}

for scenario in relay.toml flood.toml make0.toml ring64.toml; do
    ./program run --plain "$scenario" >plain.out
    for most in 1 2 3 5 9 64; do
        limited "$most" run "$scenario" >limited.out
        cmp plain.out limited.out
    done
    for stack in 1024 2048; do
        (ulimit -s "$stack" && ./program run "$scenario" >limited.out)
        cmp plain.out limited.out
    done
    short=0
    for space in 50000 100000 200000 400000; do
        status=0
        (ulimit -v "$space" && ./program run "$scenario" >limited.out 2>limited.err) || status=$?
        if [ "$status" = 6 ]; then
            # the stacks left too little for the rest: a prefix of what is due
            cmp -n "$(stat -c %s limited.out)" plain.out limited.out
            short=$((short + 1))
        else
            [ "$status" = 0 ]
            cmp plain.out limited.out
        fi
    done
    [ "$short" -lt 4 ]
    echo "$scenario: the same with 1, 2, 3, 5, 9 and 64 threads allowed, with 1 and 2 MB of stack, and with 50 to 400 MB of addresses, $short of 4 out of memory"
done
