#!/usr/bin/env bash
# What happens when the system fails: bench/faults.sh [PROGRAM] (without it, the program that ./avrora builds). It runs
# the program with memory refused at each allocation in turn, with outputs that are full or closed, with files that are
# none, and with texts of the greatest length and one byte more. It compares status, error stream and output with
# docs/FAULTS.md. The gate cannot hold this, as it needs devices, pipes and a C compiler. It prints a line for each
# check; its exit status is 1 if one failed.
. "$(dirname "$0")/help.sh"
set -u
top=$(cd "$(dirname "$0")/.." && pwd)
program=${1:-$top/crates/avrora_program/out/rlib/avrora_program}
[ -n "${1:-}" ] || "$top/avrora" node "$top/examples/two.hex" 1 >/dev/null
program=$(realpath "$program")
work=$(mktemp -d)
trap 'rm -rf "$work"' EXIT
cc -O2 -shared -fPIC -o "$work/fail_alloc.so" "$top/bench/fail_alloc.c" -ldl || exit 2
cp "$top/crates/command_facts/data/two.trace" "$work"
cd "$work" || exit 2
failed=0

# The two nodes of the case file faults.txt, and what it has for `monitor` and `sniff`.
awk '/^file /{ name = $2 } /^\|/ && name ~ /^((a|b|loop|frame)\.hex|(two|node|frames)\.toml|node\.profile|frames\.lines)$/ { print substr($0, 2) > name }' \
    "$top/crates/command_facts/data/faults.txt"

tell() {
    echo "$1: $2"
    [ "$1" = ok ] || failed=1
}

# Whether file $1 is a front of file $2.
is_front() {
    cmp -s -n "$(stat -c %s "$1")" "$1" "$2" && [ "$(stat -c %s "$1")" -le "$(stat -c %s "$2")" ]
}

# expect NAME STATUS LINE DUE WORD ..: a run with these words. DUE is the file with the output, or - where there is none.
expect() {
    local name=$1 status=$2 line=$3 due=$4 got
    shift 4
    timeout 60 "$program" "$@" >out 2>err
    got=$?
    if [ "$due" = - ]; then : >due; else cp "$due" due; fi
    if [ $got -eq "$status" ] && [ "$(cat err)" = "$line" ] && cmp -s out due; then
        tell ok "$name"
    else
        tell WRONG "$name: status $got, $(cat err), $(stat -c %s out) bytes"
    fi
}

# refuse NAME DUE WORD ..: each allocation of a run fails in turn, until there is none of the number.
refuse() {
    local name=$1 due=$2 number=0 got six=0 nine=0 zero=0
    shift 2
    while :; do
        number=$((number + 1))
        FAIL_ALLOC=$number LD_PRELOAD=$work/fail_alloc.so timeout 60 "$program" "$@" >out 2>err 9>mark
        got=$?
        [ -s mark ] || break
        case "$got $(cat err)" in
            "6 avrora: out of memory") six=$((six + 1)); is_front out "$due" || tell WRONG "$name: allocation $number: no front" ;;
            "9 ") nine=$((nine + 1)); [ ! -s out ] || tell WRONG "$name: allocation $number: output" ;;
            "0 ") zero=$((zero + 1)); cmp -s out "$due" || tell WRONG "$name: allocation $number: another output" ;;
            *) tell WRONG "$name: allocation $number: status $got, $(cat err)" ;;
        esac
    done
    if [ $got -eq 0 ] && cmp -s out "$due" && [ $six -gt 0 ]; then
        tell ok "$name: $((number - 1)) allocations, refused in turn: status 6 $six times, 9 (no words yet) $nine, 0 (not needed) $zero"
    else
        tell WRONG "$name: the run without a refusal: status $got"
    fi
}

full="avrora: write failed"
cannot="avrora: cannot read"

# Outputs.
expect "nothing fails" 0 "" two.trace run two.toml
timeout 60 "$program" run two.toml >/dev/full 2>err
[ $? -eq 1 ] && [ "$(cat err)" = "$full" ] && tell ok "a full device" || tell WRONG "a full device: $(cat err)"
timeout 60 "$program" run two.toml >&- 2>err
[ $? -eq 1 ] && [ "$(cat err)" = "$full" ] && tell ok "a closed output" || tell WRONG "a closed output: $(cat err)"
(
    sleep 0.3
    timeout 60 "$program" run two.toml 2>err
    echo $? >status
) | true
sleep 0.6
[ "$(cat status)" = 1 ] && [ "$(cat err)" = "$full" ] && tell ok "a closed pipe" || tell WRONG "a closed pipe: $(cat status err)"
printf 'cycles = 400_000\nwindow = [0, 20_000]\nnode = [{image = "a.hex"}, {image = "a.hex"}]\n' >long.toml
timeout 60 "$program" run long.toml >whole
{
    timeout 60 "$program" run long.toml 2>err
    echo $? >status
} | head -c 1000 >out
is_front out whole && [ "$(cat status)" = 1 ] && [ "$(cat err)" = "$full" ] && tell ok "a pipe that is closed in mid-trace" ||
    tell WRONG "a pipe that is closed in mid-trace: $(cat status err)"
timeout 60 "$program" run none.toml >out 2>/dev/full
[ $? -eq 1 ] && [ ! -s out ] && tell ok "a full error stream" || tell WRONG "a full error stream"
timeout 60 "$program" run none.toml >out 2>&-
[ $? -eq 1 ] && [ ! -s out ] && tell ok "a closed error stream" || tell WRONG "a closed error stream"
timeout 60 "$program" run two.toml 2>&- >out
[ $? -eq 0 ] && cmp -s out two.trace && tell ok "a closed error stream, and nothing to say" || tell WRONG "a closed error stream, and nothing to say"

# Files that are none.
expect "no file" 3 "$cannot none.toml" - run none.toml
expect "a folder" 3 "$cannot ." - check .
expect "a folder for an image" 3 "$cannot /" - node / 8
ln -s loop.toml loop.toml
expect "a link to itself" 3 "$cannot loop.toml" - run loop.toml
expect "an empty device" 4 "avrora: /dev/null: scenario refused: Missing" - run /dev/null
expect "an empty device for an image" 5 "avrora: /dev/null: image refused: NoEnd" - disasm /dev/null
expect "a device without an end" 4 "avrora: /dev/zero: scenario refused: TooLong" - run /dev/zero
expect "a device without an end for an image" 5 "avrora: /dev/zero: image refused: TooLong" - node /dev/zero 8
printf ':00000001FF\n' >end.hex
expect "an empty device for a source" 0 "" end.hex asm /dev/null
expect "a device without an end for a source" 7 "avrora: /dev/zero: source refused: TooLong" - asm /dev/zero
mkfifo pipe.toml
yes >pipe.toml 2>/dev/null &
expect "a pipe without an end" 4 "avrora: pipe.toml: scenario refused: TooLong" - run pipe.toml
wait
cp two.toml grows.toml
(for _ in $(seq 20000); do echo "# more" >>grows.toml; done) &
grower=$!
wrong=0
for _ in $(seq 20); do
    timeout 60 "$program" run grows.toml >out 2>err
    case "$? $(cat err)" in
        "0 ") cmp -s out two.trace || wrong=1 ;;
        "4 avrora: grows.toml: scenario refused: NotToml") [ ! -s out ] || wrong=1 ;;
        *) wrong=1 ;;
    esac
done
kill $grower 2>/dev/null
wait 2>/dev/null
[ $wrong -eq 0 ] && tell ok "a file that grows while it is read" || tell WRONG "a file that grows while it is read: $(cat err)"

# Names.
name=$(printf 'n%.0s' $(seq 250)).toml
cp two.toml "$name"
expect "a name of 255 bytes" 0 "" two.trace run "$name"
expect "a name of 256 bytes" 3 "$cannot n$name" - run "n$name"
image=$(printf 'i%.0s' $(seq 251)).hex
cp a.hex "$image"
sed "s/a\.hex/$image/" two.toml >image.toml
expect "an image's name of 255 bytes" 0 "" two.trace run image.toml
sed "s/a\.hex/i$image/" two.toml >image.toml
expect "an image's name of 256 bytes" 4 "avrora: image.toml: scenario refused: OutOfRange" - run image.toml

# The greatest lengths.
pad() {
    head -c $(($2 - $(stat -c %s "$1"))) /dev/zero | tr '\0' '\n' | cat "$1" -
}
pad two.toml 524288 >most.toml
pad two.toml 524289 >more.toml
pad a.hex 1048576 >most.hex
pad a.hex 1048577 >more.hex
expect "a scenario of 524,288 bytes" 0 "" two.trace run most.toml
expect "a scenario of 524,289 bytes" 4 "avrora: more.toml: scenario refused: TooLong" - run more.toml
sed "s/a\.hex/most.hex/" two.toml >image.toml
expect "an image of 1,048,576 bytes" 0 "" two.trace run image.toml
sed "s/a\.hex/more.hex/" two.toml >image.toml
expect "an image of 1,048,577 bytes" 5 "avrora: more.hex: image refused: TooLong" - run image.toml

# Memory.
refuse "run of two nodes" two.trace run two.toml
refuse "run --plain of two nodes" two.trace run --plain two.toml
echo "make 0: 8 nodes, 1000000 cycles, 14706 sent, 1 quiet, 29407 heard, 0 clashes" >make.line
refuse "make 0" make.line make 0
refuse "monitor of a node" node.profile monitor node.toml
refuse "sniff of a node" frames.lines sniff frames.toml
exit $failed
