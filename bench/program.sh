# For the scripts beside it that run the program on networks. They source this with their own words; the first may name
# the program (without it, the one that ./avrora builds). It sets `top`, `program` and `work`, a folder for the run.
top=$(cd "$(dirname "${BASH_SOURCE[0]}")/.." && pwd)
program=${1:-$top/crates/avrora_program/out/rlib/avrora_program}
work=$(mktemp -d)
trap 'rm -rf "$work"' EXIT
[ -n "${1:-}" ] || "$top/avrora" node "$top/examples/two.hex" 1 >/dev/null

# network NODES IMAGE CYCLES LINE ..: a ring in which each node hears the one before it and the one behind it, with these lines
# in the head of its scenario.
network() {
    local nodes=$1 image=$2 cycles=$3 k
    shift 3
    if ((cycles > 10000000)); then echo "version = 3"; fi
    echo "cycles = $cycles"
    printf '%s\n' "$@"
    for ((k = 0; k < nodes; k++)); do printf '[[node]]\nimage = "%s.hex"\n' "$image"; done
    for ((k = 0; k < nodes; k++)); do
        printf '[[link]]\nfrom = %d\nto = %d\n' $k $(((k + 1) % nodes))
        if ((nodes > 2)); then printf '[[link]]\nfrom = %d\nto = %d\n' $(((k + 1) % nodes)) $k; fi
    done
}
