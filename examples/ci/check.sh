#!/bin/sh
# Builds the firmware of a folder, checks it, and leaves what came of it as JUnit: check.sh [--timeout SECONDS] FOLDER [OUT]
#
# FOLDER is copied to OUT (./build where absent). There each NAME.c becomes NAME.hex, and so do all sources of a folder NAME.src
# together, an image of several sources; and the cases, all NAME.expect, are run;
# `avrora-tools expect --help` says what is in them. The report is OUT/junit.xml, and OUT/SHA256SUMS has the sums of all that
# was built and checked. For a person to read, OUT/check.reports has a page of all cases (cases.html), and of each scenario that a
# case runs a page (NAME.html) and its coverage for lcov (NAME.info). Each compilation, case and page may take SECONDS (600). To
# try it with an example:
#
#   mkdir mine && cp relay.c relay.toml relay.expect mine && ci/check.sh mine
#
# FOLDER may be anybody's: nothing of it is run, and nothing is written but in OUT. Links, pipes and devices are left out, and
# so is .git. Its files may have a gibibyte in all. OUT must be new, empty, or of an earlier call, which is removed. SECURITY.md says what a compiler may still read.
#
# AVRORA_HOME names the unpacked archive, where this script does not lie in it. Without one avrora-tools is looked for on the
# PATH, where the package puts it. From Debian: gcc-avr, avr-libc, python3, python3-junit.xml; for pages python3-pyelftools.
# Exit status: 0 every case is met, 1 one is not or a source is refused, 2 no case or bad words, 3 something is not there.
set -eu
unset CDPATH

say() {
    printf 'check.sh: %s\n' "$1" >&2
}

end() {
    say "$2"
    exit "$1"
}

usage() {
    echo "usage: check.sh [--timeout SECONDS] FOLDER [OUT]" >&2
    exit 2
}

# An absolute name, as no name of a stranger's begins.
absolute() {
    case $1 in
        /*) printf '%s\n' "$1" ;;
        *) printf '%s\n' "$PWD/$1" ;;
    esac
}

# Whether a link is on the way to a folder, from here or, of another absolute name, at its end.
has_link() {
    part=${1%/}
    case $part in
        "$PWD"/*) part=${part#"$PWD"/} ;;
        /*) [ -L "$part" ] && return ;;
    esac
    while [ "$part" ] && [ "${part#/}" = "$part" ]; do
        [ -L "$part" ] && return
        case $part in
            */*) part=${part%/*} ;;
            *) part= ;;
        esac
    done
    return 1
}

# The entries of a list like PATH that are whole names: an empty one, or one from here, may be a folder that is checked.
whole_names() {
    kept=
    rest=$1:
    while [ "$rest" ]; do
        case $rest in
            /*) kept=$kept${kept:+:}${rest%%:*} ;;
        esac
        rest=${rest#*:}
    done
    printf '%s\n' "$kept"
}

# Programs, libraries and modules are looked for where the environment says so by whole names, and never in a folder that is
# checked.
PATH=$(whole_names "$PATH")
PATH=${PATH:-/usr/bin:/bin}
LD_LIBRARY_PATH=$(whole_names "${LD_LIBRARY_PATH-}")
PYTHONPATH=$(whole_names "${PYTHONPATH-}")
export PATH LD_LIBRARY_PATH PYTHONPATH
unset COMPILER_PATH GCC_EXEC_PREFIX

# Bytes of all files of FOLDER.
most=1073741824

seconds=600
if [ "${1-}" = --timeout ]; then
    [ $# -ge 2 ] || usage
    seconds=$2
    shift 2
fi
case $seconds in
    *[!0-9]* | "" | 0* | ???????*) usage ;;
esac

here=$(cd -- "$(dirname -- "$0")" && pwd)
home=$(cd -- "$(absolute "${AVRORA_HOME:-$here/../..}")" && pwd)
if [ -x "$home/avrora-tools" ]; then
    PATH=$home:$PATH
fi
for it in avr-gcc avr-objcopy avrora-tools timeout sha256sum tar find awk; do
    command -v "$it" >/dev/null || end 3 "there is no $it"
done
if [ -f "$home/SHA256SUMS" ]; then
    (cd -- "$home" && grep -E '  (avrora|avrora-tools|(bin|libexec)/.*)$' SHA256SUMS | sha256sum -c --quiet --strict >&2) ||
        end 3 "the programs in $home are not those of its SHA256SUMS"
fi
headers=
for it in "$here/.." "$home/examples" "$home/include"; do
    if [ -f "$it/radio.h" ]; then
        headers=$(cd -- "$it" && pwd)
        break
    fi
done

if [ $# -lt 1 ] || [ $# -gt 2 ] || [ ! -d "$1" ]; then
    usage
fi
if has_link "$1"; then
    end 2 "$1: a link; name the folder that it leads to"
fi
folder=$(absolute "$1")
out=${2:-build}
if has_link "$out"; then
    end 2 "$out: it is a link, and the tool writes through none"
fi
out=$(absolute "$out")
mkdir -p -- "$out"
case $(cd -- "$out" && pwd -P)/ in
    "$(cd -- "$folder" && pwd -P)/"*) end 2 "${2:-build} lies in $1, which is copied there" ;;
esac
if [ -f "$out/.check.sh" ]; then
    find "$out" -mindepth 1 -delete
elif [ "$(find "$out" -mindepth 1 -maxdepth 1 | head -c 1)" ]; then
    end 2 "${2:-build}: it is not empty, and of no earlier call"
fi
: >"$out/.check.sh"

cd -- "$folder"
left=$(find . -name .git -prune -o ! -type f ! -type d -printf x | wc -c)
[ "$left" -eq 0 ] || say "left out: $left links, pipes or devices"
# A file of terabytes may have no block on the disk; its copy would fill ours.
find . -name .git -prune -o -type f -printf '%s\n' | awk -v most="$most" '{ sum += $1 } END { exit sum > most }' ||
    end 2 "$1 has more than $most bytes"
find . -mindepth 1 \( -name .git -o -path ./.check.sh \) -prune -o \( -type f -o -type d \) -print0 |
    tar --create --null --no-recursion --hard-dereference --mode=u=rwX,go=rX --files-from=- |
    tar --extract --no-same-owner --directory="$out"
cd -- "$out"

# What a tool says of a source has parts of the source: shown without what a terminal or a log would take for its own.
limited() {
    if (
        # shellcheck disable=SC3045 # dash and bash have it
        ulimit -v 4194304
        ulimit -f 2097152
        exec timeout -k 5 "$seconds" "$@"
    ) >.check.sh 2>&1; then
        status=0
    else
        status=$?
    fi
    cat -v .check.sh | sed -e 's/##/#-#/g' -e 's/^/| /' >&2
    : >.check.sh
    case $status in
        0) ;;
        124 | 137) end 1 "it took more than $seconds seconds" ;;
        *) exit 1 ;;
    esac
}

# A name begins with ./, so that none is an option or a file of options. A header is the first one included, so that no
# precompiled one is taken, which has code in it. No object is taken for one of link-time optimization, which has options.
image() {
    name=$1
    shift
    limited avr-gcc -mmcu=atmega128 -Os -gdwarf-2 -Wall -fno-lto -fno-use-linker-plugin -include /dev/null -I . \
        ${headers:+-I "$headers"} -o "$name.elf" "$@"
    limited avr-objcopy -j .text -j .data -O ihex "$name.elf" "$name.hex"
}
for source in ./*.c; do
    [ -f "$source" ] || continue
    image "${source%.c}" "$source"
done
for sources in ./*.src; do
    [ -d "$sources" ] || continue
    set -- "$sources"/*.c
    [ -f "$1" ] || end 2 "$sources: there is no source"
    [ ! -f "${sources%.src}.c" ] || end 2 "$sources: ${sources%.src}.c makes an image of this name too"
    image "${sources%.src}" -I "$sources" "$@"
done

set -- ./*.expect
[ -f "$1" ] || end 2 "there is no case"
find . -type f ! -path ./.check.sh ! -path ./SHA256SUMS -print0 | LC_ALL=C sort -z | xargs -0 sha256sum >.check.sh
rm -rf -- SHA256SUMS
mv -- .check.sh SHA256SUMS
: >.check.sh
# Pages and coverage are ours alone: a folder of that name that was copied here is gone.
rm -rf -- check.reports
mkdir -- check.reports
status=0
avrora-tools expect --timeout "$seconds" --junit ./junit.xml --html check.reports/cases.html "$@" || status=$?

# A page of each scenario that lies here and that a case runs; one that cannot be made is told, and changes no status.
page() {
    scenario=$1
    name=${scenario%.toml}
    set --
    for elf in ./*.elf; do
        image=${elf#./}
        image=${image%.elf}.hex
        if [ -f "$elf" ] && grep -qF -- "$image" "./$scenario"; then
            set -- "$@" -e "$elf"
        fi
    done
    [ $# -eq 0 ] || set -- "$@" --lcov "check.reports/$name.info"
    timeout -k 5 "$seconds" avrora-tools report --no-sleep --timeout "$seconds" "$@" -o "check.reports/$name.html" "./$scenario"
}
sed -n 's/^[[:space:]]*run[[:space:]][[:space:]]*\([^/[:space:]]*\.toml\)[[:space:]]*$/\1/p' "$@" | LC_ALL=C sort -u |
    while IFS= read -r scenario; do
        [ -f "./$scenario" ] || continue
        made=0
        page "$scenario" >.check.sh 2>&1 </dev/null || made=$?
        if [ "$made" -gt 1 ]; then
            cat -v .check.sh | sed 's/^/| /' >&2
            say "no page of a scenario: see above"
        fi
        : >.check.sh
    done
exit "$status"
