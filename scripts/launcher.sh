# What the two launchers of the program share: `avrora` at the top of a checkout, and `bin/avrora` of a release. They source this
# after they have set
#   called    how a user calls them, as the usage shows it
#   formats   the path of FORMATS.md
#   own_help  lines of the usage for words that only the launcher takes, or nothing
#   notice    a sentence of the usage about the first command, or nothing
# They must also have three functions:
#   version       writes the lines of --version
#   find_program  sets `program` to the path of the program, or ends with NOT_THERE and one line that says why
#   own_words     if the words are the launcher's alone, does what they ask and ends

# The exit statuses that a launcher gives or explains; the program's own are below NOT_THERE.
readonly NOT_WRITTEN=1 BAD_WORDS=2 CANNOT_READ=3 NO_MEMORY=6 NO_WORDS=9 NOT_THERE=10

# The cycles of an epoch, and the largest numbers that commands take: of epochs, of cycles of one node, of a sample network, and a cycle.
readonly EPOCH=262144 MOST_EPOCHS=9999999 MOST_CYCLES=10000000 MOST_NUMBER=65535 LAST_CYCLE=1099511627776

# What the program takes for granted of a processor, by the names of /proc/cpuinfo: x86-64-v2 (pni is SSE3).
readonly NEEDED_OF_PROCESSOR='cx16 lahf_lm pni popcnt sse4_1 sse4_2 ssse3'

# The most lines that /proc/cpuinfo has of its first processor; Linux writes less than half as many.
readonly LINES_OF_A_PROCESSOR=64

usage() {
    cat <<TEXT
Usage: $called [-C DIR] COMMAND

  run FILE            run the network of the scenario FILE, and write its trace
  run --plain FILE    the same, on one thread
  monitor FILE        run it up to the end of its window, and write where each node's cycles of the window went
  monitor FILE FROM TO  the same for the cycles from FROM on, below TO: a span of any length within its run
  sniff FILE          run it, and write the frames that its nodes send by radio
  check FILE          read the scenario FILE and its images, and write how large the network is
  head FILE N         run it for N epochs of 262144 cycles, and write their part of the trace
  save FILE N         run it for N epochs, and write the state of the network at their end
  head, save FILE N STATE   the same for the N epochs after a state
  look FILE CYCLE [STATE]  run it up to CYCLE, from reset or from STATE, and write the state of the network then
  resume FILE STATE   run it from a state on, and write the rest of the trace
  watch FILE FROM TO PLACES [STATE [MOVES]]  run it, and write each change of a byte, and each instruction, at PLACES,
                      in the cycles from FROM on, below TO; with STATE run from it on; with MOVES once for each of its lines
  sweep FILE STATE MOVES  do what resume does, once for each line of MOVES, with the input that the line gives
  node FILE CYCLES    run the image FILE (Intel HEX) on one node for CYCLES cycles (1 to 10000000, no _), and write its trace
  disasm FILE         list the instructions of the image FILE
  asm FILE            write the program of FILE, a source in assembly, as an image
  make NUMBER         run the sample network of NUMBER, 0 to 65535, and count what its nodes sent and heard
  help, --help, -h    write this text
  --version           write the commit, and the kit that the program is proved with
${own_help:+$own_help
}  -C DIR COMMAND      do the command in the folder DIR, where FILE and the images of a scenario are looked for

${notice:+$notice
}Exit status: 0 all is written, 1 writing failed, 2 bad command line, 3 a file cannot be read, 4 a scenario is refused,
5 an image is refused, 6 out of memory, 7 a source is refused, 8 a state, moves or places are refused, 9 the command line
is no UTF-8, or out of memory, 10 there is no program that can run here. docs/FORMATS.md has every row, format and status.
TEXT
}

# A signal that is to end this script ends the command that it runs first.
child= ended=
stop() {
    ended=$1
    [[ -z $child ]] || kill -TERM "$child" 2>/dev/null
}
trap 'stop 129' HUP
trap 'stop 130' INT
trap 'stop 143' TERM

# Runs a command to its end, and answers its status.
run() {
    "$@" <&0 &
    child=$!
    wait "$child"
    local status=$?
    while kill -0 "$child" 2>/dev/null; do # a signal came before its end
        wait "$child"
        status=$?
    done
    child=
    [[ -z $ended ]] || exit "$ended"
    return "$status"
}

# Explains a line that the program wrote before it ended with this status: explain STATUS LINE COMMAND WORD ..
explain() {
    case $1 in
        "$NOT_WRITTEN") echo '(a full disk, a closed descriptor, or a pipe that nobody reads; what was written is the beginning of what is due; docs/FAULTS.md)' >&2 ;;
        "$CANNOT_READ") explain_reading "${@:2}" ;;
        "$NO_MEMORY") echo '(the system refused memory; what was written is the beginning of what is due; docs/FAULTS.md)' >&2 ;;
        "$NO_WORDS") echo 'avrora: a word of the command line is no UTF-8, or memory is refused (docs/FAULTS.md)' >&2 ;;
        *) explain_refusal "${@:2}" ;;
    esac
}

# Explains that a file cannot be read; a word that nobody may take for a file's name is named: explain_reading LINE COMMAND WORD ..
explain_reading() {
    local name=${1#avrora: cannot read } forms=() least form of=
    find_forms "${2-}"
    shift "$(($# > 1 ? 2 : 1))"
    for form in "${forms[@]:0:$#}"; do
        [[ $1 != "$name" || $form != @(STATE|MOVES|PLACES) ]] || of="$form is the name of a file; "
        shift
    done
    echo "(${of}it is not there, it is a folder, or you may not read it; images are looked for in the folder where avrora runs, see -C; docs/FAULTS.md)" >&2
}

# Sets `forms` to the words that a command takes, as the usage names them, and `least` to how many it must have: find_forms COMMAND.
# An unknown command has none.
find_forms() {
    forms=() least=1
    case $1 in
        monitor) forms=(FILE FROM TO) ;;
        head | save) forms=(FILE N STATE) least=2 ;;
        look) forms=(FILE CYCLE STATE) least=2 ;;
        node) forms=(FILE CYCLES) least=2 ;;
        make) forms=(NUMBER) ;;
        run | sniff | check | disasm | asm) forms=(FILE) ;;
        resume) forms=(FILE STATE) least=2 ;;
        sweep) forms=(FILE STATE MOVES) least=3 ;;
        watch) forms=(FILE FROM TO PLACES STATE MOVES) least=4 ;;
    esac
}

# Sets `why` to what is wrong with a number of the command line, or to nothing: find_why WORD LEAST MOST
find_why() {
    local word=$1 least=$2 most=$3 digits
    digits=${word//[_,.\']/}
    why=
    case $word in
        0[xX]*) why='write a number in decimal digits alone' ;;
        [+-]*) why='a number takes no sign' ;;
        *[!0-9]* | '')
            why='this is not a number'
            [[ $digits == *[!0-9]* || -z $digits ]] || why="write a number in digits alone: $digits"
            ;;
        *) ((${#word} <= ${#most} && 10#$word <= most && 10#$word >= least)) || why="this must be a number from $least to $most, of at most ${#most} digits" ;;
    esac
}

# Sets `why` to what is wrong with the name of a file, or to nothing: find_why_no_name COMMAND WORD
find_why_no_name() {
    why=
    case $2 in
        '') why='this file name is empty' ;;
        -C) why='put -C DIR before the command' ;;
        -*)
            why="a file name cannot begin with -; write ./$2"
            [[ $1 != run ]] || why="run has only the option --plain; $why"
            ;;
    esac
}

# Says which word of a bad command line is wrong, or which is missing: explain_words COMMAND WORD ..
explain_words() {
    local command=${1-} forms=() least form why from= given
    [[ -n $command ]] || return 0
    find_forms "$command"
    if ((${#forms[@]} == 0)); then
        echo "(${command@Q}: there is no such command)" >&2
        return
    fi
    shift
    [[ $command != run || ${1-} != --plain ]] || shift
    given=$#
    [[ $command != monitor || $given != 2 ]] || least=3
    for form in "${forms[@]:0:$given}"; do
        case $form in
            N) find_why "$1" 1 "$MOST_EPOCHS" ;;
            CYCLES) find_why "$1" 1 "$MOST_CYCLES" ;;
            NUMBER) find_why "$1" 0 "$MOST_NUMBER" ;;
            FROM | TO | CYCLE) find_why "$1" 0 "$LAST_CYCLE" ;;
            *) find_why_no_name "$command" "$1" ;;
        esac
        if [[ -z $why && $form == TO ]] && ((10#$1 < 10#$from)); then
            why="TO is below FROM, which is $from"
        fi
        if [[ -n $why ]]; then
            echo "(${1@Q}: $why)" >&2
            return
        fi
        from=$1
        shift
    done
    if ((given < least)); then
        echo "($command: ${forms[given]} is missing)" >&2
    elif (($#)); then
        echo "(${1@Q}: a word too many for $command)" >&2
    fi
}

# Sets `told` to what a cause says of this command line alone, or to nothing, and `or` to another thing that it may be:
# find_told KIND CAUSE COMMAND WORD ..
find_told() {
    told= or=
    case "$1 $2 ${3-} $#" in
        'scenario OutOfRange monitor 6' | 'scenario OutOfRange watch '*) or="TO, which is ${6-}, is above the scenario's cycles; or " ;;
        'state PastEnd head 5' | 'state PastEnd save 5') told="N epochs of $EPOCH cycles, here $5, end in cycle $((10#$5 * EPOCH)), which is not below the scenario's cycles" ;;
        'state PastEnd look 5') told="CYCLE, which is $5, is above the scenario's cycles" ;;
    esac
}

# Explains the cause in a line by its row of FORMATS.md, or by the command line, and names what says where a scenario is at fault, or
# what runs an image. A fault of a whole file has a table of its own, and no line number: explain_refusal LINE COMMAND WORD ..
explain_refusal() {
    local kind cause part where= whole= told or
    [[ $1 =~ :\ (scenario|image|source|state|moves|places)\ refused:\ ([A-Za-z]+)(,\ line\ [0-9]+)?$ && -r $formats ]] || return 0
    kind=${BASH_REMATCH[1]} cause=${BASH_REMATCH[2]}
    [[ -n ${BASH_REMATCH[3]} ]] || whole=yes
    case $kind in
        scenario) part=Scenarios where='; avrora-tools why FILE says where' ;;
        image) part=Images ;;
        source) part=Sources ;;
        state) part=States ;;
        moves) part=Moves ;;
        places) part=Places ;;
    esac
    find_told "$kind" "$cause" "${@:2}"
    [[ -z $or ]] || where+=' if it is in the file'
    [[ $cause != NotToml || ${1%: scenario refused: *} != *.@(hex|ihex) ]] || where='; an image runs by: node FILE CYCLES'
    [[ ${1%: source refused: *} != *.c ]] || where='; a C file is for avr-gcc'
    if [[ -n $told ]]; then
        echo "($cause: $told; docs/FORMATS.md)" >&2
        return
    fi
    awk -v part="## $part" -v where="$where" -v cause="$cause" -v whole="$whole" -v or="$or" -F ' *[|] *' '
        /^## / { within = index($0, part) == 1 }
        !/^[|]/ { of_whole = "" }
        /^[|] Fault of the whole file/ { of_whole = "yes" }
        within && index($2, "`" cause "`") && (found == "" || of_whole == whole) { gsub("`", "", $3); found = $3 }
        END { if (found != "") print "(" cause ": " or found "; docs/FORMATS.md" where ")" }
    ' "$formats" >&2
}

# Sets `lacking` to the features that the program needs and the processor does not have, by a file like /proc/cpuinfo:
# find_lacking FILE. Without such a file it finds nothing that lacks.
find_lacking() {
    local told line flags= needed
    lacking=
    [[ -r $1 ]] || return 0
    # at once: the system makes the file anew for each read of it
    mapfile -t -n "$LINES_OF_A_PROCESSOR" told <"$1"
    ((${#told[@]})) || return 0
    for line in "${told[@]}"; do
        if [[ $line == flags* ]]; then
            flags=" ${line#*:} "
            break
        fi
    done
    for needed in $NEEDED_OF_PROCESSOR; do
        [[ $flags == *" $needed "* ]] || lacking+=" $needed"
    done
    lacking=${lacking# }
}

# Ends where the program would end by the signal of an unknown instruction.
require_processor() {
    local lacking
    find_lacking /proc/cpuinfo
    if [[ -n $lacking ]]; then
        echo "avrora: the program needs an x86-64-v2 processor, and this one lacks $lacking" >&2
        exit "$NOT_THERE"
    fi
}

# Has the C library keep the stacks of threads from one epoch of a run to the next (it would keep five of 8 MiB), unless
# the user sets what it does. Where the address space has an end they would leave no room in it, and are not kept.
keep_stacks() {
    [[ -z ${GLIBC_TUNABLES+set} && $(ulimit -v) == unlimited ]] || return 0
    export GLIBC_TUNABLES=glibc.pthread.stack_cache_size=$((1 << 30))
}

# Does what the words ask, and ends with the status of it: launch WORD ..
launch() {
    local program said status line folder
    [[ -e /dev/fd/0 ]] || exec </dev/null
    while [[ ${1-} == -C && $# -ge 2 ]]; do
        # a path from here begins with ./, so that neither CDPATH nor `-` leads elsewhere
        folder=$2
        [[ $folder == /* ]] || folder=./$folder
        if ! cd -- "$folder" 2>/dev/null; then
            echo "avrora: cannot read $2" >&2
            [[ ! -t 2 ]] || echo '(it is not there, it is not a folder, or you may not enter it)' >&2
            exit "$CANNOT_READ"
        fi
        shift 2
    done
    case ${1-} in
        help | --help | -h)
            usage
            exit
            ;;
        --version)
            version
            exit
            ;;
        '') bad_words 'a command is missing' ;;
        -C) bad_words '-C: DIR is missing' ;;
    esac
    own_words "$@"
    require_processor
    find_program
    keep_stacks
    if [[ -t 2 ]] && said=$(mktemp); then
        trap "rm -f $(printf %q "$said")" EXIT
        run "$program" "$@" 2>"$said"
        status=$?
        [[ ! -s $said ]] || cat "$said" >&2
        # the usage tells of bad words, and a program that a signal ended wrote no cause
        if ((status != 0 && status != BAD_WORDS && status < NOT_THERE)); then
            line=$(tail -n 1 "$said" | tr -d '\0')
            explain "$status" "$line" "$@"
        fi
    else
        run "$program" "$@"
        status=$?
    fi
    if [[ $status == "$BAD_WORDS" ]]; then
        # below the usage, where a terminal still shows it
        usage >&2
        explain_words "$@"
    fi
    exit "$status"
}

# Ends for words that only the launcher takes: bad_words WHY
bad_words() {
    echo 'avrora: bad command line' >&2
    usage >&2
    echo "($1)" >&2
    exit "$BAD_WORDS"
}
