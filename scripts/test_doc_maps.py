#!/usr/bin/env python3
"""Plants a fault in a copy of what scripts/doc_maps.py reads, one after another: each is to be told, and none before.

    scripts/test_doc_maps.py

It also adds a file to each list of all places that names what the list is about: the list must tell of it.

Exit status: 0 all are told, 1 one is not.
"""
import contextlib
import io
import sys
import tomllib

import doc_maps
from check_docs import TOP, tracked
from doc_maps import (
    ARCHITECTURE, ARGS, CASES, CHECKS, FORMATS, FORMS, MOST_OTHERS, PLACES, RUNNER, TOP_CALL, Repository, places_of,
)

INDEX = "crates/node_core/proofs/Lib.antt"

# What is planted: a path, what stands there once at least, what comes in its place, and a part of what is to be told.
FAULTS = (
    (PLACES, '"crates/trace_writer/src/line.rt" = ', '"crates/trace_writer/src/trace.rt" = ', "crates/trace_writer/src/line.rt matches, and stands under no places"),
    (PLACES, '"crates/node_core/src/row.rt" = ', '"crates/node_core/src/gone.rt" = ', "there is no file crates/node_core/src/gone.rt"),
    (PLACES, "`put_serial`", "`put_cereal`", "crates/node_core/src/machine.rt has no `put_cereal`"),
    (PLACES, r"\bKind::[A-Z]|\bKind\.TheVariants|\benum Kind\b", r"\bKind::[a-z]", "nothing matches"),
    (PLACES, '"examples/*.h"', '"examples/*.hpp"', "there is no file examples/*.hpp"),
    (PLACES, '"crates/command_plans/src/files.rt" = "it hands', '"crates/command_plans/src/lib.rt" = "it hands', "is excepted, and nothing there matches"),
    (PLACES, '"crates/device_base/src/lib.rt" = "it hands', '"crates/device_base/src/*.rt" = "it hands', "src/*.rt is a wildcard"),
    (PLACES, "[clash.others]", "[clash.others]" + "".join(f'\n"{n}" = ""' for n in range(MOST_OTHERS)), "its patterns match too much"),
    (PLACES, r"|\bowned :", "", "no search finds crates/serial_ports/specs/Numbers.antt"),
    (PLACES, 'change = "a stop cause"', 'change = "the cause of a stop"', 'no row of the changes is "the cause of a stop"'),
    (PLACES, "[clash", "[crash", "there is no list [clash]"),
    (ARCHITECTURE, "*all row*", "all its places", 'no row of the changes is "a row of the trace"'),
    (ARCHITECTURE, "`EPOCH` of `world_core/src/kept.rt`", "`EPOCHS` of `world_core/src/kept.rt`", "has no EPOCHS"),
    (ARCHITECTURE, "`serial_ports/specs/Radio` |", "`serial_ports/specs/Wireless` |", "there is no serial_ports/specs/Wireless"),
    (ARCHITECTURE, "`board_io/specs/Table`, `Registers`; of a device", "`board_io/specs/Table`, `Register`; of a device", "board_io defines no Register"),
    (ARCHITECTURE, "`node_core/specs/Pace/Leaps`", "`node_core/specs/Pace/Leap`", "there is no node_core/specs/Pace/Leap"),
    (ARCHITECTURE, "`Pace/Midway` (`IsSprinted`)", "`Pace/Midway` (`IsSprint`)", "Pace/Midway has no IsSprint"),
    (ARCHITECTURE, "`defaults.rt` (`LATENCY`)", "`defaults.rt` (`LATENESS`)", "defaults.rt has no LATENESS"),
    (ARCHITECTURE, "*all limit*", "all its places", 'no row of the changes is "a limit of cycles or epochs"'),
    (ARCHITECTURE, "`needed_law` says", "`needless_law` says", "no crate that it names has needless_law"),
    (ARCHITECTURE, "`prescaler.rt`", "`line.rt`", "no crate that it names has line.rt"),
    (ARCHITECTURE, "| To change |", "| To alter |", "it has no table of changes"),
    (ARCHITECTURE, "` of `", "`, which is in `", "it names only"),
    (TOP_CALL, "| `watch FILE FROM TO PLACES STATE` |", "| `watch FILE PLACES STATE` |", "no row is `watch FILE FROM TO PLACES STATE`"),
    (TOP_CALL, "| `make NUMBER` |", "| `make NUMBER` | |\n/// | `made NUMBER` |", "no form is `made NUMBER`"),
    (FORMATS, "| `monitor FILE FROM TO` |", "| `monitor FILE SPAN` |", "no row is `monitor FILE FROM TO`"),
    (FORMS, "/// `look FILE CYCLE`: ", "/// `gaze FILE CYCLE`: ", "no row is `gaze FILE CYCLE`"),
    (CASES, "`timer8.txt`", "`timer9.txt`", "the stored run has no devices=timer9.txt"),
    (CASES, "`selects.txt`, ", "", "no crate has devices=selects.txt"),
    (CASES, "| `sniffs=`; ", "| `devices=`; ", "device_facts does not stand on air_sniffer"),
    (CASES, "| `trace_writer` |", "| `trace_reader` |", "trace_writer has 0 rows"),
    (CASES, "`saved=` | `state_facts`", "`saved=` | `run_facts`", "saved= is run by state_facts"),
    (ARGS, "streams=streams.txt\n", "", "the stored run has no word streams="),
    (ARGS, "refused\n", "refused\nrumours=heard.txt\n", "the table of words lacks rumours="),
    (RUNNER, '"air" => air_facts::', '"air" => record_facts::', "air= is run by record_facts"),
    ("crates.txt", "\nfleet_plain:", "\nfleet_simple:", "fleet_simple has 0 rows"),
    (INDEX, "pub mod Polls\n", "", "crates/node_core/proofs/Polls.antt stands in no index"),
    (INDEX, "-- Polls by SBIS", "-- Loops by SBIS", "it does not say of each module"),
    ("crates/node_core/proofs/Polls.antt", "-- Polls by", "use Polls by", "it does not begin with a sentence"),
)

TOOL = "tools/avrora_tools/sweeping/new.py"

# A new file of each list: its path, and a line of it.
NEW_FILES = {
    "row": (TOOL, 'WRITTEN = (b" serial ", b" sent ")'),
    "cause": ("crates/node_core/src/new.rt", "Err(StopCause::Break)"),
    "form": (TOOL, 'return self.simulator.call("resume", path, state)'),
    "key": (TOOL, 'byte_time = document.get("byte_time")'),
    "epoch": ("bench/new.py", "EPOCH = 262_144"),
    "numbers": ("crates/board_io/src/new.rt", "pub fn from_numbers(numbers: &[u64])"),
    "device": ("crates/board_io/src/new.rt", "second: Usart,"),
    "clash": (TOOL, "from avrora_tools.events import CLASH, Heard"),
    "nodes": ("crates/world_core/src/new.rt", "last: [usize; 64],"),
    "limit": (TOOL, "LAST = 2**40"),
    "default": (TOOL, "LATENCY = 3_072"),
    "size": ("crates/command_plans/src/new.rt", "const MOST_PLACES_BYTES: usize = 131_072;"),
    "frame": (TOOL, r'HEAD = b"\xaa\xaa\x7e"'),
    "memory": (TOOL, "DATA_END = 0x1100"),
    "charge": (TOOL, "SEND_CHARGE = 512"),
    "spelling": (TOOL, 'SEEN = re.compile(rb"([0-9A-F]{4})")'),
    "wording": (TOOL, "if process.returncode in REFUSALS:"),
}


def told(repo):
    return (it for check in CHECKS for it in check(repo))


def with_fault(whole, path, text):
    """A repository that has another text of one file."""
    repo = Repository(TOP, whole.paths)
    repo.known = whole.known | {path: text}
    return repo


def untold(whole):
    """The lists that do not tell of a new file, and those for which none is here."""
    lists = tomllib.loads(whole.text(PLACES))
    yield from (f"no new file is of the list [{name}]" for name in lists.keys() ^ NEW_FILES.keys())
    for name in lists.keys() & NEW_FILES.keys():
        path, line = NEW_FILES[name]
        repo = Repository(TOP, [*whole.paths, path])
        repo.known = whole.known | {path: line + "\n"}
        if not any(f"[{name}]: {path} matches" in it for it in places_of(repo, name, lists[name])):
            yield f"not told: {path} with {line!r} by the list [{name}]"


def not_printed(whole):
    """What is wrong with how a list is printed: each of its files stands in it, and a list that is not there is refused."""
    lists = tomllib.loads(whole.text(PLACES))
    for name, listed in lists.items():
        with contextlib.redirect_stdout(io.StringIO()) as out:
            status = doc_maps.main([name])
        lines = out.getvalue().splitlines()
        missing = [it for it in [*listed["places"], *listed.get("others", {})] if not any(line.startswith(f"    {it}: ") for line in lines)]
        if status or missing:
            yield f"not printed: of the list [{name}] {missing}, status {status}"
    with contextlib.redirect_stderr(io.StringIO()) as err:
        if doc_maps.main(["gone"]) != 2 or "there is no list gone" not in err.getvalue():
            yield "a list that is not there is not refused"


def main():
    whole = Repository(TOP, tracked())
    wrong = [f"with no fault: {it}" for it in told(whole)]
    for path, old, new, part in FAULTS:
        text = whole.text(path)
        if old not in text:
            wrong.append(f"{path} has no {old!r} to change")
        elif not any(part in it for it in told(with_fault(whole, path, text.replace(old, new)))):
            wrong.append(f"not told: {old!r} as {new!r} in {path}")
    idle = Repository(TOP, [*tracked(), "crates/command_facts/data/nobody_names_it.hex"])
    if not any("no case names it" in it for it in told(idle)):
        wrong.append("not told: a file that no case names")
    wrong += untold(whole)
    wrong += not_printed(whole)
    for it in wrong:
        print(it)
    print(f"test_doc_maps: {len(FAULTS) + 1 + len(NEW_FILES)} faults, {len(wrong)} wrong")
    return 1 if wrong else 0


if __name__ == "__main__":
    if sys.argv[1:2] in (["--help"], ["-h"]):
        sys.exit(print(__doc__))
    sys.exit(main())
