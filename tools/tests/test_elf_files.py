"""ELF files that a stranger made: they are read to an end, in bounded time and memory, or refused by name."""
import io
import pathlib
import resource
import shutil
import signal
import subprocess
import sys

import pytest

import endless_elf
from strange_dwarf import Entry, array, base, program, structure
from support import LONG, scratch
from avrora_tools import elf_files, programs, variables
from avrora_tools.errors import BadInput

pytest.importorskip("elftools", reason="needs elftools (Debian's python3-pyelftools)")
pytestmark = pytest.mark.skipif(not shutil.which("avr-gcc"), reason="needs avr-gcc (Debian's gcc-avr)")

SECONDS = 60  # a busy machine's

SOURCE = """struct pair { int a, b; } pairs[2];
static int twice(int x) { { static int calls; calls++; } return 2 * x; }
int main(void) { struct pair *at = pairs; for (;;) at->a = twice(at->b); }
"""


def compiled(folder, source):
    """The bytes of the ELF file of a source."""
    (folder / "a.c").write_text(source)
    words = ["avr-gcc", "-mmcu=atmega128", "-O0", "-gdwarf-2", "a.c", "-o", "a.elf"]
    subprocess.run(words, cwd=folder, check=True)
    return (folder / "a.elf").read_bytes()


def entries(content):
    """All entries of the DWARF of a file, and where they lie in it."""
    from elftools.elf.elffile import ELFFile

    elf = ELFFile(io.BytesIO(content))
    base = elf.get_section_by_name(".debug_info")["sh_offset"]
    return [entry for unit in elf.get_dwarf_info().iter_CUs() for entry in unit.iter_DIEs()], base


def read(content):
    """The variables of a program, as a process in bounded time and memory reads them."""
    script = (
        "import resource, sys\n"
        f"resource.setrlimit(resource.RLIMIT_AS, ({1 << 30}, {1 << 30}))\n"
        "from avrora_tools import programs, variables\n"
        "from avrora_tools.errors import BadInput\n"
        "class Nothing:\n"
        "    read = staticmethod(lambda address, size: bytes(4352)[address:address + size])\n"
        "    object_at = function_at = staticmethod(lambda address: None)\n"
        "try:\n"
        "    programs.Program(sys.argv[1])\n"
        "    for one in variables.variables_of(sys.argv[1]):\n"
        "        print(one.name, one.type.name, one.type.shown(Nothing.read(one.address, one.type.size), Nothing))\n"
        "except BadInput as fault:\n"
        "    sys.exit(f'refused: {fault}')\n"
    )
    with scratch("a.elf", content) as path:
        words = [sys.executable, "-c", script, path]
        done = subprocess.run(words, capture_output=True, text=True, timeout=SECONDS, check=False)
        return done.stdout, done.stderr.replace(path, "a.elf")


def test_the_program_as_it_is(tmp_path):
    out, err = read(compiled(tmp_path, SOURCE))
    assert err == "" and set(out.splitlines()) == {"pairs pair[2] {{a 0, b 0} x 2}", "twice.calls int 0"}


def test_arrays_of_what_has_no_size(tmp_path):
    """Empty structures, as GNU C has them."""
    source = "struct empty {} none[3], one; int zero[0]; struct { char n; struct empty e[2]; } both;"
    source += " int main(void) {}\n"
    out, err = read(compiled(tmp_path, source))
    told = {"none empty[3] {{} x 3}", "one empty {}", "zero int[0] {}", "both struct {n 0, e {{} x 2}}"}
    assert err == "" and set(out.splitlines()) == told


def test_siblings_that_go_round(tmp_path):
    content = compiled(tmp_path, SOURCE)
    found, base = entries(content)
    with_sibling = [entry for entry in found if entry.tag and "DW_AT_sibling" in entry.attributes]
    assert len(with_sibling) > 3
    for entry in with_sibling:
        for place in (entry.offset, with_sibling[0].offset, entry.offset + 1):
            at = base + entry.attributes["DW_AT_sibling"].offset
            said = read(content[:at] + (place - entry.cu.cu_offset).to_bytes(4, "little") + content[at + 4 :])
            assert said[0] == "" and "a.elf: no ELF file: " in said[1] and said[1].startswith("refused"), said


def test_references_to_the_middle_of_an_entry(tmp_path):
    content = compiled(tmp_path, SOURCE)
    found, base = entries(content)
    variable = next(entry for entry in found if entry.tag == "DW_TAG_variable")
    at = base + variable.attributes["DW_AT_type"].offset
    for step in range(1, 8):
        place = variable.attributes["DW_AT_type"].value + step
        said = read(content[:at] + place.to_bytes(4, "little") + content[at + 4 :])[1]
        assert said == "" or said.startswith("refused: a.elf: no ELF file: "), said


def test_a_type_of_more_values_than_there_is_time_for(tmp_path):
    levels = ["union l0 { unsigned char a, b; };"]
    for level in range(1, 9):
        names = ", ".join("abcdefghijklmnop")
        levels.append(f"union l{level} {{ union l{level - 1} {names}; }};")
    source = " ".join(levels) + " union l8 big; union l1 small; int main(void) { big = big; }\n"
    out, err = read(compiled(tmp_path, source))
    assert err == "" and "big l8 " in out and len(out) < 2_000_000 and "small l1 {a {a 0, b 0}, b " in out


def test_many_dimensions(tmp_path):
    out, err = read(compiled(tmp_path, f"char deep{'[1]' * 2_000}; int main(void) {{}}\n"))
    assert (out, err) == ("deep ? 00\n", "")


@pytest.mark.parametrize("kind", [8, 1], ids=["no bits", "packed"])
def test_a_section_larger_than_any(tmp_path, kind):
    """Of a section without bits pyelftools makes as many zeros; of a packed one as many bytes as its head says."""
    content = bytearray(compiled(tmp_path, SOURCE))
    from elftools.elf.elffile import ELFFile

    elf = ELFFile(io.BytesIO(content))
    number = elf.get_section_index(".debug_info")
    head = elf["e_shoff"] + number * elf["e_shentsize"]
    place = elf.get_section(number)["sh_offset"]
    content[head + 4 : head + 8] = kind.to_bytes(4, "little")
    if kind == 8:
        content[head + 20 : head + 24] = b"\xff\xff\xff\x7f"
    else:  # SHF_COMPRESSED, and a head of ELFCOMPRESS_ZLIB
        content[head + 8 : head + 12] = (0x800).to_bytes(4, "little")
        content[place : place + 12] = (1).to_bytes(4, "little") + b"\xff\xff\xff\x7f" + (1).to_bytes(4, "little")
    said = read(bytes(content))
    assert said == ("", "refused: a.elf: no ELF file: its debugging sections have more than 67,108,864 bytes\n")


def test_what_a_block_raises_is_of_the_file(tmp_path):
    compiled(tmp_path, SOURCE)
    with pytest.raises(BadInput, match="a.elf: no ELF file: 'gone'"):
        with elf_files.opened(f"{tmp_path}/a.elf"):
            raise KeyError("gone")
    with pytest.raises(BadInput, match="no ELF file"):
        programs.Program(f"{tmp_path}/a.c")
    with pytest.raises(BadInput, match="no ELF file"):
        variables.variables_of(f"{tmp_path}/a.c")


def nothing_in_itself(depth, width):
    """Structures of structures, at whose bottom is nothing."""
    found = [structure(0)]
    for _ in range(depth):
        found.append(structure(0, *[(found[-1], 0, {})] * width))
    return found


INT, CHAR = base(2), base(1, 0x08, "char")
FLOAT, FIXED = 0x04, 0x0D
NEGATIVE = array(CHAR, -(2**40))

# What no program of the data space has, and what is told of it: its types, the last one that of the variable.
IMPOSSIBLE = {
    "an array of many arrays of nothing": [INT, array(INT, 2**62, 0)],
    "an array of many arrays of less than nothing": [INT, array(INT, 2**62, -1)],
    "a number of a tebibyte": [base(2**40)],
    "a number of more bits than there are": [base(2**62)],
    "a fixed-point number of a tebibyte": [base(2**40, FIXED, "_Accum")],
    "a number of less than nothing": [base(-1)],
    "an enumeration of a tebibyte": [Entry("enumeration", {"name": "e", "size": 2**40})],
    "a pointer of a tebibyte": [Entry("pointer", {"size": 2**40})],
    "a member of many bits": [INT, structure(2, (INT, 0, {"bits": 2**40, "low_bit": 0}))],
    "a member before its byte": [INT, structure(2, (INT, 0, {"bits": 3, "low_bit": -5}))],
    "a member far behind": [INT, structure(2, (INT, 2**40, {}))],
    "a member far before": [INT, structure(2, (INT, -(2**40), {}))],
    "structures of nothing, deep": nothing_in_itself(40, 2),
    "structures of nothing, wide": nothing_in_itself(6, 60),
    "values that others take away": [
        *(CHAR, NEGATIVE, pairs := array(CHAR, 256, 200)),
        *(both := structure(2, (NEGATIVE, 0, {}), (pairs, 0, {})), array(both, 250)),
    ],
}


LOOKED_AT = """import resource, sys
resource.setrlimit(resource.RLIMIT_AS, (1 << 30, 1 << 30))
from avrora_tools.errors import BadInput
from avrora_tools.inspection import NodeMemory, View
from avrora_tools.observing.conditions import Reader
from avrora_tools.observing.quantities import Names
from avrora_tools.programs import Program
class Node:
    data = bytes(4352)
for path in sys.argv[1:]:
    program = Program(path)
    names = Names(program)
    lines = list(View(program).global_lines(Node, ["v"]))
    print(path, len(lines) == 1 and len(lines[0]) < 4_000_000)
    for ask in (
        lambda: names.matching("v*"),
        lambda: Reader(names).read("v == 1"),
        lambda: Reader(names).read("v[r1].m1[r1][r1] == 1"),
    ):
        try:
            ask()
        except BadInput:
            pass
"""


def test_types_that_fit_nowhere(tmp_path):
    """They are shown as bytes, and nothing in them is named: neither memory nor time follows what they say."""
    paths = [program(f"{tmp_path}/{number}.elf", *types) for number, types in enumerate(IMPOSSIBLE.values())]
    words = [sys.executable, "-c", LOOKED_AT, *paths]
    done = subprocess.run(words, capture_output=True, text=True, timeout=2 * SECONDS, check=False)
    assert done.stderr == "" and done.stdout.split("\n") == [*(f"{path} True" for path in paths), ""]


def test_a_variable_that_ends_behind_the_data_space(tmp_path):
    content = pathlib.Path(program(f"{tmp_path}/a.elf", base(4, FLOAT, "float"), address=0x10FE)).read_bytes()
    assert read(content) == ("v float 00 00\n", "")


READ_IN_BOUNDS = """import sys, time
from avrora_tools import elf_files, programs, stacks, variables
from avrora_tools.errors import BadInput
from avrora_tools.sweeping import sharing
elf_files.SECONDS, elf_files.MEMORY = 1, 1 << 28
for read in (programs.Program, variables.variables_of, stacks.frame_rules, stacks.data_end, sharing.objects_of):
    try:
        read(sys.argv[1])
    except BadInput as fault:
        print(str(fault).rpartition(": ")[2])
print(time.process_time() < 30)
"""


@pytest.mark.parametrize("name", endless_elf.MAKERS)
def test_a_file_that_nobody_reads_to_its_end(name):
    """It is refused once it takes too many seconds or bytes."""
    with scratch("a.elf", endless_elf.MAKERS[name]()) as path:
        words = [sys.executable, "-c", READ_IN_BOUNDS, path]
        done = subprocess.run(words, capture_output=True, text=True, timeout=LONG, check=False)
    said = done.stdout.splitlines()
    assert (done.stderr, said[-1]) == ("", "True")
    late = {"reading it takes more than 1 seconds", "reading it takes more than 268,435,456 bytes"}
    assert late & set(said[:-1]), said


def test_bounds_are_gone_behind_the_block(tmp_path):
    compiled(tmp_path, SOURCE)
    before = resource.getrlimit(resource.RLIMIT_AS), signal.getsignal(signal.SIGPROF)
    with elf_files.opened(f"{tmp_path}/a.elf"), elf_files.opened(f"{tmp_path}/a.elf"):
        assert resource.getrlimit(resource.RLIMIT_AS) != before[0]
    assert signal.getitimer(signal.ITIMER_PROF) == (0.0, 0.0)
    assert (resource.getrlimit(resource.RLIMIT_AS), signal.getsignal(signal.SIGPROF)) == before
