"""Draws types of C and fills variables of them with bytes by chance, and compares the values that `inspect` tells with
those that avr-gdb prints of the same memory.

    drawn_types.py [COUNT] [SEED]    so many types (500), drawn by a seed (1)

Status: 1 where a value is another one."""
import random
import re
import subprocess
import sys
import tempfile
from dataclasses import dataclass, field
from pathlib import Path

sys.path.insert(0, str(Path(__file__).resolve().parent.parent))

from elftools.elf.elffile import ELFFile

from avrora_tools.variables import DATA_SPACE, variables_of

# Types by their names in C, and how wide a bit-field may be.
INTEGERS = {
    "uint8_t": 8,
    "int8_t": 8,
    "uint16_t": 16,
    "int16_t": 16,
    "uint32_t": 32,
    "int32_t": 32,
    "uint64_t": 64,
    "int64_t": 64,
}
INTEGERS |= {
    "unsigned char": 8,
    "signed char": 8,
    "int": 16,
    "unsigned": 16,
    "long": 32,
    "unsigned long long": 64,
    "_Bool": 1,
}
OTHERS = {"__int24": None, "__uint24": None, "float": None, "double": None, "char": None}
WIDEST = 56  # of a bit-field: gdb reads none that lies in nine bytes

# Fixed-point numbers: the bits of their fraction, and the integer of their bits, as which gdb prints all digits.
FIXED = {
    "short _Fract": (7, "int8_t"),
    "_Fract": (15, "int16_t"),
    "long _Fract": (31, "int32_t"),
    "unsigned _Fract": (16, "uint16_t"),
    "short _Accum": (7, "int16_t"),
    "_Accum": (15, "int32_t"),
    "long _Accum": (31, "int64_t"),
    "long long _Accum": (47, "int64_t"),
    "unsigned short _Accum": (8, "uint16_t"),
    "unsigned _Accum": (16, "uint32_t"),
    "unsigned long _Accum": (32, "uint64_t"),
}


# Pointers to variables, to functions, to the flash, to one of both. gdb takes pointers to one type for equally long,
# and prints no third byte.
POINTERS = ("pointer", "code", "flash", "both")
THREE_BYTES = "((unsigned char *)&{0})[2] * 65536L + ((unsigned char *)&{0})[1] * 256L + *(unsigned char *)&{0}"
UNNAMED = "(unnamed)"
TAGGED = re.compile("(struct|union) S")


@dataclass
class Drawn:
    """A type: a leaf, an array of `count`, or a structure or union of members; how it is declared, given a name."""

    kind: str
    name: str = ""
    qualifier: str = ""  # of a pointer itself
    count: int = 0
    element: "Drawn | None" = None
    members: list[tuple[str, "Drawn", int | None]] = field(default_factory=list)

    def declared(self, what: str) -> str:
        if self.kind == "array":
            return self.element.declared(f"{what}[{self.count}]")
        if self.kind == "text":
            return f"char {what}[{self.count}]"
        if self.kind == "code" and not self.name:
            return f"uint8_t (*{self.qualifier} {what})(int, void *)"
        if self.kind in POINTERS and not self.name.startswith("pointer"):
            return f"{self.name} *{self.qualifier} {what}"
        if (
            self.kind == "structure"
            and self.members
            and not TAGGED.match(self.name)
        ):
            return f"{self.body()} {what}"
        return f"{self.name} {what}"

    def body(self) -> str:
        members = " ".join(
            f"{type_.declared('' if name == UNNAMED else name)}{f' : {bits}' if bits else ''};"
            for name, type_, bits in self.members
        )
        word, _, attribute = self.name.partition(" ")
        packed = "__attribute__((packed)) " if "packed" in attribute else ""
        tag = attribute.replace("packed", "").strip()
        return f"{word} {packed}{tag} {{ {members} }}"


class Drawer:
    """Draws types by a seed; `declarations` go before the variables."""

    def __init__(self, seed: int) -> None:
        self.random = random.Random(seed)
        self.declarations: list[str] = []
        self.count = 0

    def fresh(self, prefix: str) -> str:
        self.count += 1
        return f"{prefix}{self.count}"

    def type(self, depth: int = 0) -> Drawn:
        draw = self.random.random()
        if depth < 3 and draw < 0.35:
            return self.structure(depth)
        if depth < 4 and draw < 0.5:
            return Drawn("array", element=self.element(depth + 1), count=self.random.randint(1, 5))
        return self.leaf()

    def element(self, depth: int) -> Drawn:
        while True:
            found = self.type(depth)
            if found.name != "char" and found.kind != "both":  # arrays are texts; gdb takes two bytes for an element
                return found

    def leaf(self) -> Drawn:
        draw = self.random.random()
        if draw < 0.2:
            return self.enumeration()
        if draw < 0.35:
            return self.pointer()
        if draw < 0.38:
            return Drawn("text", count=self.random.randint(1, 6))
        if draw < 0.48:
            name = self.random.choice(list(FIXED))
            return Drawn("fixed", name)
        name = self.random.choice([*INTEGERS, *OTHERS])
        return Drawn(
            "leaf", self.renamed(self.random.choice(["", "", "volatile ", "const "]) + name) if name != "char" else name
        )

    def pointer(self) -> Drawn:
        qualifier = self.random.choice(["", "", "restrict", "volatile", "const volatile", "volatile restrict"])
        kind = self.random.choice(POINTERS)
        if kind == "code":
            name = self.random.choice(["", "routine", "const routine", "again", "pointer", "pointer_again"])
            return Drawn(kind, name, qualifier.replace("restrict", ""))
        targets = {
            "pointer": [
                "uint8_t", "void", "const char", "struct opaque", "uint8_t *", "routine *", "const volatile int"
            ],
            "flash": ["const __flash char", "const __flash uint16_t", "const __flash struct opaque"],
            "both": ["const __memx struct far", "const volatile __memx struct far"],
        }
        return Drawn(kind, self.random.choice(targets[kind]), qualifier)

    def renamed(self, name: str) -> str:
        if self.random.random() < 0.2:
            new = self.fresh("t")
            self.declarations.append(f"typedef {name} {new};")
            return new
        return name

    def enumeration(self) -> Drawn:
        pool = self.random.choice(
            [
                [0, 1, 2, 3],
                [0],
                [0, 1],
                [1, 2, 4, 8, 16],
                [-3, -1, 0, 5],
                [0, 6, 8],
                [1, 3, 200],
                [-30000, 30000],
                [70000, 1],
                [255],
                [1, 1, 2],
            ]
        )
        name = self.fresh("e")
        packed = " __attribute__((packed))" * (self.random.random() < 0.4)
        values = ", ".join(f"{name}_{place} = {value}L" for place, value in enumerate(pool))
        self.declarations.append(f"enum {name} {{ {values} }}{packed};")
        return Drawn("enum", f"enum {name}")

    def structure(self, depth: int) -> Drawn:
        word = self.random.choice(["struct", "struct", "struct", "union"])
        packed = "packed " * (self.random.random() < 0.3)
        found = Drawn("structure", f"{word} {packed}")
        for _ in range(self.random.randint(1, 6)):
            bits = None
            type_ = self.type(depth + 1)
            if self.random.random() < 0.5:
                name = self.random.choice([*INTEGERS])
                bits = self.random.randint(1, min(INTEGERS[name], WIDEST))
                type_ = Drawn("leaf", name)
                if self.random.random() < 0.2:
                    type_, bits = self.enumeration(), self.random.randint(1, 8)
            name = self.fresh("m")
            if type_.kind == "structure" and not TAGGED.match(type_.name) and self.random.random() < 0.5:
                name = UNNAMED
            found.members.append((name, type_, bits))
        if self.random.random() < 0.5:  # with a tag
            tag = self.fresh("S")
            found.name = f"{word} {packed}{tag}"
            self.declarations.append(f"{found.body()};")
            found.name = f"{word} {tag}"
        return found


def leaves(type_: Drawn, path: str) -> list[str]:
    """What gdb is asked for."""
    if type_.kind == "array":
        return [leaf for i in range(type_.count) for leaf in leaves(type_.element, f"{path}[{i}]")]
    if type_.kind == "structure":
        return [leaf for name, member, _ in type_.members for leaf in leaves(member, within(path, name))]
    if type_.kind == "text":
        return [f"{path}[{i}]" for i in range(type_.count)]
    return [asked(type_, path)]


def within(path: str, name: str) -> str:
    return path if name == UNNAMED else f"{path}.{name}"


def asked(type_: Drawn, path: str) -> str:
    """What gdb is asked for of a leaf."""
    if type_.kind == "both":
        return THREE_BYTES.format(path)
    if type_.kind == "code" and type_.name.endswith(("routine", "again")):
        return f"2L * *(uint16_t *)&{path}"  # gdb takes a typedef of a function for data
    return f"*({FIXED[type_.name][1]} *)&{path}" if type_.kind == "fixed" else path


def text(type_: Drawn, path: str, values: dict[str, str]) -> str:
    """How `inspect` is to show a variable, by what gdb printed of its leaves."""
    if type_.kind == "array":
        parts = [text(type_.element, f"{path}[{i}]", values) for i in range(type_.count)]
        return "{" + ", ".join(folded(parts)) + "}"
    if type_.kind == "structure":
        return (
            "{"
            + ", ".join(f"{name} {text(member, within(path, name), values)}" for name, member, _ in type_.members)
            + "}"
        )
    if type_.kind == "text":
        return characters([values[f"{path}[{i}]"] for i in range(type_.count)])
    said = values[asked(type_, path)]
    if type_.kind in POINTERS:
        return target(type_.kind, int(re.search(r"0x[0-9a-f]+|^\d+", said)[0], 0))
    if type_.kind == "fixed":
        said = said.split()[0]
        return f"{int(said) / (1 << FIXED[type_.name][0]):.10g} (raw {said})"
    if type_.kind == "leaf" and type_.name == "char":
        number = int(said.split()[0])
        return f"{number} {chr(number)!r}" if 0x20 <= number <= 0x7E else str(number)
    return re.sub(r" '.*", "", said) if type_.kind == "leaf" else said


def target(kind: str, number: int) -> str:
    """How a pointer is to be shown, by the number that gdb tells: of a function its byte address."""
    number = number // 2 & 0xFFFF if kind == "code" else number if kind == "both" else number & 0xFFFF
    if not number:
        return "0"
    if kind == "flash" or kind == "both" and number < 0x800000:
        return f"0x{number:04X} of the flash"
    return f"0x{number & 0xFFFF:04X} {'a function' if kind == 'code' else '&a variable'}"


def characters(printed: list[str]) -> str:
    """How an array of characters is to be shown, by what gdb tells of each."""
    numbers = [int(one.split()[0]) for one in printed]
    whole = bytes(number & 0xFF for number in numbers).rstrip(b"\0")
    if whole and all(0x20 <= byte <= 0x7E or byte in b"\n\r\t" for byte in whole):
        escaped = whole.decode().replace("\\", "\\\\").replace('"', '\\"')
        for letter, escape in (("\n", "\\n"), ("\r", "\\r"), ("\t", "\\t")):
            escaped = escaped.replace(letter, escape)
        return f'"{escaped}"'
    parts = [f"{number} {chr(number)!r}" if 0x20 <= number <= 0x7E else str(number) for number in numbers]
    return "{" + ", ".join(folded(parts)) + "}"


def folded(parts: list[str]) -> list[str]:
    found: list[list[object]] = []
    for part in parts:
        if found and found[-1][0] == part:
            found[-1][1] += 1
        else:
            found.append([part, 1])
    return [part if times == 1 else f"{part} x {times}" for part, times in found]


class Filled:
    """The memory of the variables."""

    def __init__(self, data: bytes, first: int) -> None:
        self.data, self.first = data, first

    def read(self, address: int, size: int) -> bytes:
        return self.data[address - self.first : address - self.first + size]

    def object_at(self, address: int) -> str:
        return "a variable"

    def function_at(self, word: int) -> str:
        return "a function"


BATCH = 60  # types of one program


def differences(count: int, seed: int, folder: Path) -> list[str]:
    """What is told otherwise of so many types."""
    found = []
    for first in range(0, count, BATCH):
        found += batch(min(BATCH, count - first), seed * 1_000 + first, folder)
    return found


def batch(count: int, seed: int, folder: Path) -> list[str]:
    drawer = Drawer(seed)
    types = {f"v{number}": drawer.type() for number in range(count)}
    is_static = {name: drawer.random.random() < 0.2 for name in types}
    lines = {name: f'{type_.declared(name)} __attribute__((section(".data"), used));' for name, type_ in types.items()}
    source = "\n".join(
        [
            "#include <stdint.h>",
            "int64_t whole; uint64_t natural; int32_t w; uint32_t n; int16_t i; uint16_t u; int8_t c;",
            "typedef void routine(uint8_t); typedef routine again; typedef uint8_t (*pointer)(int);",
            "typedef pointer pointer_again;",
            *drawer.declarations,
            *(line for name, line in lines.items() if not is_static[name]),
            "static __attribute__((noinline)) void kept(void) {",
            *(f"static {line}" for name, line in lines.items() if is_static[name]),
            "asm volatile(\"\"); }",
            "int main(void) { for (;;) kept(); }",
        ]
    )
    (folder / "drawn.c").write_text(source)
    dwarf = drawer.random.choice(["-gdwarf-2", "-gdwarf-3", "-gdwarf-4"])
    subprocess.run(
        ["avr-gcc", "-mmcu=atmega128", "-w", dwarf, "-Os", "drawn.c", "-o", "drawn.elf"], cwd=folder, check=True
    )
    with open(folder / "drawn.elf", "rb") as file:
        section = ELFFile(file).get_section_by_name(".data")
        size, at = section["sh_size"], section["sh_addr"] - DATA_SPACE
    data = bytes(drawer.random.choice((0, 0xFF, drawer.random.randrange(256))) for _ in range(size))
    (folder / "data").write_bytes(data)
    subprocess.run(["avr-objcopy", "--update-section", ".data=data", "drawn.elf"], cwd=folder, check=True)
    paths = {name: f"kept::{name}" if is_static[name] else name for name in types}
    values = printed_by_gdb([leaf for name, type_ in types.items() for leaf in leaves(type_, paths[name])], folder)
    memory = Filled(data, at)
    told = {
        one.name.removeprefix("kept."): one.type.shown(memory.read(one.address, one.type.size), memory)
        for one in variables_of(str(folder / "drawn.elf"))
    }
    wanted = {name: text(type_, paths[name], values) for name, type_ in types.items()}
    return [
        f"seed {seed}, {dwarf}: {types[name].declared(name)}\n  inspect: {told.get(name)}\n  gdb:     {wanted[name]}"
        for name in types
        if told.get(name) != wanted[name]
    ]


def printed_by_gdb(expressions: list[str], folder: Path) -> dict[str, str]:
    script = "".join(f'printf "\\n{expression}="\noutput {expression}\n' for expression in expressions)
    (folder / "script").write_text("set print symbol off\nset print repeats 0\n" + script)
    done = subprocess.run(
        ["avr-gdb", "-batch", "-nx", "-x", "script", "drawn.elf"],
        cwd=folder,
        capture_output=True,
        text=True,
        check=True,
    )
    return dict(line.partition("=")[::2] for line in done.stdout.splitlines() if line)


def main() -> int:
    count, seed = [int(word) for word in sys.argv[1:]] + [500, 1][len(sys.argv) - 1 :]
    with tempfile.TemporaryDirectory() as folder:
        found = differences(count, seed, Path(folder))
    print("\n".join(found[:20]))
    print(f"{count} types drawn by seed {seed}: {len(found)} told otherwise than by avr-gdb")
    return 1 if found else 0


if __name__ == "__main__":
    if sys.argv[1:2] in (["--help"], ["-h"]):
        sys.exit(print(__doc__))
    sys.exit(main())
