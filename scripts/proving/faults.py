"""What is told of a crate that is not proved: file and line from the top of the repository, the function, and how to go
on."""
import re

# What rattle says of what went well.
WENT_WELL = re.compile(
    r"(statements|logic|crate|axioms|by-macro|built:|  +|logic=proved) ?|.*: (proved|assumed)$|note: (?!src/|\./)"
)

# A place of which rattle says something, and a file of the crate anywhere in its lines.
PLACE = re.compile(
    r"^(?P<note>note: )?(?:\./)?(?P<path>(?:src|specs|proofs)/[^:\s]+):(?P<line>\d+):(?P<column>\d+): (?P<what>.*)$",
    re.M,
)
PATH = re.compile(r"(?<![\w/.-])(?:\./)?((?:src|specs|proofs)/[\w/.+-]+\.(?:rt|antt)\b)")

# What is not proved, and where a function of a source begins.
UNPROVED = re.compile(r"^(?:fn|struct|enum|impl) (?P<name>\S+): (?!proved$|assumed$)", re.M)
FUNCTION = re.compile(r"\bfn (\w+)")


def lines_of(path: str) -> list[str]:
    try:
        with open(path, encoding="utf-8", errors="replace") as it:
            return it.read().splitlines()
    except OSError:
        return []


def function_at(lines: list[str], number: int, begins: bool) -> str | None:
    """The function that a line of a source belongs to; one of which it `begins` stands at it or below."""
    before, after = lines[:number][::-1], lines[number - 1 :]
    for line in [*after, *before] if begins else [*before, *after]:
        if found := FUNCTION.search(line.partition("//")[0]):
            return found[1]
    return None


def places(name: str, top: str, said: str) -> list[str]:
    """What is at fault in a crate, a line for each place."""
    unproved = UNPROVED.findall(said)
    named, found = set(), []
    for it in PLACE.finditer(said):
        path = f"crates/{name}/{it['path']}"
        function = (
            function_at(lines_of(f"{top}/{path}"), int(it["line"]), bool(it["note"])) if path.endswith(".rt") else None
        )
        whole = next((one for one in unproved if one.rpartition("::")[2] == function), function)
        named.add(whole)
        of = f" in `{whole}`" if whole else ""
        found.append(f"{path}:{it['line']}:{it['column']}:{of}: {it['what']}")
    return found + [f"crates/{name}: `{it}` is not proved" for it in unproved if it not in named]


def told(name: str, top: str, said: str) -> list[str]:
    """All that is told of a crate that is not proved, the faults first; then what the kit said, with paths from the
    top."""
    first = places(name, top, said) or [f"crates/{name}: not proved"]
    go_on = f"avrora: to go on from there: scripts/seed.py . && cd crates/{name} && rt check"
    kept = (line for line in said.splitlines() if not WENT_WELL.match(line))
    rest = [PATH.sub(rf"crates/{name}/\1", line) for line in kept]
    return [*(f"avrora: {it}" for it in first), go_on, *rest]
