"""docs/SCRIPTS.md: all scripts of scripts/ and bench/, each with what its help says first."""
import ast
import itertools
import re
import subprocess
from pathlib import Path

FOLDERS = ("scripts", "bench")

INDEX = "docs/SCRIPTS.md"

HEAD = """\
# Scripts

For people who change the program or its documents: what can be run here besides `./avrora` and the tools. Each script
takes `--help`, which names its words. `scripts/check_docs.py --index` writes this page.

Where nothing changed, `./avrora` takes 29 ms beside the program, of a processor and by the clock, as `bench/launcher.py`
measured it on a virtual Xeon at 2.5 GHz with nothing else at work. It must stay below 40 ms.

| Script | What it does first of all |
|---|---|
"""

# A sentence ends at a point or a colon before a space, or where the text has a gap.
SENTENCE = re.compile(r".*?(?:[.:](?=\s)|(?=\n\n)|\Z)", re.S)


def scripts(top: Path) -> list[str]:
    """The paths of all that can be run, but the launcher of a release, which is none of the repository."""
    listed = subprocess.run(
        ["git", "ls-files", "-s", *FOLDERS],
        cwd=top,
        stdin=subprocess.DEVNULL,
        capture_output=True,
        text=True,
        check=True,
    ).stdout
    found = [line.partition("\t")[2] for line in listed.splitlines() if line.startswith("100755")]
    return [it for it in found if it != "scripts/releases/avrora"]


def help_of(top: Path, path: str) -> str:
    """The text that stands at the top of a script."""
    text = (top / path).read_text(encoding="utf-8")
    if text.startswith("#!/usr/bin/env python3"):
        return ast.get_docstring(ast.parse(text)) or ""
    lines = itertools.takewhile(lambda line: line.startswith("#"), text.splitlines()[1:])
    return "\n".join(line.removeprefix("#").strip() for line in lines)


def first_sentence(text: str) -> str:
    """It, without the point, and in one line."""
    found = SENTENCE.match(text)
    return " ".join(found[0].split()).rstrip(".:").replace("|", "/") if found else ""


def page(top: Path) -> str:
    """The page as it is to stand."""
    rows = [f"| `{path}` | {first_sentence(help_of(top, path))} |" for path in sorted(scripts(top))]
    return HEAD + "\n".join(rows) + "\n"


def write(top: Path) -> None:
    (top / INDEX).write_text(page(top), encoding="utf-8")


def wrong(top: Path) -> list[str]:
    """What is not right with the page."""
    stands = (top / INDEX).read_text(encoding="utf-8") if (top / INDEX).exists() else ""
    return [] if stands == page(top) else [f"{INDEX}: it does not list the scripts as they are (--index writes it)"]
