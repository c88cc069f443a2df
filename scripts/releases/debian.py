"""The Debian package of a release: the files of its archive where Debian has such files."""
import gzip
import hashlib
import os
import re
import subprocess
import tempfile
import textwrap
from email.utils import formatdate
from typing import NamedTuple

from releases import archives
from releases.archives import File, Files, Link

NAME, ARCHITECTURE = "avrora", "amd64"

# Where the package has what the archive has at its top.
SHARED, DOCUMENTS = "usr/share/avrora", "usr/share/doc/avrora"

# What of the archive is in the package by other means: links for calls from its top, and sums (dpkg keeps its own).
LEFT_OUT = ("avrora", "avrora-tools", archives.SUMS)

# What the documents of the package are called beside those that every package has.
LINKED = ("README.md", "SECURITY.md", "docs", "examples", "tools", "PROVED", "UNPROVED")

# What lintian says of the package that is meant so, each with the reason.
OVERRIDES = """\
# PROVED names the bytes of the program, and they are those that the prover's own compiler wrote.
avrora: unstripped-binary-or-object [usr/libexec/avrora/avrora_program]
avrora: hardening-no-fortify-functions [usr/libexec/avrora/avrora_program]
# The launcher reads docs/FORMATS.md, and small systems leave /usr/share/doc out. There links lead to it.
avrora: package-contains-documentation-outside-usr-share-doc *
"""
WITHOUT_LICENCE = """\
# The owner of the sources has stated neither.
avrora: copyright-without-copyright-notice
"""

NO_LICENCE = """\
The owner of the sources has stated no licence. Ask before you pass this package on.
"""


class Facts(NamedTuple):
    """What the package says of itself."""

    version: str
    maintainer: str
    time: int
    libc: str
    about: str
    changes: str
    licence: bytes | None


def needed_libc(program: bytes) -> str:
    """The lowest version of the C library that has all that a program names of it."""
    versions = {tuple(map(int, it.split(b"."))) for it in re.findall(rb"\0GLIBC_([0-9]+(?:\.[0-9]+)+)(?=\0)", program)}
    return ".".join(map(str, max(versions, default=(2, 0))))


def place(path: str) -> str:
    """Where the package has a file of the archive."""
    if path.startswith(("bin/", "libexec/", "share/")):
        return f"usr/{path}"
    return f"{SHARED}/{path}"


def content(files: Files, facts: Facts) -> dict[str, File | Link]:
    """The files of the package."""
    found: dict[str, File | Link] = {}
    for path, it in files.items():
        if path in LEFT_OUT or path == "CHANGELOG.md":
            continue
        if path.startswith("share/man/") and isinstance(it, File):
            found[f"{place(path)}.gz"] = packed(it.content)
        else:
            found[place(path)] = it
    tops = {it.split("/")[0] for it in files}
    for name in filter(tops.__contains__, LINKED):
        found[f"{DOCUMENTS}/{name}"] = Link(f"../../avrora/{name}")
    found[f"{DOCUMENTS}/copyright"] = File(facts.licence or NO_LICENCE.encode())
    found[f"{DOCUMENTS}/changelog.gz"] = packed(changelog(facts).encode())
    overrides = OVERRIDES + (WITHOUT_LICENCE if facts.licence is None else "")
    found["usr/share/lintian/overrides/avrora"] = File(overrides.encode())
    return found


def packed(text: bytes) -> File:
    """A text as policy has it packed: as small as can be, without a time or a name."""
    return File(gzip.compress(text, 9, mtime=0))


def changelog(facts: Facts) -> str:
    """The newest entry of the changelog in Debian's form."""
    lines = [f"{NAME} ({facts.version}) stable; urgency=medium", ""]
    for item in re.findall(r"^- (.*(?:\n  .*)*)", facts.changes, re.M):
        text = re.sub(r"\s+", " ", plain(item))
        lines += textwrap.wrap(text, 76, initial_indent="  * ", subsequent_indent="    ", break_on_hyphens=False)
    return "\n".join([*lines, "", f" -- {facts.maintainer}  {formatdate(facts.time)}", ""])


def plain(markdown: str) -> str:
    """Markdown as plain text."""
    return re.sub(r"[`*]|\[([^\]]*)\]\([^)]*\)", lambda it: it[1] or "", markdown)


def control(facts: Facts, files: Files) -> str:
    """What dpkg is told of the package."""
    size = sum(-(-len(it.content) // 1024) if isinstance(it, File) else 1 for it in files.values())
    about = textwrap.wrap(plain(facts.about), 76, break_on_hyphens=False)
    return "\n".join(
        [
            f"Package: {NAME}",
            f"Version: {facts.version}",
            "Section: electronics",
            "Priority: optional",
            f"Architecture: {ARCHITECTURE}",
            f"Maintainer: {facts.maintainer}",
            f"Installed-Size: {size + len(archives.folders(files))}",
            f"Depends: libc6 (>= {facts.libc})",
            "Recommends: avr-libc, gcc-avr, python3 (>= 3.11)",
            "Suggests: python3-distributed, python3-junit.xml, python3-pyelftools, python3-tomlkit",
            "Description: cycle-accurate simulator of networks of sensor nodes",
            *(f" {line}" for line in about),
            "",
        ]
    )


def build(files: Files, facts: Facts) -> bytes:
    """The package, by dpkg-deb."""
    own = content(files, facts)
    md5sums = "".join(f"{hashlib.md5(it.content).hexdigest()}  {path}\n" for path, it in sorted(own.items()) if isinstance(it, File))
    own |= {"DEBIAN/control": File(control(facts, own).encode()), "DEBIAN/md5sums": File(md5sums.encode())}
    with tempfile.TemporaryDirectory() as work:
        tree, out = f"{work}/tree", f"{work}/out.deb"
        archives.write(own, tree, facts.time)
        for folder in archives.folders(own):
            os.chmod(f"{tree}/{folder}", archives.EXECUTABLE)
        os.chmod(tree, archives.EXECUTABLE)
        environment = {**os.environ, "SOURCE_DATE_EPOCH": str(facts.time)}
        subprocess.run(["dpkg-deb", "--root-owner-group", "-Zxz", "--build", tree, out], env=environment, stdout=subprocess.DEVNULL, check=True)
        with open(out, "rb") as it:
            return it.read()
