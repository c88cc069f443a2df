"""The files of a release, and the archive that they are packed into: the same files give the same bytes."""
import gzip
import hashlib
import io
import os
import tarfile
import zipfile
from collections.abc import Mapping
from typing import NamedTuple

EXECUTABLE, PLAIN = 0o755, 0o644

SUMS = "SHA256SUMS"


class File(NamedTuple):
    """A file of a release."""

    content: bytes
    mode: int = PLAIN


class Link(NamedTuple):
    """A symbolic link of a release."""

    target: str


Files = Mapping[str, File | Link]


def sums(files: Files) -> File:
    """The sums of all files, as `sha256sum -c` reads them."""
    lines = [f"{hashlib.sha256(it.content).hexdigest()}  {path}\n" for path, it in sorted(files.items()) if isinstance(it, File)]
    return File("".join(lines).encode())


def tar(files: Files, top: str, time: int) -> bytes:
    """The files below a folder `top` as an archive in gzip's format: sorted, of one time and of root."""
    out = io.BytesIO()
    with gzip.GzipFile(filename="", fileobj=out, mode="wb", mtime=time) as packed:
        with tarfile.open(fileobj=packed, mode="w", format=tarfile.USTAR_FORMAT) as archive:
            for path in sorted({*files, *folders(files), ""}):
                member = tarfile.TarInfo(f"{top}/{path}".rstrip("/"))
                member.mtime, member.uname, member.gname = time, "root", "root"
                it = files.get(path)
                if isinstance(it, File):
                    member.mode, member.size = it.mode, len(it.content)
                    archive.addfile(member, io.BytesIO(it.content))
                elif isinstance(it, Link):
                    member.type, member.linkname, member.mode = tarfile.SYMTYPE, it.target, 0o777
                    archive.addfile(member)
                else:
                    member.type, member.mode = tarfile.DIRTYPE, EXECUTABLE
                    archive.addfile(member)
    return out.getvalue()


def folders(files: Files) -> set[str]:
    """The folders that the files lie in, up to the top."""
    found = set()
    for path in files:
        while path := os.path.dirname(path):
            found.add(path)
    return found


def write(files: Files, top: str, time: int) -> None:
    """Writes the files below the folder `top`."""
    for path, it in files.items():
        place = os.path.join(top, path)
        os.makedirs(os.path.dirname(place), exist_ok=True)
        if isinstance(it, Link):
            os.symlink(it.target, place)
        else:
            with open(place, "wb") as out:
                out.write(it.content)
            os.chmod(place, it.mode)
            os.utime(place, (time, time))


def zipped(files: Mapping[str, bytes], time: tuple[int, int, int, int, int, int]) -> bytes:
    """The files as a zip that Python runs: not compressed, which the archive does, sorted, of one time."""
    out = io.BytesIO()
    with zipfile.ZipFile(out, "w", zipfile.ZIP_STORED) as archive:
        for path, content in sorted(files.items()):
            member = zipfile.ZipInfo(path, date_time=time)
            member.create_system, member.external_attr = 3, (0o100000 | PLAIN) << 16
            archive.writestr(member, content)
    return out.getvalue()
