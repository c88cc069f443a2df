"""The version of the code that decides what comes of a run: a hash of all modules of this package that it goes
through."""
import functools
import hashlib
import importlib.util
import pkgutil
import re
from pathlib import Path

import avrora_tools

PACKAGE = avrora_tools.__name__

# Where a run and its checks begin, and where drawn networks come from.
RUNS, NETWORKS = f"{PACKAGE}.benches", f"{PACKAGE}.networks"


@functools.cache
def version(root: str = RUNS) -> str:
    """A hash of the sources of all modules that `root` needs, each with its name."""
    found = hashlib.sha256()
    for name, source in sorted(sources(root).items()):
        found.update(f"{name} {len(source)}\n".encode() + source)
    return found.hexdigest()


def sources(root: str = RUNS) -> dict[str, bytes]:
    """The modules of this package that `root` needs, directly or by others, and itself, each with its source."""
    found: dict[str, bytes] = {}
    waiting = [root]
    while waiting:
        name = waiting.pop()
        source = None if name in found else source_of(name)
        if source is not None:
            found[name] = source
            waiting += imported(source)
    return found


def source_of(name: str) -> bytes | None:
    """The source of a module; None where the name is not that of a module."""
    try:
        spec = importlib.util.find_spec(name)
    except ModuleNotFoundError:  # a name of a module's name
        return None
    if not spec or not spec.origin:
        return None
    # by the loader of the package: a release has it in a zip
    return pkgutil.get_data(PACKAGE, str(Path(spec.origin).relative_to(Path(avrora_tools.__file__).parent)))


# An import of this package: a line, or more in brackets. One within a text is as good as any: it makes the version that
# of more.
IMPORT = re.compile(
    rf"^[ \t]*(?:from[ \t]+({PACKAGE}[\w.]*)[ \t]+import[ \t]+(\([^)]*\)|.*)|import[ \t]+({PACKAGE}.*))$", re.MULTILINE
)


def imported(source: bytes) -> list[str]:
    """The names of this package that a source imports; some of them are not modules."""
    found = []
    for module, names, modules in IMPORT.findall(source.decode()):
        found += re.findall(r"[\w.]+", modules)
        if module:
            found += [module] + [f"{module}.{name}" for name in re.findall(r"\w+", names)]
    return [name for name in found if name.split(".")[0] == PACKAGE]
