"""Runs the tests of a script, and counts them on the last line as `.ci/run` reads it."""
import io
import shutil
import sys
import unittest
from types import ModuleType
from typing import Iterable

CANNOT = 3


def run(name: str, module: ModuleType, needs: Iterable[str] = ()) -> int:
    """Runs all tests of a module; the exit status: 0 all are met, 1 one is not, 3 they cannot run here."""
    if lacks := [it for it in needs if not shutil.which(it)]:
        print(f"{name}: no test can run: {', '.join(lacks)} is not installed", file=sys.stderr)
        return CANNOT
    result = unittest.TextTestRunner(stream=io.StringIO(), verbosity=0).run(
        unittest.defaultTestLoader.loadTestsFromModule(module)
    )
    wrong = (
        result.errors
        + result.failures
        + [(it, "it passed, and is marked as one that fails") for it in result.unexpectedSuccesses]
    )
    for test, text in wrong:
        print(f"{name}: {test}\n{text}", file=sys.stderr)
    for test, cause in result.skipped:
        print(f"{name}: skipped {test.id()}: {cause}")
    print(f"{name}: {result.testsRun} tests, {len(wrong)} not met, {len(result.skipped)} skipped", flush=True)
    return int(bool(wrong))
