"""The types of the package, as mypy checks them strictly."""
import subprocess
import sys

import pytest

from support import TOOLS


def test_types(tmp_path):
    pytest.importorskip("mypy", reason="needs mypy (Debian's mypy)")
    words = [sys.executable, "-m", "mypy", "--cache-dir", str(tmp_path)]
    done = subprocess.run(words, cwd=TOOLS, capture_output=True, text=True, check=False)
    assert "source file" in done.stdout, done.stdout + done.stderr  # it came to its last line
    wrong = [line for line in done.stdout.splitlines() if ": error: " in line]
    assert not wrong
