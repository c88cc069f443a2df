"""What can be run by hand here says what it does, and does nothing, where it is asked for its help."""
import pathlib
import subprocess
import sys

import pytest

HERE = pathlib.Path(__file__).resolve().parent
SCRIPTS = sorted(path.name for path in HERE.glob("*.py") if '__name__ == "__main__"' in path.read_text())


def test_all_are_found():
    assert {"covered.py", "fuzz_repositories.py", "second_matcher.py"} <= set(SCRIPTS)


@pytest.mark.parametrize("name", [name for name in SCRIPTS if not name.startswith("test_")])
def test_help(name, tmp_path):
    words = [sys.executable, "-B", str(HERE / name), "--help"]
    done = subprocess.run(words, cwd=tmp_path, capture_output=True, text=True, timeout=120, check=False)
    assert (done.returncode, done.stderr) == (0, "") and len(done.stdout.splitlines()) > 2
    assert not list(tmp_path.iterdir())
