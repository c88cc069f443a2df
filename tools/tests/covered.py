"""Which part of the package's lines the tests execute, measured through all processes that they start.

    covered.py [WORDS]    WORDS go to pytest; the last line tells the whole

Status: that of pytest; 1 too where less than 90 % are executed."""
import os
import subprocess
import sys
import tempfile
from pathlib import Path

TOOLS = Path(__file__).resolve().parent.parent
LEAST = 90

# Python imports this first in each process: the tools end by os._exit, at which nothing else would be kept.
SITE = """
import os
try:
    import coverage
except ImportError:  # of another Python, which a test starts
    coverage = None

leave = os._exit


def keep_and_leave(status):
    current = coverage.Coverage.current()
    if current:
        current.stop()
        current.save()
    leave(status)


if coverage:
    os.environ.setdefault("COVERAGE_PROCESS_START", {config!r})
    coverage.process_startup()
    os._exit = keep_and_leave
"""

CONFIG = """[run]
parallel = true
data_file = {folder}/data
source = avrora_tools
"""


def main() -> int:
    with tempfile.TemporaryDirectory(prefix="avrora-covered-") as folder:
        config = Path(folder) / "config"
        config.write_text(CONFIG.format(folder=folder))
        (Path(folder) / "sitecustomize.py").write_text(SITE.format(config=str(config)))
        environment = {**os.environ, "COVERAGE_PROCESS_START": str(config)}
        environment["PYTHONPATH"] = os.pathsep.join(filter(None, [folder, os.environ.get("PYTHONPATH", "")]))
        words = [sys.executable, "-B", "-m", "pytest", "-q", "-p", "no:cacheprovider", *sys.argv[1:]]
        status = subprocess.run(words, cwd=TOOLS, env=environment, check=False).returncode
        for step in (
            ["combine", "-q"],
            ["report", "--skip-covered", f"--include={TOOLS}/avrora_tools/*", f"--fail-under={LEAST}"],
        ):
            words = [sys.executable, "-m", "coverage", step[0], f"--rcfile={config}", *step[1:]]
            done = subprocess.run(words, cwd=TOOLS, env=os.environ, check=False).returncode
            status = status or done and 1
    return status


if __name__ == "__main__":
    if sys.argv[1:2] in (["--help"], ["-h"]):
        sys.exit(print(__doc__))
    sys.exit(main())
