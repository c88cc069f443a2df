"""What documents tell of a trial of a release: it names its commit, and what it tried has not changed since."""
import re
import subprocess
from pathlib import Path
from typing import Iterator

# How a document tells it, as the last line of scripts/test_bare does.
TRIAL = re.compile(r"\d+ checks, \d+ not met")
COMMIT = re.compile(r"\bcommit `?([0-9a-f]{7,40})\b")

# What a trial is of: where one of these changed, it says nothing of what stands here.
TRIED = ("examples", "avrora", "avrora-tools", "scripts/launcher.sh", "scripts/releases", "scripts/test_bare")


def git(top: Path, *words: str) -> tuple[int, str]:
    done = subprocess.run(
        ["git", *words], cwd=top, stdin=subprocess.DEVNULL, capture_output=True, text=True, check=False
    )
    return done.returncode, done.stdout


def why_past(top: Path, paragraph: str) -> str | None:
    """Why what a paragraph tells of a trial says nothing of this commit, if so."""
    named = COMMIT.search(paragraph)
    if not named:
        return "it tells of a trial, and not of which commit"
    commit = named[1]
    if git(top, "rev-parse", "-q", "--verify", f"{commit}^{{commit}}")[0]:
        return f"it tells of a trial of commit {commit}, which is none of this repository"
    changed = git(top, "diff", "--name-only", commit, "--", *TRIED)[1].splitlines()
    return (
        f"it tells of a trial of commit {commit}, and {changed[0]} changed since: try again, or tell of none"
        if changed
        else None
    )


def wrong(top: Path, path: str, text: str) -> Iterator[str]:
    """What is past or of no commit in a document."""
    for number, line in enumerate(text.splitlines(), 1):
        if TRIAL.search(line) and (why := why_past(top, line)):
            yield f"{path}:{number}: {why}"
