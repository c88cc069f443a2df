"""A short form of `fuzz_repositories.py`: repositories of a stranger, each with one call of a tool."""
import datetime

import fuzz_repositories

COUNT = 40


def test_nothing_is_found():
    """In repositories that are others each day."""
    seed = datetime.date.today().toordinal()
    findings = []
    fuzz_repositories.run(COUNT, seed, 0, findings.append)
    assert not findings
