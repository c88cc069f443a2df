"""What `.ci/run` does beside the gate: it looks at the machine, installs what tests need, runs what comes before, and
counts."""
