"""The hunt: varies a scenario in the ways in which the field does, and tells which ways break it, as small as they
still do.

`changes` says what can be varied and `kinds` draws it, `trials` makes the runs, `oracles` judges them, `hunt` gives
each kind its turns, `races` sweeps arrivals where handler and main share something, `causes` groups what failed,
`smaller` makes a failing scenario small, `corpus` keeps it and `telling` tells it."""
