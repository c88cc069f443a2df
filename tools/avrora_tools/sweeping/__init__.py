"""Sweeps: one event, or two, moved cycle by cycle through a run, and each run checked.

`events` says what moves and makes the scenario of a move; `simulation` runs it; `arrivals` tells which arrivals of a
byte make one execution; `sharing` what handlers and main both use; `plans` in which order runs are made; `verdicts`
checks them; `findings` groups what failed; `evidence` tells where a failing run parts from one that passes. """
