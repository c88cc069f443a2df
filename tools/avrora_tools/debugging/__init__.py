"""gdb's remote protocol over finished runs: a position is a cycle; all else is asked of the simulator again."""
