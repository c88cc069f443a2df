"""Pages and pictures that a person reads: of one run, and of many."""
