"""What a run does to the variables and registers of its nodes, cycle by cycle, as `avrora watch` tells it."""
