"""Tools that read what the simulator avrora wrote: traces, states and scenarios. The command is `avrora-tools`."""

__version__ = "0.1.0"
