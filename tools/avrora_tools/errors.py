"""How a tool ends: the exit statuses, and an exception for each way to fail. The text of one is a line for the user."""
import enum


class Status(enum.IntEnum):
    """The exit statuses of all subcommands."""

    GOOD = 0
    NOT_MET = 1  # a check is not met: a row that was to come did not, two states differ, a scenario has a fault
    BAD_INPUT = 2  # a file, a value or a word is not what it should be
    CANNOT_WORK = 3  # the tool itself could not do its work: a full disk, no permission, a fault of the tool


class ToolError(Exception):
    """What ends a tool with a line on the standard error and a status."""

    status = Status.CANNOT_WORK


class BadInput(ToolError):
    """A file or a value that is not what it should be. The text names it and says what is wrong."""

    status = Status.BAD_INPUT


class BadWords(ToolError):
    """Words of the command line that a tool does not take."""

    status = Status.BAD_INPUT


class CannotWork(ToolError):
    """The tool could not do its work, whatever its input: the disk is full, a package or a program is missing."""
