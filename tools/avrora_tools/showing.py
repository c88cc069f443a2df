"""Text that came from a file, as a terminal, XML, HTML and VCD may be given it.

Whatever such a text has in it, what is shown moves no cursor, begins no line, turns no direction of writing, hides
nothing and ends no element. Each function takes any text of Python's, also one with surrogates: bytes that are no
UTF-8, or halves of characters.
"""
import html
import json
import os
import re
import shlex
from collections.abc import Iterable

# The name that stands for the standard input, or the standard output.
STANDARD_STREAM = "-"

# Begins a command to some services that run pipelines (GitHub's, Azure's), wherever it stands in a line of their logs.
COMMAND = re.compile(r"##(?=\[|vso\[)", re.IGNORECASE)

# The surrogates that stand for bytes from 0x80 on, in texts that were decoded from bytes that are no UTF-8.
BYTES = range(0xDC80, 0xDD00)


def shown(name: str) -> str:
    """How messages call the file `name`."""
    return "standard input" if name == STANDARD_STREAM else printable(name)


def printable(text: str) -> str:
    """A text on one line, for a terminal or a log. What is not a letter, mark, digit, sign or plain space is told by
    its number: controls, line breaks, marks of direction, characters that do not show, bytes that are no UTF-8
    (`\\xff`); and so is the second sign of what begins a command to who reads the log, such as `##[`."""
    if not text.isprintable():
        text = "".join(character if character.isprintable() else escaped(character) for character in decoded(text))
    return COMMAND.sub(r"#\\x23", text) if "##" in text else text


def printable_lines(text: str) -> str:
    """A text of several lines, each as `printable` has it; for XML's writers too, which see to its marks themselves."""
    return "\n".join(map(printable, text.split("\n")))


def decoded(text: str) -> str:
    """The name of a file is text in UTF-8, whatever encoding the environment names."""
    try:
        return os.fsencode(text).decode("utf-8", "surrogateescape")
    except UnicodeEncodeError:  # it is not a name, or has halves of characters
        return text


def escaped(character: str) -> str:
    number = ord(character)
    if number in BYTES:
        return f"\\x{number - 0xDC00:02x}"
    return f"\\x{number:02X}" if number < 0x100 else f"\\u{number:04X}" if number < 0x1_0000 else f"\\U{number:08X}"


def shell_word(text: str) -> str:
    """A text as one word of a line for bash, which the line may be shown to a terminal or a log with: `$'\\x1B'` has
    what `printable` would tell by its number."""
    if printable(text) == text:
        return shlex.quote(text)
    parts = (
        character if character.isprintable() and character not in "'\\" else in_bytes(character)
        for character in decoded(text)
    )
    return "$'" + COMMAND.sub(r"#\\x23", "".join(parts)) + "'"


def in_bytes(character: str) -> str:
    number = ord(character)
    encoding = bytes([number - 0xDC00]) if number in BYTES else character.encode("utf-8", "surrogatepass")
    return "".join(f"\\x{byte:02X}" for byte in encoding)


def shell_folder(name: str) -> str:
    """A folder as `shell_word` has it, for `cd`, which takes a name with a minus for an option."""
    return shell_word(f"./{name}" if name.startswith("-") else name)


def shell_line(words: Iterable[str]) -> str:
    """A line for bash, as `shell_word` has its words."""
    return " ".join(map(shell_word, words))


def markup(text: str) -> str:
    """A text as HTML, XML and SVG have it, within an element or an attribute in quotes."""
    return html.escape(printable(text), quote=True)


def encoded(text: str) -> bytes:
    """A text as a file in UTF-8 has it."""
    return text.encode("utf-8", "surrogateescape")


def script_data(value: object) -> str:
    """A value in JSON that a script element of HTML may have in it: no text of it ends the element, or begins a
    comment."""
    text = json.dumps(value, separators=(",", ":"))
    return re.sub("[<>&]", lambda match: f"\\u{ord(match[0]):04x}", text)


def vcd_word(text: str) -> str:
    """A text as one word of a value change dump, which is neither a keyword nor a time."""
    return re.sub("[^!-~]|^[$#]", "_", text) or "_"
