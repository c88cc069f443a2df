"""The parts of what crates/command_facts prints: below a line `=== WORD` what the word of its args comes to."""
from pathlib import Path

COMMAND_FACTS = Path(__file__).resolve().parent.parent / "crates" / "command_facts"
HEAD = "=== "


def put_part(crate, word, lines):
    """Puts the lines that a word is to come to in the place of those that stand in stdout."""
    stdout = crate / "stdout"
    parts, part = {}, None
    for line in stdout.read_bytes().decode().removesuffix("\n").split("\n"):
        if line.startswith(HEAD):
            part = parts.setdefault(line[len(HEAD):], [])
        else:
            part.append(line)
    assert word in parts, (word, list(parts))
    parts[word] = list(lines)
    text = "".join(line + "\n" for word, part in parts.items() for line in [HEAD + word, *part])
    stdout.write_bytes(text.encode())
