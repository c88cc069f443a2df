"""How long the sentences of a document are, and which are too long.

A sentence is counted as a reader meets it: a piece of code in backquotes is one word, and a link counts by its text. Blocks of
code, tables, headings and pictures are not sentences. A sentence ends with the paragraph or the item of a list that it stands in.
"""
import re
from typing import Iterator, NamedTuple

# The most words of a sentence, and of all sentences of a document on the mean.
MOST_WORDS = 45
MOST_MEAN = 25.0

FENCE = re.compile(r"^(```|~~~).*?^\1[^\n]*$", re.M | re.S)
COMMENT = re.compile(r"<!--.*?-->", re.S)
# Lines that hold no sentence: a heading, a row of a table, a picture, code that is set in by four columns below an empty line.
NO_PROSE = re.compile(r"^(?:#|\s*\||\s*!\[)")
SET_IN = re.compile(r"^(?: {4}|\t)\S")
ITEM = re.compile(r"^\s*(?:[-*+]|\d+\.)\s+")

CODE = re.compile(r"(`+)(?!`).*?(?<!`)\1(?!`)", re.S)
LINK = re.compile(r"\[([^\]]*)\]\([^)\s]*\)")
MARKS = re.compile(r"\*\*|[*_](?=\S)|(?<=\S)[*_]")

# What a piece of code is counted as.
CODE_WORD = "Code"

# A sentence ends with a point, a question mark or an exclamation mark, and what closes behind it, before a space. Two
# points are an ellipsis, and a point behind these is no end.
END = re.compile(r"(?<!\.)[.?!][)\"'”]*(?=\s|$)")
SHORT = re.compile(r"(?:\b(?:e\.g|i\.e|etc|vs|cf|no|[A-Z]))\.$")

WORD = re.compile(r"[^\W_]")


class Sentence(NamedTuple):
    """A sentence, with the line where it begins and how many words it has."""

    line: int
    words: int
    text: str


def blanked(text: str, pattern: re.Pattern[str]) -> str:
    """The text without what matches, with as many lines."""
    return pattern.sub(lambda it: "\n" * it[0].count("\n"), text)


def blocks(text: str) -> Iterator[tuple[int, list[str]]]:
    """The paragraphs and the items of lists: the line where each begins, and its lines."""
    found: list[str] = []
    begins = 0
    is_code = was_empty = False
    for number, line in enumerate(blanked(blanked(text, FENCE), COMMENT).splitlines(), 1):
        # what is set in below an empty line goes on as code; below a line of an item it is the item's
        is_code = bool(SET_IN.match(line)) and (is_code or (was_empty and not found))
        ends = not line.strip() or is_code or NO_PROSE.match(line)
        if found and (ends or ITEM.match(line)):
            yield begins, found
            found = []
        if not ends:
            if not found:
                begins = number
            found.append(ITEM.sub("", line))
        was_empty = not line.strip()
    if found:
        yield begins, found


def plain(text: str) -> str:
    """A paragraph as it is read: code and links as words, without marks, with its line breaks."""
    text = CODE.sub(lambda it: CODE_WORD + "\n" * it[0].count("\n"), text)
    return MARKS.sub("", LINK.sub(lambda it: it[1], text))


def split(text: str) -> Iterator[tuple[int, str]]:
    """The sentences of a paragraph, each with the place where it begins."""
    begins = 0
    for end in END.finditer(text):
        if not SHORT.search(text[begins : end.start() + 1]):
            yield begins, text[begins : end.end()]
            begins = end.end()
    yield begins, text[begins:]


def sentences(text: str) -> Iterator[Sentence]:
    """The sentences of a document."""
    for begins, lines in blocks(text):
        paragraph = plain("\n".join(lines))
        for place, said in split(paragraph):
            words = [it for it in said.split() if WORD.search(it)]
            if words:
                lead = len(said) - len(said.lstrip())
                yield Sentence(begins + paragraph.count("\n", 0, place + lead), len(words), " ".join(said.split()))


def mean(found: list[Sentence]) -> float:
    """How many words a sentence has on the mean."""
    return sum(it.words for it in found) / len(found) if found else 0.0


def wrong(path: str, text: str) -> Iterator[str]:
    """What is too long in a document."""
    found = list(sentences(text))
    for it in found:
        if it.words > MOST_WORDS:
            yield f"{path}:{it.line}: a sentence of {it.words} words, {MOST_WORDS} are the most: {it.text[:60]}.."
    if mean(found) > MOST_MEAN:
        yield f"{path}: its sentences have {mean(found):.1f} words on the mean, {MOST_MEAN:.0f} are the most"
