"""The manual pages of a release, made from the documents' own texts: parts of Markdown documents as roff for man."""
import re
from collections.abc import Iterable, Iterator
from typing import NamedTuple


class Page(NamedTuple):
    """A manual page, with what is known of it beside its parts."""

    name: str
    section: int
    about: str
    see_also: tuple[str, ...]

    def path(self) -> str:
        return f"share/man/man{self.section}/{self.name}.{self.section}"


MAIN = Page("avrora", 1, "simulate a network of sensor nodes", ("avrora-tools(1)", "avrora-scenario(5)", "avrora-trace(5)"))
TOOLS = Page("avrora-tools", 1, "read what the simulator avrora wrote", ("avrora(1)", "avrora-scenario(5)", "avrora-trace(5)"))
SCENARIO = Page("avrora-scenario", 5, "which network the simulator avrora runs", ("avrora(1)", "avrora-trace(5)"))
TRACE = Page("avrora-trace", 5, "what the simulator avrora writes", ("avrora(1)", "avrora-scenario(5)"))


class NoSuchPart(Exception):
    """A heading, or a sentence, that a document no longer has."""


def part(text: str, heading: str) -> str:
    """What stands below a heading of a document, up to the next one of its rank or above."""
    rank = heading.count("#")
    found = re.search(rf"^{re.escape(heading)}$\n(.*?)(?=^#{{1,{rank}}} |\Z)", blanked(text), re.M | re.S)
    if not found:
        raise NoSuchPart(f"a manual page is made from the part `{heading}`, which no document has")
    return text[found.start(1) : found.end(1)].strip("\n")


def blanked(text: str) -> str:
    """A text whose blocks of code have no headings: their comments begin with # too."""
    return re.sub(r"^(```.*?^```$)", lambda it: it[1].replace("#", " "), text, flags=re.M | re.S)


def first_paragraph(text: str, without: str) -> str:
    """The first paragraph of a document below its title, up to the sentence that begins with these words."""
    found, begins, _ = text.split("\n\n")[1].partition(f" {without} ")
    if not begins:
        raise NoSuchPart(f"a description ends before a sentence `{without} ..`, which the first paragraph does not have")
    return found


def bold_paragraph(text: str, begins: str) -> str:
    """The paragraph of a document that begins with these words in bold, without them."""
    found = re.search(rf"^\*\*{re.escape(begins)}\*\* (.*)$", text, re.M)
    if not found:
        raise NoSuchPart(f"a manual page is made from the paragraph `{begins}`, which no document has")
    return found[1]


def made(page: Page, release: str, date: str, parts: Iterable[tuple[str, str]]) -> bytes:
    """The page with these parts, each a heading and its Markdown."""
    lines = [f'.TH {page.name.upper()} {page.section} "{date}" "avrora {release}"', ".nh", ".SH NAME", rf"{page.name} \- {page.about}"]
    for heading, markdown in parts:
        lines += [f'.SH "{heading.upper()}"', *roff(markdown)]
    also = ", ".join(rf"\fB{name}\fR({section}" for name, section in (it.split("(") for it in page.see_also))
    return "\n".join([*lines, '.SH "SEE ALSO"', also, ""]).encode()


def roff(markdown: str) -> Iterator[str]:
    """Markdown as lines of roff."""
    lines = markdown.split("\n")
    while lines:
        line = lines[0]
        if line.startswith("```"):
            end = lines.index("```", 1)
            yield from code(lines[1:end])
            del lines[: end + 1]
        elif line.startswith("    "):
            yield from code(it[4:] for it in taken(lines, lambda it: it.startswith("    ") or not it.strip()))
        elif line.startswith("|"):
            yield from table([cells(it) for it in taken(lines, lambda it: it.startswith("|"))])
        elif line.startswith("#"):
            yield f'.SS "{line.lstrip("# ")}"'
            del lines[0]
        elif line.startswith("- "):
            del lines[0]
            more = taken(lines, lambda it: it.startswith("  ") and it.strip() != "")
            yield from (r".IP \(bu 2", running(" ".join(map(str.strip, [line[2:], *more]))))
        elif line.startswith("!["):
            del lines[0]
        elif line.strip():
            yield from (".PP", running(" ".join(taken(lines, lambda it: it.strip() and not it.startswith(("|", "```", "#", "- "))))))
        else:
            del lines[0]


def taken(lines: list[str], is_of_it) -> list[str]:
    """Takes the lines from the front that belong together."""
    count = next((number for number, it in enumerate(lines) if not is_of_it(it)), len(lines))
    found = lines[:count]
    del lines[:count]
    return found


def code(lines: Iterable[str]) -> list[str]:
    """Lines as they stand."""
    shown = "\n".join(lines).strip("\n").split("\n")
    return [".PP", ".RS 4", ".EX", *(guarded(escaped(it).replace("-", r"\-")) for it in shown), ".EE", ".RE"]


def cells(line: str) -> list[str]:
    """The cells of a row of a table."""
    return [it.strip().replace(r"\|", "|") for it in re.split(r"(?<!\\)\|", line.strip())[1:-1]]


def table(rows: list[list[str]]) -> Iterator[str]:
    """A table as a list: no terminal is wide enough for the columns of some. A row's first cells are what it tells of."""
    heads, body = rows[0], rows[2:]
    half = len(heads) // 2
    if len(heads) % 2 == 0 and heads[:half] == heads[half:]:  # one table beside its other half
        heads, body = heads[:half], [it[:half] for it in body] + [it[half:] for it in body]
    keys = 1 if len(heads) == 2 else 2
    for row in filter(any, body):
        key = ": ".join(filter(None, row[:keys]))
        told = list(filter(lambda it: it[1], zip(heads[keys:], row[keys:])))
        text = told[0][1] if len(told) == 1 else "; ".join(f"{head}: {cell}" if head else cell for head, cell in told)
        yield from (".TP", running(key), running(text) if text else r"\&")


def running(text: str) -> str:
    """Running text: links as their words; what is code or stressed in bold."""
    pieces = re.split(r"(`[^`]+`|\*\*[^*]+\*\*|\[[^\]]*\]\([^)\s]*\)|(?<![\w*])\*[^*\s][^*]*\*(?![\w*]))", text.strip())
    return guarded("".join(map(piece, pieces)))


def piece(text: str) -> str:
    if re.fullmatch(r"`[^`]+`", text):
        return r"\fB" + escaped(text[1:-1]).replace("-", r"\-") + r"\fR"
    if re.fullmatch(r"\*\*[^*]+\*\*", text):
        return r"\fB" + escaped(text[2:-2]) + r"\fR"
    if link := re.fullmatch(r"\[([^\]]*)\]\([^)]*\)", text):
        return escaped(link[1])
    if re.fullmatch(r"\*[^*]+\*", text):
        return r"\fI" + escaped(text[1:-1]) + r"\fR"
    return escaped(text)


def escaped(text: str) -> str:
    """A text without what roff takes for a command of its own."""
    return text.replace("\\", r"\e").replace("'", r"\(aq").replace("^", r"\(ha").replace("~", r"\(ti")


def guarded(line: str) -> str:
    """A line that roff does not take for a request."""
    return rf"\&{line}" if line.startswith((".", "'")) else line


def of_usage(text: str) -> tuple[str, str]:
    """The synopsis, and the commands as a table in Markdown, of the usage that a launcher writes."""
    synopsis = text.split("\n", 1)[0].removeprefix("Usage: ")
    # what a command does may go on in lines that are set in further
    commands = re.findall(r"^  (\S.*?)  +(\S.*(?:\n {3,}\S.*)*)$", text, re.M)
    rows = "\n".join(f"| `{words}` | {' '.join(what.split())} |" for words, what in commands)
    return f"`{synopsis}`", f"| Command | Does |\n|---|---|\n{rows}"


def headed_table(text: str, head: str) -> str:
    """The table of a document whose first row begins with this head."""
    found = re.search(rf"^\| {re.escape(head)} \|.*\n(?:\|.*\n)*", text, re.M)
    if not found:
        raise NoSuchPart(f"a manual page is made from the table `{head}`, which no document has")
    return found[0].rstrip("\n")
