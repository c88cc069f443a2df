"""Texts as they are shown: each code point by itself and among others, and texts of any."""
import html.parser
import json
import re
import subprocess
import sys
import unicodedata
import xml.etree.ElementTree

import pytest
from hypothesis import given, settings, strategies

from avrora_tools import showing

EVERY = [chr(number) for number in range(sys.maxunicode + 1)]

# Categories of what moves a cursor, ends a line, turns a direction, is not a character, or does not show.
HIDDEN = ("Cc", "Cf", "Cs", "Zl", "Zp", "Co", "Cn")

ESCAPE = re.compile(r"\\(x[0-9A-Fa-f]{2}|u[0-9A-F]{4}|U[0-9A-F]{8})")

# Any text, and of it much that means something to what shows it.
TEXTS = strategies.text(strategies.characters()) | strategies.text(
    strategies.sampled_from(list("<>&\"'$#\x1b\n\r\u202e\u2028-!/ end"))
)

EXAMPLES = {
    "a": "a",
    "\x1b[31m": "\\x1B[31m",
    "a\r\nb\t": "a\\x0D\\x0Ab\\x09",
    "\x9b\x85\xa0\xad": "\\x9B\\x85\\xA0\\xAD",
    "\u202eexe.\u2066": "\\u202Eexe.\\u2066",
    "\u2028\ufeff\u200b\u200f": "\\u2028\\uFEFF\\u200B\\u200F",
    "\U000e0041": "\\U000E0041",
    "\udcff": "\\xff",
    "\ud800": "\\uD800",
    "ä€日😀é": "ä€日😀é",
}


class Page(html.parser.HTMLParser):
    """The texts and attributes of a page."""

    def __init__(self, text):
        super().__init__(convert_charrefs=True)
        self.tags, self.text = [], ""
        self.feed(text)
        self.close()

    def handle_starttag(self, tag, attributes):
        self.tags.append((tag, attributes))

    def handle_data(self, data):
        self.text += data

    def handle_comment(self, data):
        self.tags.append(("comment", data))

    def handle_decl(self, decl):
        self.tags.append(("declaration", decl))


def is_clean(text):
    """Whether a terminal shows all of a text, on one line."""
    return not any(unicodedata.category(character) in HIDDEN for character in text)


@pytest.mark.parametrize("text, wanted", EXAMPLES.items())
def test_examples(text, wanted):
    assert showing.printable(text) == wanted


@pytest.mark.parametrize("text", ["##[set-output name=a;]b", "a ##vso[task.complete]b", "###[error]", "##[##vso["])
def test_commands_to_who_reads_a_log(text):
    said = showing.printable(text)
    assert "##[" not in said and "##vso[" not in said and said.replace(r"\x23", "#") == text
    assert showing.printable("a ## b ##error #[") == "a ## b ##error #["


def test_each_character_on_a_line():
    for character in EVERY:
        shown = showing.printable(character)
        if unicodedata.category(character) in HIDDEN:
            assert ESCAPE.fullmatch(shown), ascii(character)
        else:
            assert shown == character or not character.isprintable() and ESCAPE.fullmatch(shown), ascii(character)


@settings(deadline=None)
@given(TEXTS)
def test_any_text_on_a_line(text):
    shown = showing.printable(text)
    assert is_clean(shown) and len(shown) >= len(text)
    assert showing.printable(shown) == shown
    shown.encode()


@settings(deadline=None)
@given(TEXTS)
def test_lines(text):
    shown = showing.printable_lines(text)
    assert shown.count("\n") == text.count("\n")
    assert shown.split("\n") == [showing.printable(line) for line in text.split("\n")]


def test_the_standard_input():
    assert showing.shown("-") == "standard input" and showing.shown("a\n") == "a\\x0A"


def test_each_character_in_xml():
    texts = ["".join(EVERY[number : number + 256]) for number in range(0, len(EVERY), 256)]
    text = "".join(f'<a b="{showing.markup(text)}">{showing.markup(text)}</a>' for text in texts)
    parsed = xml.etree.ElementTree.fromstring(f"<all>{text}</all>")
    for element, text in zip(parsed, texts, strict=True):
        assert element.text == element.attrib["b"] == showing.printable(text)


@settings(deadline=None)
@given(TEXTS)
def test_any_text_in_xml(text):
    found = xml.etree.ElementTree.fromstring(f"<a b='{showing.markup(text)}'>{showing.markup(text)}</a>")
    assert found.text or "" == found.attrib["b"] == showing.printable(text)
    assert not list(found)


@settings(deadline=None)
@given(TEXTS)
def test_any_text_in_html(text):
    page = Page(f'<a b="{showing.markup(text)}">{showing.markup(text)}</a>')
    assert page.text == showing.printable(text)
    assert page.tags == [("a", [("b", showing.printable(text))])]


@settings(deadline=None)
@given(
    strategies.recursive(
        TEXTS | strategies.integers(),
        lambda parts: strategies.lists(parts) | strategies.dictionaries(TEXTS, parts),
        max_leaves=8,
    )
)
def test_any_value_in_a_script(value):
    shown = showing.script_data(value)
    assert json.loads(shown) == value
    assert shown.isascii() and not re.search("[<>&\n\r]", shown)


def test_each_character_in_a_script():
    shown = showing.script_data(EVERY)
    assert shown.isascii() and not re.search("[<>&\n\r]", shown) and json.loads(shown) == EVERY


def test_each_character_in_a_dump():
    words = set(map(showing.vcd_word, EVERY))
    assert words == {chr(number) for number in range(0x21, 0x7F)} - {"$", "#"}


@settings(deadline=None)
@given(TEXTS)
def test_any_text_in_a_dump(text):
    shown = showing.vcd_word(text)
    assert re.fullmatch("[!-~]+", shown) and shown[0] not in "$#"
    assert len(shown) == max(1, len(text))


def words_of_bash(line):
    """The words that bash takes a line for, as bytes."""
    done = subprocess.run(
        ["bash", "-c", f"printf '%s\\0' {line}"], capture_output=True, check=True, env={"LC_ALL": "C.UTF-8"}
    )
    return done.stdout.split(b"\0")[:-1]


def test_a_line_for_bash_shows_nothing_and_has_the_same_words():
    words = ["a b", "it's", "\x1b[31m", "a\nb", "\u202eexe", "\udcff", "$(id)", "`id`", "##[x]\x07"]
    words += ["\\x41\x01", "", "-x"]
    words += ["".join(EVERY[first : first + 64]) for first in range(1, 0x400, 64)]
    line = showing.shell_line(words)
    assert line.isprintable() and "##[" not in line
    assert words_of_bash(line) == [showing.encoded(word) for word in words]
    assert showing.shell_word("\ud800\x1b").isprintable()
    assert showing.shell_folder("-x") == "./-x"
