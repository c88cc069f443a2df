"""Elements of HTML. What is text becomes text, whatever is in it (`showing`); what is HTML has a type of its own."""
from collections.abc import Iterable

from avrora_tools import showing


class Html(str):
    """A text that is HTML."""


Content = str | int | Html

EMPTY = frozenset(("br", "hr", "img", "input", "meta", "rect", "line", "circle", "path", "use", "wbr"))


def html(content: Content) -> Html:
    """Anything as HTML: a text is escaped, and what does not show in it is told by its number."""
    if isinstance(content, Html):
        return content
    return Html(f"{content:,}" if isinstance(content, int) else showing.markup(content))


def joined(contents: Iterable[Content], between: str = "") -> Html:
    return Html(between.join(map(html, contents)))


def tag(element: str, /, *contents: Content, **attributes: str | int | float | bool | None) -> Html:
    """An element. A name of an attribute that is a word of Python has _ behind it, and _ stands for -; an attribute
    that is None or False is left out."""
    words = [element]
    for key, value in attributes.items():
        key = key.rstrip("_").replace("_", "-")
        if value is True:
            words.append(key)
        elif value is not None and value is not False:
            words.append(f'{key}="{showing.markup(str(value))}"')
    opened = f"<{' '.join(words)}>"
    return Html(opened if element in EMPTY else f"{opened}{joined(contents)}</{element}>")


def lines(text: str) -> Html:
    """A text of several lines, for an element that keeps them."""
    return joined((html(line) for line in text.split("\n")), "\n")


def code(text: str) -> Html:
    return tag("code", text)
