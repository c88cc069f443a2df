"""The colours of all pages and pictures, for light and for dark, told apart also by who sees no red or no green: those
of Okabe and Ito, as dark or as light as the paper wants. No picture tells anything by colour alone."""
from collections.abc import Iterable
from typing import NamedTuple


class Colour(NamedTuple):
    """On light paper and on dark."""

    light: str
    dark: str


COLOURS = {
    "paper": Colour("#ffffff", "#14171c"),
    "panel": Colour("#f4f6f8", "#1e232b"),
    "ink": Colour("#1a1f26", "#e7eaee"),
    "faint": Colour("#55606e", "#a4afbd"),
    "rule": Colour("#d9dee5", "#363e49"),
    "link": Colour("#005a9c", "#7cc0f4"),
    "focus": Colour("#cc4778", "#f0a0c8"),
    # what nodes do
    "sent": Colour("#0072b2", "#4aa3df"),
    "heard": Colour("#00805c", "#2fc29a"),
    "clash": Colour("#c74c00", "#ff8b47"),
    "quiet": Colour("#aeb6c1", "#5d6877"),
    "serial": Colour("#553c00", "#ffe38f"),
    "asleep": Colour("#d5dcea", "#2d3950"),
    "enter": Colour("#a0447a", "#e291bf"),
    "track": Colour("#5b4bb0", "#b3a6f7"),
    "window": Colour("#d9a400", "#f0c93a"),
    "closed": Colour("#7f5539", "#c99b77"),
    "stopped": Colour("#e3e5e9", "#2b2f37"),
    "stop": Colour("#000000", "#ffffff"),
    # what draws current
    "awake": Colour("#c74c00", "#ff8b47"),
    "sending": Colour("#0072b2", "#4aa3df"),
    "listening": Colour("#56b4e9", "#8fd0f5"),
    "resting": Colour("#a9b8d0", "#5a6c8c"),
    "off": Colour("#cfc9ae", "#77735f"),
    "unknown": Colour("#c8ccd2", "#4c535e"),
    # what came of a run
    "good": Colour("#00805c", "#2fc29a"),
    "bad": Colour("#c74c00", "#ff8b47"),
    "broken": Colour("#a0447a", "#e291bf"),
    # how well a link does, from nothing to all
    "link0": Colour("#a83200", "#ff7a3d"),
    "link1": Colour("#d9820f", "#f0a94e"),
    "link2": Colour("#8f8a1d", "#d9d35c"),
    "link3": Colour("#3f8fc4", "#6db9ea"),
    "link4": Colour("#00497a", "#b5dcf7"),
    "unused": Colour("#a2a9b3", "#646d79"),
    "coat": Colour("#fff3e6", "#3a2a1d"),
}

DARK = "@media screen and (prefers-color-scheme:dark)"


def variables() -> str:
    """All colours as variables of CSS; print is light."""
    light = "".join(f"--{name}:{colour.light};" for name, colour in COLOURS.items())
    dark = "".join(f"--{name}:{colour.dark};" for name, colour in COLOURS.items())
    return f":root{{color-scheme:light dark;{light}}}\n{DARK}{{:root:not(.printing){{{dark}}}}}\n"


# A rule of a picture's style: what it is of, the property, the name of a colour.
Rule = tuple[str, str, str]


def style(rules: Iterable[Rule], more: str = "") -> str:
    """The style of a picture that stands for itself."""
    every = list(rules)
    light = "".join(f"{of}{{{key}:{COLOURS[name].light}}}" for of, key, name in every)
    dark = "".join(f"{of}{{{key}:{COLOURS[name].dark}}}" for of, key, name in every)
    return f"<style>{light}{more}\n{DARK}{{{dark}}}</style>"


def rules(selectors: Iterable[Rule]) -> str:
    """The same rules for a picture within a page, by the page's variables."""
    return "".join(f"{of}{{{key}:var(--{name})}}" for of, key, name in selectors)
