"""Reads a page of the tools back: its elements, its tables, its data, its policy."""
import base64
import hashlib
import html.parser
import json
import re

VOID = {"meta", "input", "br", "hr", "rect", "line", "circle", "path", "img", "link"}

# What would fetch something, or run what the policy does not name.
FETCHING = {"link", "img", "iframe", "object", "embed", "video", "audio", "source", "base", "form"}


class Page(html.parser.HTMLParser):
    def __init__(self, text):
        super().__init__()
        self.text = text
        self.open, self.tags, self.attributes = [], [], []
        self.tables, self.data, self.ids, self.links = {}, {}, [], []
        self.script = self.style = self.policy = ""
        self.table, self.row, self.said = None, None, {}
        self.feed(text)
        self.close()
        assert not self.open or set(self.open) <= {"html", "body"}, self.open  # whose ends may be left out

    def handle_starttag(self, tag, attributes):
        named = dict(attributes)
        self.tags.append(tag)
        self.attributes += attributes
        if tag not in VOID:
            self.open.append(tag)
        if "id" in named:
            self.ids.append(named["id"])
        if tag == "a":
            self.links.append(named.get("href"))
        if named.get("http-equiv") == "Content-Security-Policy":
            self.policy = named["content"]
        if tag == "table":
            self.table = self.tables.setdefault(named.get("id", f"table {len(self.tables)}"), [])
        elif tag == "tr" and self.table is not None:
            self.table.append([])
        elif tag in ("td", "th") and self.table:
            self.table[-1].append("")
        elif tag == "script":
            self.kind = named.get("id", "")

    def handle_startendtag(self, tag, attributes):
        self.handle_starttag(tag, attributes)
        if tag not in VOID:
            self.handle_endtag(tag)

    def handle_endtag(self, tag):
        if tag in VOID:
            return
        while self.open and self.open[-1] in ("head",) and tag != "head":
            self.open.pop()
        assert self.open and self.open[-1] == tag, (tag, self.open[-3:], self.getpos())
        self.open.pop()
        if tag == "table":
            self.table = None

    def handle_data(self, data):
        inside = self.open[-1:] and self.open[-1]
        if inside == "script":
            if self.kind:
                self.data[self.kind] = json.loads(data)
            else:
                self.script += data
        elif inside == "style":
            self.style += data
        elif self.table and self.table[-1] and {"td", "th"} & set(self.open):
            self.table[-1][-1] += data

    def column(self, table, title):
        """The cells of a column of a table, by its title."""
        head, *rows = self.tables[f"table-{table}"]
        return [row[head.index(title)] for row in rows]


def number(text):
    return int(text.replace(",", ""))


def check_policy(page):
    """The page names its script and its style by their hashes, fetches nothing, and has nothing that runs elsewhere."""
    hashes = [
        "'sha256-" + base64.b64encode(hashlib.sha256(part.encode()).digest()).decode() + "'"
        for part in (page.style, page.script)
    ]
    assert page.policy.startswith("default-src 'none';")
    assert f"style-src {hashes[0]}" in page.policy and f"script-src {hashes[1]}" in page.policy
    assert "unsafe" not in page.policy and "http" not in page.policy
    assert not FETCHING & set(page.tags) and page.tags.count("style") == 1
    assert not [name for name, _ in page.attributes if name.startswith("on") or name in ("style", "src")]
    assert not [link for link in page.links if not link.startswith("#")]
    assert not re.search(r"@import|url\((?!#)", page.style)
    assert len(page.ids) == len(set(page.ids))
    for link in page.links:
        assert re.fullmatch(r"#\d+(@\d+)?", link) or link[1:] in page.ids, link
