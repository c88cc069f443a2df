#!/usr/bin/env python3
"""What scripts/check_docs.py checks of the maps in docs/ARCHITECTURE.md and docs/CASES.md, and of the indexes of lemmas, by the
repository's files alone.

Each check takes the repository and yields a line for whatever is wrong. A check that found nothing to look at is wrong too: its
document or its list has changed so much that it checks nothing any more.

    scripts/doc_maps.py NAME..    prints the lists that docs/ARCHITECTURE.md calls *all NAME*: a file a line, with what to do there

Exit status: 0 they are printed, 2 there is no such list, and a line names those that there are.
"""
import fnmatch
import functools
import re
import sys
import tomllib
from pathlib import Path

import lemmas

ARCHITECTURE, CASES, PLACES = "docs/ARCHITECTURE.md", "docs/CASES.md", "scripts/places.toml"
FORMS, TOP_CALL, FORMATS = "crates/command_words/src/command.rt", "crates/commands/src/alone.rt", "docs/FORMATS.md"
ARGS, RUNNER, DATA = "crates/command_facts/args", "crates/command_facts/src/main.rt", "crates/command_facts/data/"

SPAN = re.compile(r"`([^`\n]+)`")
FILE = re.compile(r"[\w./-]+\.(?:rt|py|txt|cases|toml|sh|antt)")
SPECS = re.compile(r"(\w+)/specs/(\w+(?:/\w+)*)")
FUNCTION = re.compile(r"[a-z_][a-z0-9_]*")
LEADS = re.compile(r"\*all (\w+)\*")
SOURCE = r"`([\w./]+\.rt|\w+/specs/[\w/]+|[A-Z][\w/]+)`"
OF = re.compile(r"`(\w+)`((?:, `\w+`)*) of " + SOURCE)
BEHIND = re.compile(r"`(?:\w+::)*(\w+)` \(`([\w./]+\.rt)`")
WITHIN = re.compile(SOURCE + r" \((?:[a-z ]+: )?(`\w+`(?:, `\w+`)*)\)")
FORM = re.compile(r"^ */// `([a-z]+ [^`]+)`: ", re.M)
FORM_ROW = re.compile(r"^(?:/// )?\| `([a-z]+ [^`]+)` \| ", re.M)
CASE_WORD = re.compile(r"`(\w+)(=?)`")
WILD = re.compile(r"[*?\[]")

# How many files a list may except: where more match that no change touches, the patterns are too wide.
MOST_OTHERS = 15


@functools.lru_cache(maxsize=None)
def paths_of(glob, paths):
    return tuple(fnmatch.filter(paths, glob))


@functools.lru_cache(maxsize=None)
def occurs(pattern, text):
    """Whether a pattern matches in a text; the tests ask it of the same texts over and over."""
    return re.search(pattern, text, re.M) is not None


class Repository:
    """The files of a repository by path, and their texts."""

    def __init__(self, top, paths):
        self.top, self.paths, self.known = top, paths, {}

    def text(self, path):
        if path not in self.known:
            self.known[path] = (self.top / path).read_text(encoding="utf-8", errors="ignore")
        return self.known[path]

    def has_word(self, path, word):
        return re.search(rf"\b{re.escape(word)}\b", self.text(path)) is not None

    def matching(self, globs):
        """The files that one of the globs matches."""
        return sorted({path for it in globs for path in paths_of(it, tuple(self.paths))})

    def ending(self, end, crates=()):
        """The files that a path, with or without the folders above it, names; of these crates, if there are any."""
        found = [path for path in self.paths if path == end or path.endswith("/" + end)]
        return [path for path in found if path.split("/")[1] in crates] if crates else found

    def crates(self):
        """The crates of crates.txt, each with those that it uses."""
        lines = [line.partition("#")[0] for line in self.text("crates.txt").splitlines()]
        return {name.strip(): set(uses.split()) for name, colon, uses in (line.partition(":") for line in lines) if colon}


def tables(text):
    """The tables of a document: each with the cells of its head, and of its rows."""
    for block in re.findall(r"(?:^\|.*\n)+", text, re.M):
        rows = [[cell.strip() for cell in line.strip().strip("|").split(" | ")] for line in block.splitlines()]
        yield rows[0], rows[2:]


def rows_of(text, head):
    """The rows of the tables that have this head."""
    return [row for names, rows in tables(text) if names == head for row in rows]


# The lists of all places.


def found_by(repo, where, search):
    """The files that a search finds, and what is wrong with it."""
    wrong = [f"{where}: there is no file {it}" for it in search["among"] if not repo.matching([it])]
    found = {path for path in repo.matching(search["among"]) if occurs(search["pattern"], repo.text(path))}
    if not found:
        wrong.append(f"{where}: nothing matches {search['pattern']}")
    return found, wrong


def names_of(repo, where, places):
    """What is wrong with the places of a list by themselves."""
    for path, what in places.items():
        if path not in repo.paths:
            yield f"{where}: there is no file {path}"
            continue
        yield from (f"{where}: {path} has no `{word}`" for word in SPAN.findall(what) if not repo.has_word(path, word) and word not in path)


def others_of(where, rest, others):
    """What is wrong with the files that match and are not places: `rest` are those that match and stand under no places."""
    yield from (f"{where}: {it} is a wildcard, and hides each file that comes there" for it in others if WILD.search(it))
    if len(others) > MOST_OTHERS:
        yield f"{where}: of {len(others)} files that match nothing is to be changed: its patterns match too much"
    yield from (f"{where}: {it} matches, and stands under no places and no others" for it in sorted(rest - others.keys()))
    yield from (f"{where}: {it} is excepted, and nothing there matches" for it in others if it not in rest)


def places_of(repo, name, listed):
    """What is wrong with one list of places."""
    where, found = f"{PLACES} [{name}]", set()
    for search in listed["search"]:
        more, wrong = found_by(repo, where, search)
        found |= more
        yield from wrong
    places = listed["places"]
    yield from names_of(repo, where, places)
    yield from (f"{where}: no search finds {it}" for it in places if it in repo.paths and it not in found)
    yield from others_of(where, found - places.keys(), listed.get("others", {}))


def places(repo):
    """The lists of all places are whole, and the table of changes leads to each."""
    lists = tomllib.loads(repo.text(PLACES))
    if not lists:
        yield f"{PLACES}: there is no list"
    for name, listed in lists.items():
        yield from places_of(repo, name, listed)
    yield from (f"{ARCHITECTURE}: there is no list [{name}] in {PLACES}" for name in LEADS.findall(repo.text(ARCHITECTURE)) if name not in {*lists, "NAME"})
    led = {(name, row[0]) for row in changes(repo) for name in LEADS.findall(" ".join(row))}
    for name, listed in lists.items():
        if (name, listed["change"]) not in led:
            yield f"{ARCHITECTURE}: no row of the changes is \"{listed['change']}\" and says *all {name}*"


# What the table of changes names.


def changes(repo):
    return rows_of(repo.text(ARCHITECTURE), ["To change", "Definition", "Code, and what else"])


def crates_of(repo, row):
    """The crates that a row names."""
    words = set(re.findall(r"\w+", " ".join(row)))
    return {name for name in repo.crates() if name in words}


def definitions(repo, row):
    """Each definition of a row is a file: `CRATE/specs/Name`, or a name alone behind such a one, of the same crate."""
    crate = None
    for span in SPAN.findall(re.sub(r"\([^)]*\)", "", row[1])):
        if it := SPECS.fullmatch(span):
            crate = it[1]
            if f"crates/{crate}/specs/{it[2]}.antt" not in repo.paths:
                yield f"{ARCHITECTURE}: \"{row[0]}\": there is no {span}"
        elif crate and span[0].isupper() and "*" not in span and f"crates/{crate}/specs/{span}.antt" not in repo.paths:
            yield f"{ARCHITECTURE}: \"{row[0]}\": {crate} defines no {span}"


def code(repo, row):
    """Each file of a row is one of the crates that it names, or stands elsewhere by its path; each function is in these crates."""
    crates = crates_of(repo, row)
    own = [path for path in repo.paths if path.startswith("crates/") and path.split("/")[1] in crates and path.endswith((".rt", ".antt"))]
    for span in SPAN.findall(" ".join(row[1:])):
        if FILE.fullmatch(span):
            if not repo.ending(span, crates if span.endswith(".rt") else ()):
                yield f"{ARCHITECTURE}: \"{row[0]}\": no crate that it names has {span}"
        elif FUNCTION.fullmatch(span) and "_" in span and span not in repo.crates() and not any(repo.has_word(path, span) for path in own):
            yield f"{ARCHITECTURE}: \"{row[0]}\": no crate that it names has {span}"


def within(repo):
    """`NAME` of `FILE`, `NAME` (`FILE`), `FILE` (`NAME`, ..): the name is in the file. A definition may stand without its folder."""
    text, count = repo.text(ARCHITECTURE), 0
    pairs = [(it[3], SPAN.findall(f"`{it[1]}`{it[2]}")) for it in OF.finditer(text)]
    pairs += [(it[1], SPAN.findall(it[2])) for it in WITHIN.finditer(text)] + [(it[2], [it[1]]) for it in BEHIND.finditer(text)]
    for file, words in pairs:
        paths = repo.ending(file if file.endswith(".rt") else file + ".antt")
        for word in words if paths else []:
            count += 1
            if not any(repo.has_word(path, word) for path in paths):
                yield f"{ARCHITECTURE}: {file} has no {word}"
    if count < 30:
        yield f"{ARCHITECTURE}: it names only {count} functions by their files"


def change_lists(repo):
    """What the table of changes names is there."""
    rows = changes(repo)
    if len(rows) < 20:
        yield f"{ARCHITECTURE}: it has no table of changes, or one of {len(rows)} rows"
    for row in rows:
        if len(row) != 3:
            yield f"{ARCHITECTURE}: \"{row[0]}\" has {len(row)} cells"
            continue
        yield from definitions(repo, row)
        yield from code(repo, row)
    yield from within(repo)


# The tables of commands.


def forms(repo):
    """Each form of a command has a row in the tables of commands, and the top call's table has no other."""
    forms = FORM.findall(repo.text(FORMS))
    if len(forms) < 20:
        yield f"{FORMS}: it says only {len(forms)} forms"
    for path in (TOP_CALL, FORMATS):
        rows = FORM_ROW.findall(repo.text(path))
        yield from (f"{path}: no row is `{it}`" for it in forms if it not in rows)
    yield from (f"{TOP_CALL}: no form is `{it}`" for it in FORM_ROW.findall(repo.text(TOP_CALL)) if it not in forms)


# The map of stored cases.


def words_of_args(repo):
    """The words of the stored run, each with its files (of `trials`, the trials)."""
    found = {}
    for word, equals, file in (line.partition("=") for line in repo.text(ARGS).split()):
        found.setdefault(word + equals, []).append(file)
    return found


def runners(repo):
    """Which crate runs the cases of a word."""
    text = repo.text(RUNNER)
    named = re.findall(r'"(\w+)" => (\w+)::', text)
    alone = re.findall(r'word == "(\w+)" => (\w+)::', text)
    return {f"{word}=": crate for word, crate in named} | dict(alone)


def kinds(repo):
    """The table of words agrees with the words of the stored run, and with who runs them."""
    said, due, by = {}, words_of_args(repo), runners(repo)
    for words, crate, _what in rows_of(repo.text(CASES), ["Words", "Run by", "A case is"]):
        said |= {word + equals: crate.strip("`") for word, equals in CASE_WORD.findall(words)}
    yield from (f"{CASES}: the table of words lacks {it}" for it in due.keys() - said.keys())
    yield from (f"{CASES}: the stored run has no word {it}" for it in said.keys() - due.keys())
    for word in said.keys() & due.keys():
        if said[word] != by.get(word, "command_facts"):
            yield f"{CASES}: {word} is run by {by.get(word, 'command_facts')}"


def reach(crates, crate):
    """All crates that a crate stands on, itself too."""
    seen, left = set(), [crate]
    while left:
        it = left.pop()
        if it not in seen:
            seen.add(it)
            left += crates.get(it, ())
    return seen


def cases_of(cell):
    """The words of a cell, each with the files behind it."""
    found, word = [], None
    for span in SPAN.findall(cell):
        if it := CASE_WORD.fullmatch(f"`{span}`"):
            if it[2] or "." not in span:
                word = span
                found.append((word, []))
        elif found:
            found[-1][1].append(span)
    return found


def is_of_program(name):
    return not name.endswith(("_facts", "_cases")) and name != "memory_io"


def crate_map(repo):
    """Each crate has its row, each file of cases is in one, and who runs it stands on that crate."""
    crates, due, by, named, told = repo.crates(), words_of_args(repo), runners(repo), [], set()
    for names, cell in rows_of(repo.text(CASES), ["Crate", "Cases that tell of it"]):
        of = SPAN.findall(names)
        named += of
        if not cases_of(cell) and not cell.startswith("none: "):
            yield f"{CASES}: {names} has neither cases nor a reason"
        for word, files in cases_of(cell):
            if word not in due:
                yield f"{CASES}: {names}: the stored run has no word {word}"
                continue
            yield from (f"{CASES}: {names}: the stored run has no {word}{it}" for it in files if it not in due[word])
            told |= {(word, it) for it in files or due[word]}
            base = reach(crates, by.get(word, "command_facts"))
            yield from (f"{CASES}: {by.get(word)} does not stand on {it}" for it in of if it in crates and it not in base)
    wanted = [it for it in crates if is_of_program(it)]
    yield from (f"{CASES}: {it} has {named.count(it)} rows" for it in sorted({*wanted, *named}) if named.count(it) != 1 or it not in wanted)
    yield from (f"{CASES}: no crate has {word}{file}" for word, files in due.items() for file in files if (word, file) not in told)


def idle_files(repo):
    """Each file of the cases is one of the words, or named by a file of cases or by who runs it."""
    files = [path for path in repo.paths if path.startswith(DATA)]
    readers = repo.matching([DATA + "*.txt", DATA + "*.cases", DATA + "*.toml", "crates/*_facts/src/*.rt", ARGS])
    named = set(re.findall(r"[\w.]+", "\n".join(map(repo.text, readers))))
    if len(files) < 100:
        yield f"{DATA}: it has only {len(files)} files"
    yield from (f"{path}: no case names it" for path in files if not {path.rsplit("/")[-1], path.rsplit("/")[-1].split(".")[0]} & named)


# The searches come last, as they take longest.
CHECKS = (change_lists, forms, kinds, crate_map, idle_files, lemmas.indexes, places)


def wrong_maps(top, paths):
    """What is wrong with the maps."""
    repo = Repository(top, paths)
    missing = [it for it in (ARCHITECTURE, CASES, PLACES, FORMS, TOP_CALL, FORMATS, ARGS, RUNNER) if it not in paths]
    if missing:
        return [f"{it}: it is not there" for it in missing]
    return [it for check in CHECKS for it in check(repo)]


# A list for who makes the change.


def lines_of(name, listed):
    """A list of all places, a file a line; then those that a search finds too and no change touches."""
    yield f"all {name}: {listed['change']}"
    yield from (f"    {path}: {what}" for path, what in listed["places"].items())
    if listed.get("others"):
        yield "not to be changed:"
        yield from (f"    {path}: {why}" for path, why in listed["others"].items())


def main(names):
    lists = tomllib.loads((Path(__file__).resolve().parent.parent / PLACES).read_text(encoding="utf-8"))
    unknown = [it for it in names if it not in lists]
    if unknown or not names:
        print(f"doc_maps: {'there is no list ' + unknown[0] if unknown else 'name a list'}; there are {', '.join(sorted(lists))}", file=sys.stderr)
        return 2
    for name in names:
        print("\n".join(lines_of(name, lists[name])))
    return 0


if __name__ == "__main__":
    if sys.argv[1:2] in (["--help"], ["-h"]):
        sys.exit(print(__doc__))
    sys.exit(main(sys.argv[1:]))
