"""The index of a crate's lemmas: `proofs/Lib.antt` names each module, and says above it the first sentence of that module's head."""
import re
import textwrap

INDEX = "crates/*/proofs/Lib.antt"
MODULES = re.compile(r"(crates/\w+/proofs)/(\w+)\.antt")
MODULE = re.compile(r"^(?:pub )?mod (\w+)$", re.M)
WIDTH = 120


def first_sentence(text):
    """The first sentence of a module's head, the comment in which it begins; `None` where it has none."""
    lines = []
    for line in text.splitlines():
        if not line.startswith("-- "):
            break
        lines.append(line[3:].strip())
    head = " ".join(lines)
    found = re.match(r".*?\.(?= [A-Z]|$)", head)
    return found[0] if found else None


def index_of(repo, path):
    """What the index at this path is to be, and what is wrong with the modules that it names."""
    folder, lines, wrong = path.rpartition("/")[0], [], []
    for line in repo.text(path).splitlines():
        if line.startswith("--"):
            continue
        found = MODULE.match(line)
        module = f"{folder}/{found[1]}.antt" if found else None
        if module in repo.paths:
            sentence = first_sentence(repo.text(module))
            if sentence is None:
                wrong.append(f"{module}: it does not begin with a sentence that says what it shows")
            else:
                lines += [f"-- {it}" for it in textwrap.wrap(sentence, WIDTH - 3, break_long_words=False, break_on_hyphens=False)]
        lines.append(line)
    return "".join(f"{it}\n" for it in lines), wrong


def indexes(repo):
    """Each index says of each module what the module's head says first."""
    paths = repo.matching([INDEX])
    if not paths:
        yield f"there is no {INDEX}"
    for folder, name in (it.groups() for it in map(MODULES.fullmatch, repo.paths) if it):
        if name != "Lib" and not re.search(rf"^(?:pub )?mod {name}$", repo.text(f"{folder}/Lib.antt"), re.M):
            yield f"{folder}/{name}.antt stands in no index"
    for path in paths:
        index, wrong = index_of(repo, path)
        yield from wrong
        if index != repo.text(path):
            yield f"{path}: it does not say of each module the first sentence of its head (scripts/check_docs.py --index writes it)"


def write(repo):
    """Writes each index anew."""
    for path in repo.matching([INDEX]):
        (repo.top / path).write_text(index_of(repo, path)[0], encoding="utf-8")
