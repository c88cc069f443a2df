"""A kit that proves nothing, and three crates that say nothing, for tests of what goes on around the proving."""
import os

# It takes FAKE_SECONDS for a crate, in a copy of itself, and proves all but the crate FAKE_FAULT. Its library is the code without
# its comments, and it notes each crate that it proved in the file FAKE_PROVED.
RATTLE = """#!/usr/bin/env bash
while (($#)); do
    case $1 in --crate-name) name=$2 ;; -o) out=$2 ;; esac
    shift
done
(exec -a "$0-copy" sleep "${FAKE_SECONDS:-0}") &
wait $!
if [[ $name == "${FAKE_FAULT:-}" ]]; then
    echo 'note: src/lib.rt:1:1: it is not proved that what the function ensures holds'
    echo "fn $name::half: no proof: expected answers in ./proofs/half/Answers.antt"
    echo "fn $name::whole: proved"
    echo 'error: an open goal'
    exit 1
fi
echo 'logic=proved functions=1'
grep -v '^//' "$PWD"/src/*.rt >"$out"
echo "$name" >>"$FAKE_PROVED"
"""

# The program that it links: it writes its words and its folder, or what the C library is told; or it refuses an image, a
# scenario, or its words.
LINK = """#!/usr/bin/env bash
while (($#)); do [[ $1 == -o ]] && out=$2; shift; done
cat >"$out" <<'END'
#!/usr/bin/env bash
case $1 in
    refused) echo 'avrora: a.hex: image refused: NoEnd' >&2; exit 5 ;;
    selflink) echo 'avrora: a.toml: scenario refused: SelfLink' >&2; exit 4 ;;
    bad) echo 'avrora: bad command line' >&2; exit 2 ;;
    stacks) echo "${GLIBC_TUNABLES-}" ;;
    say) [[ -z $3 ]] || echo "$3" >&2; exit "$2" ;;
    long) exec -a "$0-long" sleep 3600 ;;
    *) echo "$* in ${PWD##*/}"; cat ;;
esac
END
chmod +x "$out"
"""

# Its `rt` with the part of the gate that from_gate.py asks, which kept the library of one crate.
GATE = """#!/usr/bin/env python3
import os, shutil
if __name__ == "__main__":
    print("{identity}")
class Crate:
    def __init__(self, top, name, below):
        self.name, self.folder, self.uses = name, top + "/crates/" + name, below
    def below(self):
        return self.uses
def handles_of(top):
    return ()
def copy_crates(top, to):
    shutil.copytree(top + "/crates", to + "/crates")
def crates_of(top):
    low = Crate(top, "low", [])
    middle = Crate(top, "middle", [low])
    return [low, middle, Crate(top, "avrora_program", [low, middle])]
class Kept:
    def __init__(self, crates):
        self.rlibs = dict()
    def key(self, crate):
        return crate.name
    def give(self, crate, tests, key):
        if key == "{kept}":
            os.makedirs(crate.folder + "/out/rlib/" + key + ".rlib")
        return key == "{kept}"
    def is_built(self, crate):
        self.rlibs[crate.name] = ""
"""

# What the kit says that it is, and the crates, each with those that it uses.
IDENTITY = "fake-kit logic 0123456789abcdef"
CRATES = "low:\nmiddle: low\navrora_program: middle\n"


def write(path, text):
    """Writes a file that can be run."""
    path.parent.mkdir(parents=True, exist_ok=True)
    path.write_text(text, encoding="utf-8")
    path.chmod(0o755)


def write_kit(folder):
    """Writes the kit into a folder, a Path."""
    for path, text in {"bin/rt": f"#!/bin/sh\necho {IDENTITY}\n", "bin/rattle": RATTLE, "bin/rattle-link": LINK, "KIT-ID": f"{IDENTITY}\n"}.items():
        write(folder / path, text)


def write_gate(folder, kept):
    """Has the kit in a folder be one whose gate kept the library of the crate `kept`."""
    write(folder / "bin/rt", GATE.format(identity=IDENTITY, kept=kept))


def write_crates(top):
    """Writes the crates into a repository whose top is a Path."""
    write(top / "crates.txt", CRATES)
    for name, root in (("low", "lib"), ("middle", "lib"), ("avrora_program", "main")):
        write(top / "crates" / name / "src" / f"{root}.rt", "// nothing\n")


def environment(kit=None):
    """The environment of a command that finds the kit, or else finds no other one, and is lent no program."""
    kept = {key: value for key, value in os.environ.items() if key not in ("AVRORA", "AVRORA_PROGRAM")}
    kept.setdefault("FAKE_PROVED", os.devnull)
    path = [it for it in os.environ.get("PATH", os.defpath).split(":") if kit or not os.path.exists(f"{it}/rt")]
    return {**kept, "PATH": ":".join([f"{kit}/bin", *path] if kit else path)}
