#!/usr/bin/env python3
"""Tests of what believed.py counts: the names that a definition uses, what they stand for, and what the document says.

    scripts/test_believed.py
"""
import re
import sys
import tempfile
import unittest
from pathlib import Path

import believed
from believing import antt, rust
from believing.closure import Closure, Repository, closure
from believing.sources import read_antt
from gating import suites

TOP = Path(__file__).resolve().parent.parent

# Names that are constructors in the texts of these tests.
FIXED = frozenset({"Some", "None", "[]", "∷", "zero"})


def used(text: str, *modules: str) -> set[str]:
    """The names that a clause uses, those of modules with their module."""
    found = antt.uses(antt.words(text), modules, FIXED.__contains__)
    return {f"{it.module}.{it.name}" if it.module else it.name for it in found}


class Uses(unittest.TestCase):
    """The names that a clause uses."""

    def test_variables_are_none(self) -> None:
        for text, names in {
            "f x (y ∷ ys) = g y x": "g ∷",
            "f (Some x) = x": "Some",
            "f x = λ y (a, b). h y a b c x": "h c",
            "f x = All (λ (y : Place). y ≡ x) z": "All Place ≡ z",
            "f x = (y : A) × P y": "A P",
            "f : {A : Type 0} → (x y : A) → x ≡ y": "f ≡",
            "f = let a = g b in h a": "g b h",
            "f = let (a, b) = g in h a b": "g h",
            "f = (λ a. b) a": "a b",
            "f = (λ (y : A). b) y": "A b y",
            "f : P y → (y : A) → Q y": "f P y A Q",
            "f = (let a = b in c) a": "a b c",
            "f = do\n  a ← g b\n  h a": "g b h ◌>>=◌",
            "f x = elim (g x) [ Some y ↦ h y | None ↦ y ]": "g Some h None y",
        }.items():
            with self.subTest(text):
                self.assertEqual(used(text), set(names.split()))

    def test_fields_labels_and_texts_are_none(self) -> None:
        for text, names in {
            "f x = x.a.b": "",
            "f x = (g x).0": "g",
            "f x = record { a = g; b = x.b }": "g",
            "f x = record x { a = h }": "h",
            "f = g {x = e}": "g e",
            'f = codes "g h" -- g h': "codes",
            "f = 12 + 0x1F": "+",
        }.items():
            with self.subTest(text):
                self.assertEqual(used(text), set(names.split()))

    def test_a_module_comes_before_a_variable(self) -> None:
        self.assertEqual(used("f x = m.g x.h", "m"), {"m.g"})
        self.assertEqual(used("f m = m.g m", "m"), {"m.g"})
        self.assertEqual(used("f m.None = m.g", "m"), {"m.None", "m.g"})


class Files(unittest.TestCase):
    """What a file defines, and which of its lines count."""

    def test_lines(self) -> None:
        text = (
            "-- Head.\nuse M.{a, b as c}\nuse M.N as n\nuse M.O\n\n"
            "-- a record\npub record R (x : A) : Type 0 where\n  -- a field\n  pub p q : B\n  pub r :\n    C p\n\n"
            "pub data D : Type 0 where\n  E : D\n  F : (x : A) → D\n\n"
            "infixl 10 ◌>>◌\nabbrev pub ◌>>◌ : A → A\nx >> y = record {\n  a = x\n}\n\n"
            "plain : A\nplain = b\nabbrev f : A\nf = c\n"
        )
        file = read_antt("crates/a/specs/F.antt", text)
        self.assertEqual(file.imports, {"a": [("M", "a")], "c": [("M", "b")]})
        self.assertEqual(file.modules, {"n": "M.N", "O": "M.O"})
        found = {it.name: sorted(it.lines) for it in file.definitions}
        self.assertEqual(found["R"], [7, 9, 10, 11])
        self.assertEqual(found["D"], [13, 14, 15])
        self.assertEqual(found["◌>>◌"], [17, 18, 19, 20, 21])
        self.assertEqual(found["f"], [25, 26])
        self.assertTrue(next(it for it in file.definitions if it.name == "D").offers("F"))
        self.assertEqual(sum(map(len, found.values())), 16)

    def test_rust(self) -> None:
        text = (
            "// enum No { A }\n#[derive(Clone)]\npub enum E {\n    /// An A {\n    A,\n    B(u8),\n}\n\n"
            "pub const C: [u8; 2] = [1,\n    2];\npub struct T(pub E);\n\n"
            "impl Model for T {\n    ghost use M.{List};\n    ghost Value = { List };\n    ghost view = { λ t.\n"
            "        t.0 };\n}\n"
            "pub fn f(x: &T) -> u8\n    requires a { x ≡ C }\n    ensures { result ≡\n      0 }\n{ 0 }\n"
        )
        path = "crates/a/src/lib.rt"
        file = rust.read_rust(path, text)
        found = {it.name: sorted(it.lines) for it in file.definitions}
        self.assertEqual(
            found, {"E": [3, 5, 6, 7], "C": [9, 10], "T": [11], "Model for T": [15, 16, 17], "Value of T": [15]}
        )
        contract = rust.contract(path, rust.without_comments(text), "f")
        assert contract
        self.assertEqual(sorted(contract.lines), [20, 21, 22])
        self.assertIsNone(rust.contract(path, text, "g"))


class Closures(unittest.TestCase):
    """In a repository of two crates, of whose definitions the contract of `top` rests on some."""

    def setUp(self) -> None:
        place = tempfile.TemporaryDirectory()
        self.addCleanup(place.cleanup)
        self.top = Path(place.name)
        self.put("a/src/lib.rt", "pub mod m;\npub use m::T;\n")
        self.put("a/src/m.rt", "pub struct T {\n    pub n: u8,\n}\n")

    def put(self, path: str, text: str) -> None:
        file = self.top / "crates" / path
        file.parent.mkdir(parents=True, exist_ok=True)
        file.write_text(text, encoding="utf-8")

    def found(self, clause: str, use: str = "", *, bounds: str = "", specs: str = "", narrowed: str = "") -> Closure:
        """What the clause of `top` rests on, in a file with this `ghost use`, over these definitions of its crate."""
        self.put("b/specs/S.antt", specs)
        ghosts = f"ghost use Rattle.{use};\n" if use else ""
        top = f"pub fn top{bounds}()\n    ensures {{ {clause} }}\n{{}}\n"
        self.put("b/src/lib.rt", f"{ghosts}use a::{{Tr, T}};\n{top}")
        repository = Repository(self.top)
        only = {("b", "r"): narrowed} if narrowed else {}
        return closure(repository, [repository.contract("crates/b/src/lib.rt", "top")], only)

    def names(self, clause: str, use: str = "", **more: str) -> str:
        """The names of all that the clause rests on; nothing is unclear."""
        found = self.found(clause, use, **more)
        self.assertEqual(found.unclear, [])
        return " ".join(sorted(it.name for it in found.parts if it.name != "contract of top"))

    def test_equal_names_of_two_crates(self) -> None:
        kit = "use Rattle.std.specs.Prelude.{ℕ}\n"
        self.put("a/specs/A.antt", f"{kit}abbrev pub f : ℕ\nf = 0\n\nabbrev pub g : ℕ\ng = 1\n")
        specs = f"{kit}use Rattle.a.specs.A.{{f as h}}\nabbrev pub f : ℕ\nf = h\n"
        found = self.found("f", "b.specs.S.{f}", specs=specs)
        self.assertEqual(
            sorted((it.path, it.name) for it in found.parts)[:2],
            [("crates/a/specs/A.antt", "f"), ("crates/b/specs/S.antt", "f")],
        )
        self.assertEqual(found.kit, {"Rattle.std.specs.Prelude": {"ℕ"}})
        self.assertEqual(len(found.lines()), 5)
        self.assertEqual(self.names("f", "a.specs.A.{f}", specs=specs), "f")

    def test_operators_constructors_modules_and_private_names(self) -> None:
        types = "pub data D : Type 0 where\n  E : D\n  F : D\n\npub data G : Type 0 where\n  H : G\n"
        self.put("a/specs/A.antt", types)
        specs = (
            "use Rattle.a.specs.A.{E}\nuse Rattle.a.specs.A as a\n"
            "infixl 10 ◌>>=◌\nabbrev pub ◌>>=◌ : a.D\nx >>= y = E\n\n"
            "abbrev p : a.D\np = q >>= q\n\nabbrev q : a.G\nq = a.H\n\n"
            "abbrev pub r : a.D\nr = do\n  x ← q\n  x\n\nabbrev pub s : a.D\ns = E\n\n"
            "abbrev pub t : a.D → a.D\nt E = t E\n"
        )
        self.assertEqual(self.names("p", "b.specs.S.{p}", specs=specs), "D G p q ◌>>=◌")
        self.assertEqual(self.names("r", "b.specs.S.{r}", specs=specs), "D G q r ◌>>=◌")
        self.assertEqual(self.names("t", "b.specs.S.{t}", specs=specs), "D t")

    def test_what_hides_a_definition(self) -> None:
        specs = (
            "use Rattle.std.specs.Prelude.{ℕ}\nabbrev pub x : ℕ\nx = 0\n\nabbrev pub f : ℕ → ℕ\nf x = x\n\n"
            "pub record R (x : ℕ) : Type 0 where\n  pub p : x\n\n"
            "pub record Q : Type 0 where\n  pub before : x\n  pub x : ℕ\n"
        )
        self.assertEqual(self.names("f", "b.specs.S.{f}", specs=specs), "f")
        self.assertEqual(self.names("R", "b.specs.S.{R}", specs=specs), "R")
        self.assertEqual(self.names("Q", "b.specs.S.{Q}", specs=specs), "Q x")

    def test_types_of_rust(self) -> None:
        struct = "use crate::n::{U as W, X};\npub struct T {\n    pub u: W,\n    pub x: X,\n}\n"
        self.put("a/src/m.rt", f"{struct}pub const N: u8 = M + 1;\nconst M: u8 = 2;\n")
        value = "ghost use Rattle.a.specs.A.{v, w};\n    ghost Value = { v };\n    ghost view = { w };\n"
        model = f"impl Model for X {{\n    {value}}}\n"
        self.put("a/src/n.rt", f"pub enum U {{\n    V,\n}}\npub struct X {{\n    y: Y,\n}}\nstruct Y;\n{model}")
        self.put("a/specs/A.antt", "abbrev pub v : Type 0\nv = v\n\nabbrev pub w : v\nw = w\n")
        self.assertEqual(self.names("T", "a.specs.declared.m.T.{T}"), "T U Value of X v")
        self.assertEqual(self.names("V", "a.specs.declared.n.U.TheVariants.{V}"), "U")
        self.assertEqual(self.names("c.V", "a.specs.declared.n.U.TheVariants as c"), "U")
        self.assertEqual(self.names("N", "a.specs.declared.m.TheConstants.{N}"), "M N")
        self.assertEqual(self.names("Inside", "a.specs.declared.n.X.TheInside.{Inside}"), "X Y")

    def test_traits(self) -> None:
        trait = "pub trait Tr {\n    ghost use M.{ℕ};\n    ghost held: { ℕ };\n    fn f(&self);\n}\n"
        self.put("a/src/lib.rt", f"pub mod n;\n{trait}")
        impl = "impl<'a> Tr for X {\n    ghost use Rattle.a.specs.A.{g};\n    ghost held = { g };\n}\n"
        model = "impl Model for X {\n    ghost Value = { List };\n    ghost view = { List };\n}\n"
        self.put("a/src/n.rt", f"use crate::Tr;\npub struct X {{\n    y: Y,\n}}\nstruct Y;\n{model}{impl}")
        self.put("c_facts/src/lib.rt", "use a::Tr;\nstruct Z;\nimpl Tr for Z {\n    ghost held = { ℕ };\n}\n")
        self.put("a/specs/A.antt", "abbrev pub g : Type 0\ng = g\n")
        found = self.names("S.held", bounds="<S: Tr>")
        self.assertEqual(found, "Model for X Tr Tr for X Value of X X Y g")

    def test_parts(self) -> None:
        record = "pub record r : Type 0 where\n  pub one : p\n  pub two : q\n\n"
        specs = f"abbrev pub p : Type 0\np = p\n\n{record}abbrev q : Type 0\nq = q\n"
        self.assertEqual(self.names("r", "b.specs.S.{r}", specs=specs, narrowed="pub two "), "q r")
        found = self.found("r", "b.specs.S.{r}", specs=specs, narrowed="pub one ")
        self.assertEqual(len(found.lines()), 5)
        for wanted in ("pub three ", "pub "):
            with self.assertRaisesRegex(ValueError, "parts of r hold"):
                self.found("r", "b.specs.S.{r}", specs=specs, narrowed=wanted)

    def test_unclear(self) -> None:
        self.put("a/specs/A.antt", "abbrev pub f : Type 0\nf = f\n")
        others = "abbrev pub g : Type 0\ng = f\n\nabbrev pub h : Type 0\nh = gone\n"
        specs = f"use Rattle.a.specs.A.{{f, gone}}\nabbrev pub f : Type 0\nf = f\n\n{others}"
        found = self.found("g", "b.specs.S.{g}", specs=specs)
        self.assertEqual(len(found.parts), 4)
        self.assertIn("crates/b/specs/S.antt:5: g: f stands for 2 things", found.unclear)
        gone = self.found("h", "b.specs.S.{h}", specs=specs).unclear
        self.assertEqual(gone, ["crates/b/specs/S.antt:8: h: gone stands for 0 things"])
        with self.assertRaisesRegex(ValueError, "no function bottom"):
            Repository(self.top).contract("crates/b/src/lib.rt", "bottom")


class Here(unittest.TestCase):
    """In this repository, by hand."""

    repository: Repository
    found: believed.Believed

    @classmethod
    def setUpClass(cls) -> None:
        cls.repository = Repository(TOP)
        cls.found = believed.believed(cls.repository)

    def names(self, of: Closure) -> set[str]:
        return {f"{it.path.split('/')[1]} {it.name}" for it in of.parts}

    def test_nothing_is_unclear(self) -> None:
        self.assertEqual(self.found.unclear(), [])

    def test_what_the_call_rests_on(self) -> None:
        for it in CALL:
            with self.subTest(it):
                self.assertIn(it, self.names(self.found.call))

    def test_what_the_headline_rests_on(self) -> None:
        for it in HEADLINE:
            with self.subTest(it):
                self.assertIn(it, self.names(self.found.headline))
        for it in CALL_ALONE:
            with self.subTest(it):
                self.assertIn(it, self.names(self.found.call) - self.names(self.found.headline))

    def test_what_neither_rests_on(self) -> None:
        rest = {it.split(": ")[0] for it in believed.rest(self.repository, self.found)}
        every = {f"{it.path.split('/')[1]} {it.name}": f"{it.path}:{it.line}" for it in self.repository.definitions()}
        for it in REST:
            with self.subTest(it):
                self.assertIn(every[it], rest)

    def test_a_document(self) -> None:
        right = believed.said(self.found)
        self.assertRegex(right, r"^\d,\d{3} lines for the whole call and \d,\d{3} for the headline$")
        self.assertEqual(list(believed.wrong(TOP, "docs/PROOFS.md", f"Some {right}.\n")), [])
        self.assertEqual(list(believed.wrong(TOP, "docs/AIR.md", "Nothing.\n")), [])
        said = "1,234 lines for the whole call and 1,000 for the headline"
        self.assertEqual(
            list(believed.wrong(TOP, "docs/PROOFS.md", f"One.\nSome {said}.\n")),
            [f"docs/PROOFS.md:2: it says {said}, scripts/believed.py counts {right}"],
        )
        self.assertEqual(
            list(believed.wrong(TOP, "docs/PROOFS.md", "Nothing.\n")),
            [f"docs/PROOFS.md: it does not say that there are {right}"],
        )

    def test_what_is_printed(self) -> None:
        rows = list(believed.table(self.found))
        self.assertEqual(rows[-3].split()[1], f"{len(self.found.specs):,}")
        listed = list(believed.listed(self.found))
        top = r"crates/commands/specs/TopClause\.antt:\d+: TopClause: \d+ of the whole call, 2 of the headline"
        for wanted in (top, r"the kit, .*: .*"):
            self.assertTrue(any(re.fullmatch(wanted, it) for it in listed))
        self.assertFalse(any(it.endswith(": 0 of the whole call, 0 of the headline") for it in listed))


# In the whole call, by what leads there: a clause, a field, a `do`, a constant, the ghost of an impl, a model, a field
# of another record, a name behind a module, a type of Rust, a constructor.
CALL = (
    "command_plans line_due",
    "command_plans status_number",
    "moves_text ◌>>=◌",
    "data_space SRAM_LEN",
    "memory_io held_by",
    "avr_base Value of Reg",
    "sim_io Rose",
    "avr_timers fits",
    "command_plans ImageCause",
    "command_words Asked",
)
HEADLINE = (
    "command_words asked_by",
    "scenario_file has_ranges",
    "world_core run_rows",
    "world_core hears",
    "neighbour_sync KeepsRule",
    "neighbour_sync View",
    "sync_core after_moves",
    "headline_law IsTaken",
    "node_core node_kind",
    "sim_io Sink for StdSink",
)
CALL_ALONE = ("commands sweep_text", "run_reports frames_text", "asm_text assembled", "command_plans line_due")
# Contracts of functions inside a crate, how a leap or a wait goes, what a law or a test of its own is about.
REST = (
    "avr_core after_of",
    "commands HasRead",
    "command_words from_in",
    "command_words IsInLimits",
    "board_io caught_up",
    "ihex_loader GoesOn",
    "fleet_threads IsRun",
    "neighbour_sync clock_loaded",
    "node_monitors HasRoom",
    "world_core IsLinkFault",
)


if __name__ == "__main__":
    if sys.argv[1:2] in (["--help"], ["-h"]):
        sys.exit(print(__doc__))
    sys.exit(suites.run("test_believed", sys.modules[__name__]))
