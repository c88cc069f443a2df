#!/usr/bin/env python3
"""Tests what scripts/wrong_bodies.py makes of a crate, without the checker: which bodies, how they are put into a copy, and how
the checker is asked.

    scripts/test_wrong_bodies.py    exit status: 0 all is as it should be, 1 something is not
"""
import shutil
import sys
import tempfile
import unittest
from pathlib import Path
from unittest import mock

sys.dont_write_bytecode = True
import wrong_bodies as made  # noqa: E402 (it lies beside this file)
from gating import suites  # noqa: E402 (likewise)

SOURCE = """\
// A crate.
const MOST: u64 = 1_024;

pub enum Kind {
    Waits,
    Tries,
}

impl Gate for Door {
    /// Whether it is open.
    fn is_open(&self, at: u64) -> bool
        ensures { result ≡ true }
    {
        if self.open && at < MOST {
            return true;
        }
        self.note(at);
        self.count = at;
        match at {
            1 => self.halt(at),
            _ => {}
        }
        false
    }
}

fn drop(self) {
    let Door { open: _ } = self;
}

fn step(door: &mut Door) {
    door.is_open(
        1,
    );
    wait(Kind::Waits);
}
"""


class Bodies(unittest.TestCase):
    def setUp(self):
        self.crate = Path(tempfile.mkdtemp(prefix="bodies-")) / "door"
        (self.crate / "src").mkdir(parents=True)
        self.path = self.crate / "src" / "door.rt"
        self.path.write_text(SOURCE, encoding="utf-8")
        self.source = self.crate / "src"
        self.functions = made.functions_of(self.path, made.module_of(self.path, self.source), made.homes_of(self.source))
        self.wrongs = list(made.wrong_bodies(self.functions, made.variants_of(self.crate / "src")))

    def tearDown(self):
        shutil.rmtree(self.crate.parent)

    def of(self, what):
        return [it for it in self.wrongs if it.what == what]

    def put(self, wrong, follow=False):
        tree = self.crate.parent / "copy"
        shutil.rmtree(tree, ignore_errors=True)
        shutil.copytree(self.crate, tree)
        made.put(tree, self.crate, [wrong], follow)
        return (tree / "src" / "door.rt").read_text(encoding="utf-8"), tree

    def test_functions_have_the_checkers_names(self):
        self.assertEqual([(it.name, it.result) for it in self.functions], [("door::DoorGate::is_open", "bool"), ("door::step", "")])

    def test_a_function_of_a_type_has_its_types_module(self):
        other = self.source / "opening.rt"
        other.write_text("impl Door {\n    fn open(&mut self) {\n        self.open = true;\n    }\n}\n", encoding="utf-8")
        self.path.write_text("pub struct Door {\n    open: bool,\n}\n" + SOURCE, encoding="utf-8")
        found = made.functions_of(other, made.module_of(other, self.source), made.homes_of(self.source))
        self.assertEqual([it.name for it in found], ["door::Door::open"])

    def test_each_kind_of_body_is_made(self):
        kinds = {it.what for it in self.wrongs}
        wanted = {"gives true at once", "gives false at once", "returns at once", "the test is turned", "&& is ||", "< is <=", "a call is left out",
                  "an assignment is left out", "an arm is empty", "true is false", "false is true", "1 is 2", "Kind::Waits is Kind::Tries"}
        self.assertEqual(wanted - kinds, set())

    def test_a_body_changes_one_place(self):
        text, _ = self.put(self.of("the test is turned")[0])
        self.assertEqual(text, SOURCE.replace("if self.open && at < MOST {", "if !(self.open && at < MOST) {"))
        text, _ = self.put(self.of("an arm is empty")[0])
        self.assertEqual(text, SOURCE.replace("1 => self.halt(at),", "1 => {},"))

    def test_a_call_of_several_lines_is_left_out_whole(self):
        texts = [self.put(it)[0] for it in self.of("a call is left out")]
        self.assertIn(SOURCE.replace("    door.is_open(\n        1,\n    );\n", ""), texts)

    def test_a_constant_is_asked_of_its_users_and_followed_in_their_answers(self):
        wrong = [it for it in made.wrong_constants(self.path, self.functions) if it.what == "MOST is 1"]
        self.assertEqual([it.users for it in wrong], [["door::DoorGate::is_open"]])
        answers = self.crate / "proofs" / "door" / "DoorGate" / "is_open"
        answers.mkdir(parents=True)
        (answers / "Answers.antt").write_text("few : min a 1024 ≡ c.1024x", encoding="utf-8")
        text, tree = self.put(wrong[0], follow=True)
        self.assertIn("const MOST: u64 = 1;", text)
        self.assertEqual((tree / answers.relative_to(self.crate) / "Answers.antt").read_text(encoding="utf-8"), "few : min a 1 ≡ c.1024x")

    def test_answers_that_do_not_fit_any_more_are_left_out(self):
        answers = self.crate / "proofs" / "door" / "step"
        answers.mkdir(parents=True)
        (answers / "Answers.antt").write_text("use A\n\npub one : goal.one\none c = a\n\npub two : goal.two\ntwo c = b\n", encoding="utf-8")
        said = "./proofs/door/step/Answers.antt:3:12: error: `one`: module `A.Goals` has no `one` that can be named from here\n./proofs/Lib.antt:1:1: error: x\n"
        self.assertEqual(made.leave_out(self.crate, said, ["door::step"]), ["door::step"])
        self.assertEqual((answers / "Answers.antt").read_text(encoding="utf-8"), "use A\n\npub two : goal.two\ntwo c = b\n")
        self.assertEqual(made.leave_out(self.crate, said, ["door::other"]), [])

    def test_they_are_tried_once_more_without_those(self):
        answers = self.crate / "proofs" / "door" / "step"
        answers.mkdir(parents=True)
        (answers / "Answers.antt").write_text("pub one : goal.one\none c = a\n", encoding="utf-8")
        checker = mock.Mock()
        checker.crate.name = "door"
        checker.say.side_effect = [
            ({"door::step": "not proved"}, [], "./proofs/door/step/Answers.antt:1:12: error: gone\n"),
            ({"door::step": "proved"}, [], ""),
        ]
        trial = made.Trial(checker, self.crate, self.functions, 0)
        wrong = next(it for it in self.wrongs if it.function.name == "door::step")
        self.assertEqual(trial.checked([wrong], False), [wrong])
        self.assertEqual([it.args[1] for it in checker.say.call_args_list], [["door::step"], ["door::step"]])

    def test_functions_that_call_one_another_are_tried_apart(self):
        trial = made.Trial(None, self.crate, self.functions, 0)
        taken, rest = trial.batch(self.wrongs)
        self.assertEqual(len(taken), 1)
        self.assertEqual(len(taken) + len(rest), len(self.wrongs))


class FakeKit:
    """Where a kit would be; nothing of it is run."""

    folder, identity = "/kit", "a kit"

    @staticmethod
    def library(name):
        return f"/kit/rlibs/{name}.rlib"


class Asked(unittest.TestCase):
    """What the checker is given, and what is read of what it says."""

    def setUp(self):
        self.folder = Path(tempfile.mkdtemp(prefix="bodies-"))
        self.addCleanup(shutil.rmtree, self.folder)
        with mock.patch.object(made.prove, "Kit", FakeKit), mock.patch.object(made.prove, "prove") as prove:
            self.checker = made.Checker("changes_text", self.folder)
        self.below = prove.call_args.args[1]

    def test_the_libraries_below_are_made_first(self):
        self.assertEqual(set(self.below), {"node_places", "sim_io"})

    def test_it_is_asked_of_some_functions_of_a_copy(self):
        said = "fn changes_text::texts::line: proved\nfn changes_text::texts::all: no proof\nsrc/texts.rt:7:5: error: a word\n"
        with mock.patch.object(made.subprocess, "run", return_value=mock.Mock(stdout=said, stderr="")) as run:
            answers, front, _ = self.checker.say(self.folder, ["texts::line", "texts::all"])
        words = run.call_args.args[0]
        self.assertEqual(words[:2], ["/kit/bin/rattle", "check"])
        self.assertEqual([words[at + 1] for at, it in enumerate(words) if it == "--only"], ["texts::line", "texts::all"])
        self.assertEqual(words[words.index("--crate-name") + 1], "changes_text")
        self.assertIn(f"node_places={self.folder.resolve()}/node_places.rlib", words)
        self.assertEqual(run.call_args.kwargs["cwd"], self.folder)
        self.assertEqual(answers, {"texts::line": "proved", "texts::all": "no proof"})
        self.assertEqual(front, [("texts.rt", 7)])


if __name__ == "__main__":
    if sys.argv[1:2] in (["--help"], ["-h"]):
        sys.exit(print(__doc__))
    sys.exit(suites.run("test_wrong_bodies", sys.modules[__name__]))
