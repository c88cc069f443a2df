#!/usr/bin/env python3
"""Tests of what check_docs.py asks of documents besides their maps. Each script of scripts/ and bench/ takes --help,
writes what stands at its top, names itself and does nothing else. No sentence of a document is too long. What a
document tells of a trial is of what stands here.

    scripts/test_documents.py
"""
import os
import subprocess
import sys
import tempfile
import unittest
from pathlib import Path

import helps
import sentences
import trials
from gating import suites

TOP = Path(__file__).resolve().parent.parent

# Seconds that no help takes.
LONG = 120


class Help(unittest.TestCase):
    def test_each_script(self):
        paths = helps.scripts(TOP)
        self.assertGreater(len(paths), 40)
        for path in [*paths, "prove.py"]:
            with self.subTest(path), tempfile.TemporaryDirectory() as folder:
                command = [str(TOP / path)] if path.endswith(".sh") else [sys.executable, "-B", str(TOP / path)]
                done = subprocess.run(
                    [*command, "--help"],
                    cwd=folder,
                    stdin=subprocess.DEVNULL,
                    capture_output=True,
                    text=True,
                    timeout=LONG,
                    check=False,
                )
                self.assertEqual((done.returncode, done.stderr), (0, ""))
                said = " ".join(done.stdout.split())
                self.assertIn(helps.first_sentence(helps.help_of(TOP, path)).replace("/", "|"), said.replace("/", "|"))
                self.assertIn(os.path.basename(path), said)
                self.assertEqual(os.listdir(folder), [])

    def test_sentences(self):
        for text, first in {
            "Does x: a.py [N] does.": "Does x",
            "Does a.b c. More.": "Does a.b c",
            "Does\nit\n\n    a.py": "Does it",
            "Does": "Does",
        }.items():
            self.assertEqual(helps.first_sentence(text), first)


class Sentences(unittest.TestCase):
    def found(self, text):
        return [(it.line, it.words) for it in sentences.sentences(text)]

    def test_ends(self):
        for text, words in {
            "One two. Three.": [2, 1],
            "One (two.) Three": [2, 1],
            "One two .. three. Four": [3, 1],
            "One two! Three? Four": [2, 1, 1],
            "In 0.5 s, by 3.11 of `a. b. c`. Next": [7, 1],
            "Debian, e.g. bookworm, by B. L. Titzer": [7],
            "One two: three; four.": [4],
            "A [link of five words](docs/a.md#b) and **two** words": [8],
            "One — two = three": [3],
            "One\ntwo\n\nthree": [2, 1],
            "": [],
        }.items():
            with self.subTest(text):
                self.assertEqual([it[1] for it in self.found(text)], words)

    def test_what_is_no_sentence(self):
        text = (
            "# A heading here\n\nOne two.\n\n    code of four words\n\n```console\n$ more code\n\nhere\n```\n"
            "| A | table |\n|---|---|\n![A picture](a.svg)\n<!-- a\ncomment -->\nThree four five.\n"
        )
        self.assertEqual(self.found(text), [(3, 2), (17, 3)])

    def test_items(self):
        text = "It takes\n\n- one two;\n  three `a b`\n    four\n- five. Six\n  seven.\n1. Eight\n"
        self.assertEqual(self.found(text), [(1, 2), (3, 5), (6, 1), (6, 2), (8, 1)])

    def test_lines(self):
        self.assertEqual(self.found("One `a\nb` two.\nThree. Four\nfive.\n"), [(1, 3), (3, 1), (3, 2)])

    def test_wrong(self):
        long, longest = " ".join(["word"] * 46), " ".join(["word"] * 45)
        short = "One two.\n\n"
        self.assertEqual(list(sentences.wrong("R.md", f"{short}{longest}.\n")), [])
        self.assertEqual(
            list(sentences.wrong("R.md", f"{short}{long}.\n")),
            [f"R.md:3: a sentence of 46 words, 45 are the most: {long[:60]}.."],
        )
        many = " ".join(["word"] * 26)
        self.assertEqual(
            list(sentences.wrong("R.md", f"{many}.\n")), ["R.md: its sentences have 26.0 words on the mean, 25 are the most"]
        )
        self.assertEqual(list(sentences.wrong("R.md", f"{many[5:]}.\n")), [])


class Trials(unittest.TestCase):
    """In a repository of two commits."""

    def setUp(self):
        place = tempfile.TemporaryDirectory()
        self.addCleanup(place.cleanup)
        self.top = Path(place.name)
        (self.top / "examples").mkdir()
        self.git("init", "-q")
        self.commit = self.changed("examples/a.toml")

    def git(self, *words):
        named = ["-c", "user.name=x", "-c", "user.email=x@example.org"]
        return subprocess.run(
            ["git", *named, *words], cwd=self.top, capture_output=True, text=True, check=True
        ).stdout.strip()

    def changed(self, path):
        """The commit behind a change of a file."""
        with open(self.top / path, "a", encoding="utf-8") as it:
            it.write("more\n")
        self.git("add", "-A")
        self.git("commit", "-q", "-m", "A change")
        return self.git("rev-parse", "HEAD")

    def told(self, commit):
        return list(
            trials.wrong(
                self.top, "R.md", f"First.\n\nLast, of commit {commit}, in bookworm: 26 checks, 0 not met. More.\n"
            )
        )

    def test_of_this_commit(self):
        self.assertEqual(self.told(self.commit), [])
        self.changed("README.md")
        self.assertEqual(self.told(self.commit[:8]), [])

    def test_what_changed_since(self):
        for path in ("examples/a.toml", "examples/new.toml", "avrora"):
            now = self.commit
            self.commit = self.changed(path)
            self.assertEqual(
                self.told(now),
                [f"R.md:3: it tells of a trial of commit {now}, and {path} changed since: try again, or tell of none"],
            )

    def test_of_no_commit(self):
        self.assertEqual(self.told("nothing"), ["R.md:3: it tells of a trial, and not of which commit"])
        self.assertEqual(
            self.told("0123456789"),
            ["R.md:3: it tells of a trial of commit 0123456789, which is none of this repository"],
        )


if __name__ == "__main__":
    if sys.argv[1:2] in (["--help"], ["-h"]):
        sys.exit(print(__doc__))
    sys.exit(suites.run("test_documents", sys.modules[__name__]))
