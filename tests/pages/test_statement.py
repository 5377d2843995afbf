"""What the contract of `run` rests on: the table in docs/DEFINITIONS.md is current, and the walk counts what it should."""
import pathlib
import re
import shutil
import subprocess
import sys
import tempfile
import unittest

TOP = pathlib.Path(__file__).resolve().parent.parent.parent
sys.path.insert(0, str(TOP / "tools"))

import statement_walk  # noqa: E402

SOURCE = """\
//! A program.
ghost use Rattle.std.specs.Prelude.{◌≡◌};
ghost use Rattle.low.specs.Sums.{total as sum_of, ◌+++◌};
ghost use Rattle.low.specs.Other as other;

use crate::kinds::Kind;
use low::Store;

/// Runs it.
pub fn run<S: Store>(kind: Kind) -> u8
    requires { S.room kind }
    ensures unused { sum_of result ≡ other.half 2 +++ 1 }
{
    never(kind)
}

fn never(kind: Kind) -> u8
    ensures { unused kind }
{
    1
}
"""
FILES = {
    "crates.txt": "# all\nlow:\ntop: low\n",
    "crates/top/src/lib.rt": "pub use run::run;\n",
    "crates/top/src/run.rt": SOURCE,
    "crates/top/src/kinds.rt": "/// A kind.\npub enum Kind {\n    One,\n}\n\npub struct Unused {\n}\n\n"
                               "impl Model for Kind {\n    ghost use Rattle.low.specs.Model.{Meant};\n"
                               "    ghost Value = { Meant };\n}\n",
    "crates/low/src/lib.rt": "pub use stores::{Store, Other};\n",
    "crates/low/src/stores.rt": "pub trait Store {\n    ghost room: { Self → ℕ };\n}\n",
    "crates/low/specs/Sums.antt": "-- Sums.\nuse Rattle.low.specs.Deep.{deep}\npub use Rattle.low.specs.Handed.{◌+++◌}\n\n"
                                  "-- the sum\nabbrev pub total : ℕ\ntotal = deep\n\n"
                                  "abbrev pub unused : ℕ\nunused = 1\n",
    "crates/low/specs/Handed.antt": "abbrev pub ◌+++◌ : ℕ\na +++ b = a\n",
    "crates/low/specs/Deep.antt": "use Rattle.low.specs.declared.stores.Store.{Store}\n\n"
                                  "mutual\n  pub deep : Store\n\n  pub deeper : ℕ\n",
    "crates/low/specs/Other.antt": "abbrev pub half : ℕ\n\nabbrev pub third : ℕ\n",
    "crates/low/specs/Model.antt": "pub record Meant : Type 0 where\n  pub size : ℕ\n",
}
COUNTS = {"low/specs/Deep.antt": 3, "low/specs/Handed.antt": 2, "low/specs/Model.antt": 2, "low/specs/Other.antt": 1,
          "low/specs/Sums.antt": 3, "low/src/stores.rt": 3, "top/src/kinds.rt": 8, "top/src/run.rt": 4}


def statement(*words):
    return subprocess.run([TOP / "tools/statement", *words], stdout=subprocess.PIPE, stderr=subprocess.PIPE, text=True)


class Walks(unittest.TestCase):
    """The walk over two small crates."""

    def setUp(self):
        folder = tempfile.TemporaryDirectory()
        self.addCleanup(folder.cleanup)
        self.top = pathlib.Path(folder.name)
        for name, text in FILES.items():
            self.write(name, text)

    def write(self, name, text):
        (self.top / name).parent.mkdir(parents=True, exist_ok=True)
        (self.top / name).write_text(text)

    def walk(self):
        for cached in ("lines_of", "imports_of", "definitions_of", "declaration"):
            getattr(statement_walk, cached).cache_clear()
        return statement_walk.Walk(self.top).from_item("top/src/run.rt", "run")

    def test_lines_of_what_is_used(self):
        walk = self.walk()
        self.assertEqual(COUNTS, walk.lines())
        self.assertEqual({"std.specs.Prelude"}, walk.outside)

    def test_a_definition_that_is_added_counts(self):
        self.write("crates/low/specs/Other.antt", "abbrev pub half : ℕ\nhalf = third\n\nabbrev pub third : ℕ\n")
        self.assertEqual(3, self.walk().lines()["low/specs/Other.antt"])

    def test_missing_definitions_are_errors(self):
        for name in ("crates/low/specs/Handed.antt", "crates/low/specs/Deep.antt", "crates/top/src/kinds.rt"):
            with self.subTest(name):
                self.write(name, "\n")
                self.assertRaises(statement_walk.WalkError, self.walk)
                self.write(name, FILES[name])

    def test_paths_of_use_trees(self):
        self.assertEqual([["a", "b"], ["a", "c", "d"], ["a", "c", "e"]], statement_walk.paths_of("a::{b, c::{d,\n e}}"))
        self.assertEqual([["a", "b"]], statement_walk.paths_of("a::b"))


class Page(unittest.TestCase):
    def test_the_table_is_current(self):
        done = statement("--check")
        self.assertEqual((0, ""), (done.returncode, done.stdout))

    def test_a_table_that_is_not_current_is_rejected(self):
        with tempfile.TemporaryDirectory() as folder:
            page = pathlib.Path(folder, "page.md")
            shutil.copy(TOP / "docs/DEFINITIONS.md", page)
            page.write_text(page.read_text().replace(" tree_defs\n", " tree_other\n"))
            self.assertEqual(1, statement("--check", "--page", page).returncode)
            self.assertEqual(0, statement("--write", "--page", page).returncode)
            self.assertEqual((TOP / "docs/DEFINITIONS.md").read_text(), page.read_text())

    def test_arguments(self):
        self.assertEqual(2, statement("replay_app/src/command.rt", "nothing").returncode)
        self.assertIn("`block_run` rests on ", statement("block_replay/src/command.rt", "block_run").stdout)

    def test_each_file_is_printed(self):
        rows = re.findall(r"^ +(\d+) (\w+)/[\w/]+\.(?:antt|rt)$", statement().stdout, re.MULTILINE)
        sums = {crate: sum(int(count) for count, other in rows if other == crate) for _, crate in rows}
        page = (TOP / "docs/DEFINITIONS.md").read_text().partition("The lines of each crate:")[2].partition("<!-- end -->")[0]
        self.assertEqual({crate: int(count) for count, crate in re.findall(r"(\d+) (\w+)", page)}, sums)


if __name__ == "__main__":
    unittest.main()
