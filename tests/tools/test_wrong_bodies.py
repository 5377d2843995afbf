"""The tool tests/wrong_bodies/run, in a small checkout with a command that stands in for rt."""
import importlib.machinery
import importlib.util
import os
import pathlib
import subprocess
import sys
import tempfile
import unittest

TOP = pathlib.Path(__file__).resolve().parent.parent.parent
RUN = TOP / "tests/wrong_bodies/run"

# What rt writes of each edit that was put into the copy: the first word of the edit's name says what came of it.
RT = r"""#!/bin/sh
echo "$@" >>"$RT_CALLS"
[ "$1" = must-fail ] || exit 1
shift
for crate; do
    for edit in crates/$crate/must-fail/*.edit; do
        name=$(basename "$edit")
        case $name in
            proved_*) echo "rt: must-fail $crate/$name: NOT REFUSED: the crate is still proved with this edit" ;;
            bad_*) echo "rt: must-fail $crate/$name: BAD EDIT: the prover cannot read the edited text" ;;
            lost_*) echo "rt: must-fail $crate/$name: NOT TRIED: its check was killed" ;;
            *) echo "rt: must-fail $crate/$name: refused, as it must be: error" ;;
        esac
    done
done
"""


def loaded():
    """tests/wrong_bodies/run as a module."""
    loader = importlib.machinery.SourceFileLoader("wrong_bodies", str(RUN))
    module = importlib.util.module_from_spec(importlib.util.spec_from_loader("wrong_bodies", loader))
    loader.exec_module(module)
    return module


def edit(old="a < b", new="a <= b", file="src/lib.rt"):
    return "file: %s\nold: %s\nnew: %s\n" % (file, old, new)


class Checkout(unittest.TestCase):
    """Runs a copy of the tool in a checkout of one crate."""

    def setUp(self):
        room = tempfile.TemporaryDirectory()
        self.addCleanup(room.cleanup)
        self.top = pathlib.Path(room.name)
        self.write("crates.txt", "one:\n")
        self.write("crates/one/src/lib.rt", "a < b\nc\nc\n")
        self.write("crates/one/must-fail/of_the_gate.edit", edit())
        self.write("bin/rt", RT).chmod(0o755)
        self.write("tests/wrong_bodies/run", RUN.read_text()).chmod(0o755)

    def write(self, name, text):
        path = self.top / name
        path.parent.mkdir(parents=True, exist_ok=True)
        path.write_text(text)
        return path

    def add(self, name, text):
        self.write("tests/wrong_bodies/one/%s.edit" % name, text)

    def run_tool(self, *words):
        """The status, the lines, and the calls of rt."""
        calls = self.top / "calls"
        calls.write_text("")
        env = {**os.environ, "PATH": "%s:%s" % (self.top / "bin", os.environ["PATH"]), "RT_CALLS": str(calls)}
        done = subprocess.run([sys.executable, "-B", str(self.top / "tests/wrong_bodies/run"), *words], env=env, capture_output=True, text=True)
        return done.returncode, done.stdout.splitlines(), calls.read_text().splitlines()

    def test_refused_edits_end_with_0(self):
        self.add("less", edit())
        self.add("more", edit(new="a > b"))
        status, lines, calls = self.run_tool()
        self.assertEqual((0, ["must-fail one"]), (status, calls))
        self.assertEqual(["wrong bodies: 2 refused, 0 proved, 0 that no longer apply, 0 that could not be tried"], lines)

    def test_each_other_end_is_told_and_ends_with_1(self):
        for name, word in (("proved_still", "PROVED"), ("bad_text", "no longer applies"), ("lost_run", "could not be tried")):
            self.add(name, edit())
            status, lines, _ = self.run_tool()
            self.assertEqual(1, status, name)
            self.assertTrue(lines[0].startswith("one/%s.edit: %s" % (name, word)), lines)
            (self.top / ("tests/wrong_bodies/one/%s.edit" % name)).unlink()

    def test_an_edit_that_does_not_apply_is_not_handed_to_rt(self):
        for text in (edit(old="gone"), edit(old="c"), edit(file="src/none.rt"), edit(file="specs/Lib.antt"), "file: src/lib.rt\nold: a\n", "text\n"):
            self.add("stale", text)
            status, lines, calls = self.run_tool()
            self.assertEqual((1, []), (status, calls), text)
            self.assertTrue(lines[0].startswith("one/stale.edit: no longer applies: "), lines)

    def test_after_the_gate_the_edits_are_tried_over_what_it_kept(self):
        self.add("less", edit())
        self.assertEqual((0, ["ci one", "must-fail one"]), self.run_tool("--after-gate")[::2])

    def test_a_crate_without_edits_is_refused(self):
        self.add("less", edit())
        self.assertEqual(2, self.run_tool("two")[0])


class Edits(unittest.TestCase):
    def test_all_edits_of_the_repository_apply(self):
        tool = loaded()
        inside = [tool.Edit(path.parent.parent.name, path.name, path) for path in sorted(TOP.glob("crates/*/must-fail/*.edit"))]
        for one in inside + tool.edits(TOP, []):
            with self.subTest(crate=one.crate, name=one.name):
                tool.check_applies(one, TOP / "crates" / one.crate)

    def test_the_gate_tries_sixty_edits_at_most(self):
        inside = list(TOP.glob("crates/*/must-fail/*.edit"))
        self.assertLessEqual(len(inside), 60)
        self.assertLessEqual(len({path.parent for path in inside}), 25)


if __name__ == "__main__":
    unittest.main()
