"""The check of pages itself: what it accepts, and that it refuses what isn't so."""
import contextlib
import importlib.machinery
import importlib.util
import io
import os
import pathlib
import shutil
import tempfile
import unittest

import pages

PRINTING = "#!/bin/sh\nprintf 'one\\n\\ntwo\\n'\nexit 3\n"


def loaded():
    """tests/pages/check as a module."""
    loader = importlib.machinery.SourceFileLoader("check", str(pages.TOP / "tests/pages/check"))
    module = importlib.util.module_from_spec(importlib.util.spec_from_loader("check", loader))
    loader.exec_module(module)
    return module


check = loaded()


class Check(unittest.TestCase):
    """Pages of a few lines, with a program that prints `one`, an empty line and `two`, and ends with status 3."""

    def setUp(self):
        folder = tempfile.TemporaryDirectory()
        self.addCleanup(folder.cleanup)
        self.program, self.checkout = (pathlib.Path(folder.name) / name for name in ("program", "checkout"))
        self.program.write_text(PRINTING)
        self.program.chmod(0o755)
        shutil.copytree(pages.TOP / "examples", self.checkout / "examples")
        for name in ("zovatsemo", "tools/sources", "tools/usage", "tools/keep_proved"):
            (self.checkout / name).parent.mkdir(exist_ok=True)
            shutil.copy2(pages.TOP / name, self.checkout / name)
        (self.checkout / "crates.txt").write_text("replay_main:\nblock_app:\nzovatsemo:\n")
        for name in ("replay_main", "block_app", "zovatsemo"):
            (self.checkout / "crates" / name / "src").mkdir(parents=True)
            (self.checkout / "crates" / name / "src/main.rt").write_text("fn main() {}\n")
        for name in pages.SCRIPT_PROGRAMS:
            path = self.checkout / name
            path.parent.mkdir()
            path.write_text("#!/bin/sh\necho %s\n" % path.name)
            path.chmod(0o755)

    def result(self, *lines):
        """Whether a page of these lines is right, and what is said of it."""
        out = io.StringIO()
        with contextlib.redirect_stdout(out):
            right = check.check_page("page", "".join(line + "\n" for line in lines), self.program, self.checkout)
        return right, out.getvalue()

    def assert_right(self, count, *lines):
        self.assertEqual(self.result(*lines), (True, "page: %d passed, 0 failed\n" % count))

    def assert_wrong(self, said, *lines):
        right, output = self.result(*lines)
        self.assertFalse(right)
        self.assertIn(said, output)

    def test_right_pages(self):
        self.assert_right(2, "    $ ./zovatsemo check x", "    one", "", "    two", "    $ echo $?", "    3")
        self.assert_right(2, "# One", "    $ cd examples", "# Two", "    $ test -e examples && echo yes", "    yes")
        self.assert_right(2, "    $ cd examples", "", "Words.", "", "    $ ls -d office", "    office")
        self.assert_right(1, "    $ echo not shown", "", "Words.", "", "    not a command")
        self.assert_right(2, "    $ echo not shown", "    $ echo shown", "    shown", "", "", "Words.")
        self.assert_right(2, "    $ false", "    $ echo $?", "    1", "    ")
        self.assert_right(1, "    $ echo told >&2", "    told")
        self.assert_right(2, "    $ echo written; echo told >&2; false", "    written", "    told", "    $ echo $?", "    1")
        self.assert_wrong("line 1, shown:   told", "    $ echo written; echo told >&2", "    told", "    written")
        self.assert_right(2, "    $ printf 'a b\\n' > new.report", "    $ cat new.report", "    a b")
        self.assert_right(1, "    $ wc -c", "    0")

    def test_the_launcher_runs_the_programs_that_were_built(self):
        os.utime(self.program, (0, 0))
        self.assert_right(2, "    $ ./zovatsemo check", "    one", "", "    two", "    $ echo $?", "    3")
        self.assert_right(2, "    $ bin/zovatsemo check", "    one", "", "    two", "    $ echo $?", "    3")
        self.assert_right(2, "    $ bin/replay_main check", "    replay_main", "    $ bin/block_app check", "    block_app")

    def test_a_wrong_output(self):
        for command, shown, said in (
                ("echo one", ["two"], "line 1, shown:   two\n    line 1, printed: one"),
                ("echo one", ["one", "two"], "line 2, shown:   two\n    line 2, printed: (nothing)"),
                ("seq 2", ["1"], "line 2, shown:   (nothing)\n    line 2, printed: 2"),
                ("echo ' one'", ["one"], "line 1, printed:  one")):
            with self.subTest(command, shown=shown):
                self.assert_wrong(said, "    $ " + command, *("    " + line for line in shown))
        self.assert_wrong("page:3: ./zovatsemo check", "Words.", "", "    $ ./zovatsemo check", "    one", "    two",
                          "    $ echo $?", "    3")

    def test_an_output_where_nothing_is_printed(self):
        self.assert_wrong("line 1, printed: (nothing)", "    $ true", "    one")

    def test_an_output_that_is_not_shown_before_the_status(self):
        self.assert_wrong("line 1, shown:   (nothing)", "    $ ./zovatsemo check", "    $ echo $?", "    3")

    def test_a_status(self):
        self.assert_wrong("status 1", "    $ false")
        self.assert_wrong("status 3", "    $ ./zovatsemo check x", "    one", "", "    two")
        self.assert_wrong("status 127", "    $ no-such-command", "    $ true")
        self.assert_wrong("status 2", "    $ echo 'one")
        self.assert_wrong("line 1, printed: 1", "    $ false", "    $ echo $?", "    0")

    def test_a_command_that_ends_the_shell(self):
        self.assert_wrong("page:2: true\n    it didn't end", "    $ exit 0", "    $ true")

    def test_a_page_out_of_form(self):
        self.assert_wrong("no `$ ` before it", "    ./zovatsemo check x")
        self.assert_wrong("no `$ ` before it", "Words:", "", "    rt ci")
        self.assert_wrong("begins with one", "    one", "    $ echo one")
        self.assert_wrong("no fence", "```", "$ echo one", "```")
        self.assert_wrong("no fence", "$ echo one")

    def test_a_file_that_a_command_changes(self):
        self.assert_wrong("change examples/office/script", "    $ echo drain >> examples/office/script")
        self.assert_right(1, "    $ touch examples/office/script")

    def test_nothing_is_left(self):
        script = self.checkout / "examples/office/script"
        before = script.read_bytes()
        self.result("    $ echo drain > examples/office/script")
        self.assertEqual(script.read_bytes(), before)
        with pages.Copy(self.program, self.checkout) as copy:
            room = copy.room
        self.assertFalse(room.exists())

    def test_what_is_not_run(self):
        for text in pages.NOT_RUN:
            self.assertEqual(self.result("    $ " + text), (True, "page: 0 passed, 0 failed, 1 not run\n"))
            self.assert_wrong("isn't run", "    $ " + text, "    one")

    def test_each_command_that_is_not_run_is_on_a_page(self):
        found = {command.text for form in check.PAGES for path in pages.TOP.glob(form)
                 for commands in pages.sections(path.read_text()) for command in commands}
        self.assertEqual(set(pages.NOT_RUN) - found, set())

    def test_stored_outputs(self):
        out = io.StringIO()
        with contextlib.redirect_stdout(out):
            self.assertFalse(check.check_examples(self.program))
        self.assertIn("examples/office: replay policy target capture script doesn't print report", out.getvalue())
        self.assertIn("examples/spelling: check policy doesn't print text", out.getvalue())
        self.assertIn("examples: 0 passed, ", out.getvalue())
        self.program.write_text("#!/bin/sh\ncase $2 in check) cat text ;; *) cat report ;; esac\n")
        with contextlib.redirect_stdout(io.StringIO()):
            self.assertTrue(check.check_examples(self.program))


if __name__ == "__main__":
    unittest.main()
