"""The man page and the completions in share/, and tools/install: they are current, they work, and no other file is overwritten."""
import os
import pathlib
import re
import shutil
import subprocess
import sys
import tempfile
import unittest

import built

TOP = built.HERE.parent.parent
COMPLETION = TOP / "share/bash-completion/completions/zovatsemo"
COMMANDS = re.search('commands="(.*?)"', COMPLETION.read_text())[1].split()


def run(*words, **how):
    """The status of a command, and what it wrote to both streams."""
    done = subprocess.run([str(word) for word in words], stdin=subprocess.DEVNULL, stdout=subprocess.PIPE,
                          stderr=subprocess.STDOUT, text=True, check=False, **how)
    return done.returncode, done.stdout


class Share(unittest.TestCase):
    """The files of share/."""

    def test_they_are_current(self):
        program = built.program("test_share", None, front=True)
        self.assertEqual(run(sys.executable, "-B", TOP / "tools/make_share", "--check", program), (0, ""))

    def test_another_help_is_seen(self):
        with tempfile.TemporaryDirectory() as folder:
            program = pathlib.Path(folder, "program")
            program.write_text("#!/bin/sh\n[ \"$1\" = --version ] && echo zovatsemo 9 && exit\n"
                               "printf 'zovatsemo\\n\\nrun FILE   run it\\n\\n-o, --output FILE   a file\\n-t, --tap NAME   a line: this or that\\n'\n")
            program.chmod(0o755)
            status, told = run(sys.executable, "-B", TOP / "tools/make_share", "--check", program)
            self.assertEqual((status, told.count("isn't current")), (1, 4), told)
            share = pathlib.Path(folder, "share")
            self.assertEqual(run(sys.executable, "-B", TOP / "tools/make_share", program, "--share", share), (0, ""))
            self.assertIn('taps="this that"', (share / "bash-completion/completions/zovatsemo").read_text())

    @unittest.skipUnless(shutil.which("groff"), "groff isn't here")
    def test_the_man_page_has_no_warning(self):
        page = TOP / "share/man/man1/zovatsemo.1"
        self.assertEqual(run("groff", "-man", "-ww", "-z", page), (0, ""))
        text = run("groff", "-man", "-Tascii", "-P-cbou", page)[1]
        for word in (*COMMANDS, "--output FILE", "--tap NAME"):
            self.assertIn(word, text)

    def completed(self, *words):
        """What bash offers for the last of these words."""
        script = '. "$0"; COMP_WORDS=(zovatsemo "$@"); COMP_CWORD=$#; _zovatsemo; printf "%s\\n" "${COMPREPLY[@]}"'
        status, told = run("bash", "-c", script, COMPLETION, *words, cwd=built.EXAMPLES / "office")
        self.assertEqual(status, 0, told)
        return " ".join(told.split())

    def test_completions_of_bash(self):
        self.assertIn("check plan replay", " ".join(COMMANDS))
        for words, offered in (([""], " ".join(COMMANDS)), (["re"], "replay"), (["--quiet", "fo"], "forward"), (["help", "di"], "direct"),
                               (["--pl"], "--plain"), (["replay", "--ta"], "--tap"), (["replay", "--tap", ""], "bytes order first drops"),
                               (["replay", "-t", "b"], "bytes"), (["--tap", "bytes", "di"], "direct"), (["soak", ""], ""),
                               (["link", "po"], "policy"), (["link", "policy", "capture.p"], "capture.pcapng"), (["-o", "scr"], "script")):
            self.assertEqual(self.completed(*words), offered, words)

    def test_completions_of_other_shells(self):
        for shell, name in (("zsh", "zsh/site-functions/_zovatsemo"), ("fish", "fish/vendor_completions.d/zovatsemo.fish")):
            text = (TOP / "share" / name).read_text()
            for word in COMMANDS:
                self.assertIn(word, text)
            if shutil.which(shell):
                self.assertEqual(run(shell, "-n", TOP / "share" / name), (0, ""))


class Install(unittest.TestCase):
    """tools/install in an archive, which has no sources, and in a checkout."""

    def setUp(self):
        folder = tempfile.TemporaryDirectory()
        self.addCleanup(folder.cleanup)
        self.top, self.prefix = pathlib.Path(folder.name, "top"), pathlib.Path(folder.name, "a prefix")
        (self.top / "tools").mkdir(parents=True)
        (self.top / "bin").mkdir()
        shutil.copy2(TOP / "tools/install", self.top / "tools/install")
        shutil.copytree(TOP / "share", self.top / "share")
        self.build("one")

    def build(self, text):
        program = self.top / "bin/zovatsemo"
        program.write_text("#!/bin/sh\necho %s\n" % text)
        program.chmod(0o755)

    def install(self, *words):
        return run(self.top / "tools/install", *words)

    def held(self):
        """What is below the prefix."""
        return {str(path.relative_to(self.prefix)): (path.read_bytes(), path.stat().st_mode & 0o777)
                for path in self.prefix.rglob("*") if path.is_file()}

    def test_install_twice_and_remove(self):
        for text in ("one", "two"):
            self.build(text)
            self.assertEqual(self.install(self.prefix), (0, ""))
            self.assertEqual(run(self.prefix / "bin/zovatsemo"), (0, text + "\n"))
        found = self.held()
        shared = [str(path.relative_to(self.top)) for path in (self.top / "share").rglob("*") if path.is_file()]
        self.assertEqual(set(found), {"bin/zovatsemo", "share/zovatsemo/INSTALLED", *shared})
        for name in shared:
            self.assertEqual(found[name], ((self.top / name).read_bytes(), 0o644))
        self.assertEqual(self.install("--remove", self.prefix), (0, ""))
        self.assertEqual(self.held(), {})
        self.assertEqual(self.install("--remove", self.prefix)[0], 1)

    def assert_left_alone(self, *words):
        """The command says which file is in its way, and changes nothing."""
        before = self.held()
        self.build("other")
        status, told = self.install(*words)
        self.assertEqual(status, 1)
        self.assertIn("wasn't installed by this, or was changed since", told)
        self.assertEqual(self.held(), before)

    def test_a_file_of_someone_else_is_not_overwritten(self):
        for name in ("bin/zovatsemo", "share/man/man1/zovatsemo.1"):
            path = self.prefix / name
            path.parent.mkdir(parents=True)
            path.write_text("of someone else\n")
            self.assert_left_alone(self.prefix)
            path.unlink()
            path.symlink_to("nowhere")
            self.assert_left_alone(self.prefix)
            self.assertTrue(path.is_symlink())
            shutil.rmtree(self.prefix)

    def test_a_file_that_was_changed_is_left(self):
        self.assertEqual(self.install(self.prefix)[0], 0)
        with open(self.prefix / "bin/zovatsemo", "a") as program:
            program.write("# changed\n")
        self.assert_left_alone(self.prefix)
        self.assert_left_alone("--remove", self.prefix)

    def test_malformed_arguments(self):
        for words in ([], [""], ["--remove"], ["a", "b"], ["--prefix"], ["--remove", "-x"]):
            self.assertEqual(self.install(*words)[0], 2, words)

    def test_a_checkout_installs_what_was_built_from_its_sources(self):
        for name in ("sources", "keep_proved"):
            shutil.copy2(TOP / "tools" / name, self.top / "tools" / name)
        for name in ("replay_main", "block_app", "zovatsemo"):
            path = self.top / "crates" / name / "src/main.rt"
            path.parent.mkdir(parents=True)
            path.write_text("fn main() {}\n")
            (self.top / "crates" / name / "out").mkdir()
            shutil.copy2(self.top / "bin/zovatsemo", self.top / "crates" / name / "out" / name)
        (self.top / "crates.txt").write_text("replay_main:\nblock_app:\nzovatsemo:\n")
        self.assertEqual(self.install(self.prefix)[0], 1)
        total = run(self.top / "tools/sources", "sum")[1].strip()
        self.assertEqual(run(self.top / "tools/keep_proved", total)[0], 0)
        self.assertEqual(self.install(self.prefix), (0, ""))
        (self.top / "crates/zovatsemo/src/main.rt").write_text("fn main() { }\n")
        self.assertEqual(self.install(self.prefix)[0], 1)

    def test_a_prefix_that_can_not_be_written(self):
        if os.geteuid():
            self.prefix.mkdir(mode=0o555)
        else:
            self.prefix.write_text("")
        self.assertEqual(self.install(self.prefix)[0], 1)


if __name__ == "__main__":
    unittest.main()
