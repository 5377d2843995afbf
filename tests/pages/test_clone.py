"""A clone in an empty folder, with packed programs and no toolchain: its first commands answer at once.

The programs are those that were built here, packed as tools/pack packs them. The search path has the tools that the
launcher and the commands need, and neither `rt` nor Python.
"""
import pathlib
import resource
import shutil
import subprocess
import tempfile
import unittest

import pages

FIRST = ("./zovatsemo replay examples/one-leaf/policy examples/one-leaf/target examples/one-leaf/capture "
         "examples/one-leaf/script")
REPORT = """a 1 1 root 0
a 2 2 root 0
d 3 1 root 0
d 4 2 root 0
e 5
end pushed 2 popped 2 empty 1 held 0 unsent 0
"""
MOST = 1  # second of processor time, since other work may share the machine


def spent():
    """The processor time of all commands that have ended, in seconds."""
    used = resource.getrusage(resource.RUSAGE_CHILDREN)
    return used.ru_utime + used.ru_stime


def examples():
    """The commands of examples/README.md."""
    page = (pages.TOP / "examples/README.md").read_text()
    return [command.text for commands in pages.sections(page) for command in commands]


class Clone(unittest.TestCase):
    """A clone whose programs are packed."""

    @classmethod
    def setUpClass(cls):
        for name in (pages.PROGRAM, *pages.SCRIPT_PROGRAMS):
            if not (pages.TOP / name).is_file():
                raise AssertionError("there is no program %s" % name)
        folder = tempfile.TemporaryDirectory()
        cls.addClassCleanup(folder.cleanup)
        cls.clone, cls.path = pathlib.Path(folder.name, "clone"), pathlib.Path(folder.name, "path")
        subprocess.run(["git", "clone", "-q", str(pages.TOP), str(cls.clone)], check=True)
        for name in ("zovatsemo", "tools", "crates.txt"):
            copy = shutil.copytree if (pages.TOP / name).is_dir() else shutil.copy2
            copy(pages.TOP / name, cls.clone / name, **({"dirs_exist_ok": True} if copy == shutil.copytree else {}))
        pages.link_tools(cls.path)
        for name in (pages.PROGRAM, *pages.SCRIPT_PROGRAMS):
            (cls.clone / name).parent.mkdir()
            shutil.copy2(pages.TOP / name, cls.clone / name)
        pages.keep_proved(cls.clone, cls.path)
        shutil.rmtree(cls.clone / "bin", ignore_errors=True)
        (cls.clone / "out/proved").rename(cls.clone / "bin")
        for name in (pages.PROGRAM, *pages.SCRIPT_PROGRAMS):
            shutil.rmtree((cls.clone / name).parent)

    def assert_at_once(self, text, printed=None):
        """A command ends with 0, takes less than a second, and prints something."""
        begun = spent()
        done = subprocess.run(["bash", "-c", text], cwd=self.clone, env={"PATH": str(self.path)}, stdin=subprocess.DEVNULL,
                              stdout=subprocess.PIPE, stderr=subprocess.STDOUT, text=True, timeout=pages.TIMEOUT)
        self.assertEqual(done.returncode, 0, done.stdout)
        self.assertTrue(done.stdout == printed if printed else done.stdout, done.stdout)
        self.assertLess(spent() - begun, MOST)

    def test_the_first_command(self):
        self.assertIn("    $ " + FIRST, (pages.TOP / "README.md").read_text().splitlines())
        self.assertFalse((self.path / "rt").exists() or (self.path / "python3").exists())
        self.assert_at_once(FIRST, REPORT)

    def test_each_example(self):
        found = examples()
        self.assertGreater(len(found), 8)
        for text in found:
            with self.subTest(text):
                self.assert_at_once(text)

    def test_the_programs_for_scripts(self):
        self.assert_at_once(FIRST.replace("./zovatsemo", "bin/replay_main"), REPORT)
        for name in ("./zovatsemo --block", "bin/block_app"):
            self.assert_at_once(name + " calm examples/uplink/strict examples/uplink/target", "calm yes\n")

    def test_help_and_version(self):
        for text in ("./zovatsemo --help link", "./zovatsemo link --help", "./zovatsemo --version"):
            self.assert_at_once(text)
        self.assert_at_once("./zovatsemo --help | grep -o -e '^replay POLICY' -e ' --prove '", "replay POLICY\n --prove \n")

    def test_a_misspelt_command(self):
        self.assert_at_once("./zovatsemo relpay 2>&1 | grep -o 'did you mean replay'", "did you mean replay\n")
        self.assert_at_once("./zovatsemo --plain relpay || [ $? -eq 2 ]", "fault words 0 0\n")


if __name__ == "__main__":
    unittest.main()
