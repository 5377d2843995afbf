"""The packed programs: what tools/pack writes, what it refuses, and that the gate fails where a byte of them is changed.

Common commands stand in for the programs, and a script for the toolchain's command `rt`.
"""
import json
import os
import pathlib
import shutil
import subprocess
import sys
import tempfile
import unittest

TOP = pathlib.Path(__file__).resolve().parent.parent.parent
COPIED = ("tools/sources", "tools/keep_proved", "tools/pack", "tools/proved_programs.py", "tests/tools/packed",
          "tests/tools/conformance", ".gitignore", ".gitattributes")
# Programs that need the C library alone, and differ in their bytes.
STAND_INS = {"replay_main": pathlib.Path("/bin/true").read_bytes(), "block_app": pathlib.Path("/bin/echo").read_bytes(),
             "zovatsemo": pathlib.Path("/bin/true").read_bytes() + b"for people"}
PROGRAMS = tuple(STAND_INS)
CASES = {"plan": ([], ""), "block": (["-n"], "")}  # of each suite the words and the output
LINE = "a kit logic 5"
LOG = "7 passed, 0 failed\nplan: 3 passed, 0 failed\nexamples: 2 passed, 0 failed\n"
LAST = "packed: there is no bin/BUILT\npacked: 0 passed, 1 failed\n"


class Checkout(unittest.TestCase):
    """A checkout of two small crates, packed and committed."""

    @classmethod
    def setUpClass(cls):
        folder = tempfile.TemporaryDirectory()
        cls.addClassCleanup(folder.cleanup)
        cls.first = pathlib.Path(folder.name, "first")
        made = cls("make")
        made.place(cls.first)
        made.make()

    def setUp(self):
        folder = tempfile.TemporaryDirectory()
        self.addCleanup(folder.cleanup)
        shutil.copytree(self.first, pathlib.Path(folder.name, "copy"), symlinks=True)
        self.place(pathlib.Path(folder.name, "copy"))

    def place(self, folder):
        self.top, self.log, self.path = folder / "checkout", folder / "log", folder / "toolchain"

    def make(self):
        """Makes the checkout, packs its programs and commits them."""
        for name in COPIED:
            (self.top / name).parent.mkdir(parents=True, exist_ok=True)
            shutil.copy2(TOP / name, self.top / name)
        self.write("crates.txt", "# crates\nlow:\nreplay_main: low\nblock_app: low\nzovatsemo: low\n")
        for name in ("low", *PROGRAMS):
            self.write("crates/%s/src/main.rt" % name, "fn main() {}\n")
        for suite, (words, text) in CASES.items():
            case = {"name": "one", "suite": suite, "words": words, "files": {}, "stdout": {"text": text}, "status": 0}
            self.write("tests/cases/%s.jsonl" % suite, json.dumps(case) + "\n")
        for name in PROGRAMS:
            self.build(name)
        self.set_toolchain(LINE)
        self.git("init", "-q")
        self.git("add", "-A")
        self.commit()
        self.keep_proved()
        self.log.write_text(LOG + LAST)
        self.assertEqual(self.pack()[0], 0)
        self.git("add", "-A")
        self.commit()

    def write(self, name, text):
        path = self.top / name
        path.parent.mkdir(parents=True, exist_ok=True)
        path.write_text(text)

    def build(self, name, more=b""):
        """Puts a program where the toolchain leaves it, with some more bytes after its end."""
        self.write("crates/%s/out/%s" % (name, name), "")
        (self.top / "crates" / name / "out" / name).write_bytes(STAND_INS[name] + more)

    def set_toolchain(self, line):
        """Puts a command `rt` on the path that says this line."""
        self.path.mkdir(exist_ok=True)
        (self.path / "rt").write_text("#!/bin/sh\necho '%s'\n" % line)
        (self.path / "rt").chmod(0o755)

    def run_in(self, *words):
        """The status and the text of a command in the checkout."""
        done = subprocess.run(words, cwd=self.top, stdout=subprocess.PIPE, stderr=subprocess.STDOUT, text=True,
                              env={**os.environ, "PATH": "%s:%s" % (self.path, os.environ["PATH"])})
        return done.returncode, done.stdout

    def git(self, *words):
        self.assertEqual(self.run_in("git", "-c", "user.name=test", "-c", "user.email=test", *words)[0], 0)

    def commit(self):
        self.git("commit", "-q", "-m", "As it is")

    def keep_proved(self):
        self.assertEqual(self.run_in("tools/keep_proved", self.run_in("tools/sources", "sum")[1].strip())[0], 0)

    def pack(self):
        return self.run_in("tools/pack", str(self.log))

    def packed(self):
        return self.run_in(sys.executable, "-B", "tests/tools/packed")

    def change(self, name):
        """Changes one byte in the middle of a file."""
        data = bytearray((self.top / name).read_bytes())
        data[len(data) // 2] ^= 1
        (self.top / name).write_bytes(data)

    def assert_wrong(self, said):
        status, told = self.packed()
        self.assertEqual(status, 1)
        self.assertIn(said, told)
        self.assertRegex(told, r"packed: \d+ passed, [1-9]\d* failed\n$")

    # the gate ----------------------------------------------------------------

    def test_packed_programs_pass(self):
        self.assertEqual(self.packed(), (0, "packed: 9 passed, 0 failed\n"))

    def test_a_changed_byte_of_a_program_fails(self):
        for name in PROGRAMS:
            self.change("bin/" + name)
            self.assert_wrong("bin/%s isn't the program that bin/BUILT names" % name)
            self.change("bin/" + name)
        self.assertEqual(self.packed()[0], 0)

    def test_a_changed_byte_of_a_source_fails(self):
        for name in ("crates/low/src/main.rt", "crates/block_app/src/main.rt", "crates/zovatsemo/src/main.rt", "crates.txt"):
            self.change(name)
            self.assert_wrong("other sources")
            self.change(name)
        self.assertEqual(self.packed()[0], 0)

    def test_a_changed_byte_of_built_fails(self):
        built = self.top / "bin/BUILT"
        text = built.read_bytes()
        for at in range(len(text)):
            if at % 17 == 0 or text[at:at + 1] == b"\n":
                built.write_bytes(text[:at] + bytes([text[at] ^ 1]) + text[at + 1:])
                self.assertEqual(self.packed()[0], 1, "byte %d" % at)
        built.write_bytes(text)
        self.assertEqual(self.packed()[0], 0)

    def test_nothing_packed_fails(self):
        shutil.rmtree(self.top / "bin")
        self.assert_wrong("there is no bin/BUILT; tools/pack makes it")

    def test_another_program_than_the_one_that_was_built_fails(self):
        for name in PROGRAMS:
            self.build(name, b"more")
            self.keep_proved()
            self.assert_wrong("bin/%s isn't byte by byte the program that was built here" % name)
            self.build(name)

    def test_another_toolchain_has_the_cases_run(self):
        self.build("block_app", b"more")
        self.set_toolchain("a later kit")
        self.keep_proved()
        status, told = self.packed()
        self.assertEqual(status, 0, told)
        self.assertIn("built by another toolchain (a kit logic 5) than the one here (a later kit)", told)
        self.assertEqual([line for line in told.splitlines() if line.endswith("1 passed, 0 failed")],
                         ["plan: 1 passed, 0 failed", "block: 1 passed, 0 failed", "block: 1 passed, 0 failed", "plan: 1 passed, 0 failed"])
        self.write("tests/cases/plan.jsonl", (self.top / "tests/cases/plan.jsonl").read_text().replace('"status": 0', '"status": 1'))
        for name in ("replay_main", "zovatsemo"):
            self.assert_wrong("bin/%s doesn't pass all conformance cases" % name)

    # tools/sources -----------------------------------------------------------

    def test_the_sum_goes_by_names_and_contents(self):
        def total():
            return self.run_in("tools/sources", "sum")[1]
        first = total()
        os.utime(self.top / "crates/low/src/main.rt", (0, 0))
        for name in ("crates/low/out/main.rt", "crates/low/must-fail/a.edit", "crates/other/src/lib.rt", "notes"):
            self.write(name, "more")
        self.write("crates.txt", "low:\n\nother: low\nzovatsemo: low\nblock_app: low\nreplay_main: low # more\n")
        self.assertEqual(total(), first)
        seen = {first}
        for name in ("crates/low/src/main.rt~", "crates/low/src/.hidden", "crates/low/specs/two words.antt",
                     "crates/low/proofs/a/b.antt", "crates/low/src/-n"):
            self.write(name, "")
            seen.add(total())
        self.write("crates.txt", "low: itoa\nblock_app: low\nzovatsemo: low\nreplay_main: low\n")
        seen.add(total())
        (self.top / "crates/low/src/main.rt").rename(self.top / "crates/low/src/lib.rt")
        seen.add(total())
        self.assertEqual(len(seen), 8)
        self.assertEqual(self.run_in("env", "LC_ALL=C.UTF-8", "tools/sources", "sum")[1], total())

    def test_what_can_not_be_read_has_no_sum(self):
        os.symlink("nothing", self.top / "crates/low/src/link.rt")
        self.assertEqual(self.run_in("tools/sources", "sum"), (1, ""))
        (self.top / "crates/low/src/link.rt").unlink()
        (self.top / "crates.txt").unlink()
        self.assertEqual(self.run_in("tools/sources", "sum")[0], 1)

    def test_crates(self):
        self.assertEqual(self.run_in("tools/sources", "crates"), (0, "low\nreplay_main\nblock_app\nzovatsemo\n"))
        self.assertEqual(self.run_in("tools/sources", "programs"), (0, "".join(name + "\n" for name in PROGRAMS)))
        self.assertEqual(self.run_in("tools/sources")[0], 2)

    # tools/keep_proved and tools/pack ----------------------------------------

    def test_sources_that_changed_meanwhile_are_not_kept(self):
        before = self.run_in("tools/sources", "sum")[1].strip()
        self.change("crates/low/src/main.rt")
        kept = (self.top / "out/proved/BUILT").read_text()
        status, told = self.run_in("tools/keep_proved", before)
        self.assertEqual((status, told), (1, "keep_proved: the sources changed while they were proved; nothing is kept\n"))
        self.assertEqual((self.top / "out/proved/BUILT").read_text(), kept)

    def test_what_is_packed(self):
        facts = dict(line.split(" ", 1) for line in (self.top / "bin/BUILT").read_text().splitlines())
        self.assertEqual(list(facts), ["toolchain", "sources", *PROGRAMS, "gate", "commit", "lines"])
        self.assertEqual((facts["toolchain"], facts["gate"]), (LINE, "7 passed, 0 failed"))
        for name in PROGRAMS:
            self.assertTrue(os.access(self.top / "bin" / name, os.X_OK))
        self.assertEqual(self.run_in("git", "status", "--porcelain"), (0, ""))

    def assert_refused(self, said):
        before = (self.top / "bin/BUILT").read_bytes()
        status, told = self.pack()
        self.assertEqual(status, 1)
        self.assertIn(said, told)
        self.assertEqual((self.top / "bin/BUILT").read_bytes(), before)

    def test_a_gate_that_failed_is_not_packed(self):
        for log in (LOG.replace("3 passed, 0", "2 passed, 1"), LOG.replace("7 passed, 0", "6 passed, 1"), ""):
            self.log.write_text(log + LAST)
            self.assert_refused("pack: ")
        self.log.write_text(LOG.split("examples")[0])
        self.assert_refused("didn't run to its end")

    def test_what_differs_from_the_commit_is_not_packed(self):
        self.write("stray", "")
        self.assert_refused("stray")

    def test_other_sources_are_not_packed(self):
        self.change("crates/low/src/main.rt")
        self.git("add", "-A")
        self.commit()
        self.assert_refused("built from other sources")

    def test_a_changed_program_is_not_packed(self):
        for name in PROGRAMS:
            self.change("out/proved/" + name)
            self.assert_refused("out/proved/%s isn't the program" % name)
            self.change("out/proved/" + name)


if __name__ == "__main__":
    unittest.main()
