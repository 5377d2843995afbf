"""The archive of a release, and what its launcher answers by itself."""
import gzip
import importlib.machinery
import importlib.util
import io
import os
import pathlib
import shutil
import subprocess
import sys
import tarfile
import tempfile
import unittest

import runs

LAST = "examples: 5 passed, 0 failed\npacked: 7 passed, 0 failed\n"  # of the gate's log
STAND_IN = "/bin/echo"  # a program that needs the C library alone
PROGRAMS = ("replay_main", "block_app", "zovatsemo")
FAULTS = {"words": [0], "size": [1], "target": range(1, 5), "script": range(1, 5), "capture": [1, 2, *range(4, 9), *range(11, 20)],
          "policy": [*range(1, 15), *range(21, 25)], "tree": range(1, 4), "map": range(1, 10)}


sys.path.insert(0, str(runs.TOP / "tools"))


def loaded():
    """tools/release as a module."""
    loader = importlib.machinery.SourceFileLoader("release", str(runs.TOP / "tools/release"))
    module = importlib.util.module_from_spec(importlib.util.spec_from_loader("release", loader))
    loader.exec_module(module)
    return module


release = loaded()
proved = release.proved


def run(*words, cwd=None, **how):
    """What a command writes, its errors and its status."""
    done = subprocess.run([str(word) for word in words], cwd=cwd, capture_output=True, text=True, **how)
    return done.returncode, done.stdout, done.stderr


class Parts(unittest.TestCase):
    """Parts of tools/release."""

    def test_a_gate_that_passed(self):
        self.assertEqual(proved.gate_passed("rt: ok\n57 passed, 0 failed\nplan: 9 passed, 0 failed\n" + LAST, "packed"),
                         "57 passed, 0 failed")

    def test_a_gate_that_did_not(self):
        for log in ("", "56 passed, 1 failed\n", "57 passed, 0 failed\nplan: 8 passed, 1 failed\n",
                    "57 passed, 0 failed\nFAILED (failures=1)\n",
                    "57 passed, 0 failed\na package of tools/look is missing: apt-get install it\n",
                    "57 passed, 0 failed (plan_core and the crates below alone: not the gate)\n"):
            with self.subTest(log), self.assertRaises(proved.Refused):
                proved.gate_passed(log + LAST, "packed")
        for last in ("", "examples: 5 passed, 0 failed\n", LAST.replace("7 passed, 0", "6 passed, 1")):
            with self.assertRaises(proved.Refused):
                proved.gate_passed("57 passed, 0 failed\nplan: 9 passed, 0 failed\n" + last, "packed")

    def test_an_archive_is_of_no_time_and_no_one(self):
        files = {"b": (b"two", False), "a": (b"one", True)}
        packed = release.archive("folder", files, 7)
        self.assertEqual(packed, release.archive("folder", dict(reversed(files.items())), 7))
        self.assertEqual(packed[3:8], bytes(5), "no name and no time in the head of gzip")
        with tarfile.open(fileobj=io.BytesIO(gzip.decompress(packed))) as tar:
            told = [(entry.name, entry.mode, entry.mtime, entry.uid, entry.gid, entry.uname) for entry in tar]
        self.assertEqual(told, [("folder/a", 0o755, 7, 0, 0, ""), ("folder/b", 0o644, 7, 0, 0, "")])

    def test_libraries(self):
        self.assertEqual(proved.needed_libraries(STAND_IN), {"libc.so.6"})


class Archive(unittest.TestCase):
    """The archive that is packed from a clone of this repository, with stand-ins for the programs."""

    @classmethod
    def setUpClass(cls):
        folder = tempfile.TemporaryDirectory()
        cls.addClassCleanup(folder.cleanup)
        cls.folder = pathlib.Path(folder.name)
        cls.clone, cls.log = cls.folder / "clone", cls.folder / "log"
        subprocess.run(["git", "clone", "-q", runs.TOP, cls.clone], check=True)
        shutil.copytree(runs.TOP / "tools", cls.clone / "tools", dirs_exist_ok=True)
        shutil.copy2(runs.TOP / "zovatsemo", cls.clone)
        for words in (("add", "-A"), ("commit", "-q", "--allow-empty", "-m", "The tools as they are here")):
            subprocess.run(["git", "-c", "user.name=test", "-c", "user.email=test", *words], cwd=cls.clone, check=True)
        cls.log.write_text("57 passed, 0 failed\n" + LAST)
        for name in PROGRAMS:
            (cls.clone / "crates" / name / "out").mkdir()
            shutil.copy2(STAND_IN, cls.clone / "crates" / name / "out" / name)
        (cls.folder / "rt").write_text("#!/bin/sh\necho a toolchain\n")
        (cls.folder / "rt").chmod(0o755)
        path = "%s:%s" % (cls.folder, os.environ["PATH"])
        total = run("tools/sources", "sum", cwd=cls.clone)[1].strip()
        if run("tools/keep_proved", total, cwd=cls.clone, env={**os.environ, "PATH": path})[0]:
            raise AssertionError("nothing was kept")

    def pack(self):
        """Packs the archive, and answers its path."""
        status, written, errors = run(self.clone / "tools/release", self.log)
        self.assertEqual((status, errors), (0, ""))
        return pathlib.Path(written.strip())

    def unpack(self, packed):
        """Unpacks the archive, and answers its folder."""
        with tarfile.open(packed) as tar:
            tar.extractall(self.folder)
        return self.folder / packed.name.replace("-x86_64.tar.gz", "")

    def test_the_same_bytes_and_what_is_in_them(self):
        packed = self.pack()
        first = packed.read_bytes()
        self.assertEqual(self.pack().read_bytes(), first)
        top = self.unpack(packed)
        commit = run("git", "rev-parse", "HEAD", cwd=self.clone)[1].strip()
        about = (top / "RELEASE").read_text()
        for line in ("commit       %s" % commit, "toolchain    a toolchain", "gate         57 passed, 0 failed",
                     "replay_app"):
            self.assertIn(line, about.splitlines())
        self.assertRegex(about, r"\nneeds        x86_64 Linux with glibc 2\.\d+ or later\n")
        for name in PROGRAMS:
            self.assertEqual((top / "bin" / name).read_bytes(), pathlib.Path(STAND_IN).read_bytes())
        for words in (["check", "some policy"], ["--plain", "check", "p"], ["--help", "link"], ["link", "--help"], ["relpay"], [],
                      ["--block", "calm", "p"]):
            self.assertEqual(run(top / "zovatsemo", *words), (0, " ".join(words) + "\n", ""))
        how = {"env": {**os.environ, "POSIXLY_CORRECT": "1"}}  # has the stand-in write the word `--help`
        told, here = (run(place / "zovatsemo", "--help", **how) for place in (top, self.clone))
        self.assertEqual(told[1].splitlines(), here[1].splitlines()[:-2])
        self.assertEqual((told[0], told[2], told[1].splitlines()[0]), (0, "", "--help"))
        self.assertIn("--explain KIND CODE", told[1])
        self.assertIn(commit, run(top / "zovatsemo", "--version")[1])
        explained = run(runs.TOP / "tools/explain", "policy", 7)
        self.assertEqual(run(top / "zovatsemo", "--explain", "policy", 7), explained)
        self.assertEqual(run(top / "tools/look", top / "examples/office/report")[0], 0)
        self.assertEqual(run(top / "tools/compare", "--help")[0], 0)
        prefix = self.folder / "installed"
        self.assertEqual(run(top / "tools/install", prefix), (0, "", ""))
        self.assertEqual((prefix / "bin/zovatsemo").read_bytes(), pathlib.Path(STAND_IN).read_bytes())

    def test_a_changed_file_is_refused(self):
        stray = self.clone / "stray"
        stray.write_text("")
        self.addCleanup(stray.unlink)
        status, _, errors = run(self.clone / "tools/release", self.log)
        self.assertEqual(status, 1)
        self.assertIn("stray", errors)


class Explain(unittest.TestCase):
    """tools/explain."""

    def test_each_fault_is_told(self):
        for kind, codes in FAULTS.items():
            for code in codes:
                status, written, errors = run(runs.TOP / "tools/explain", kind, code)
                with self.subTest("%s %d" % (kind, code)):
                    self.assertEqual((status, errors), (0, ""))
                    self.assertEqual(written.count("fault %s %d\n" % (kind, code)), 1)
                    self.assertGreater(len(written.splitlines()), 1)

    def test_no_other_is(self):
        for kind, code in (("policy", 15), ("policy", "7 "), ("nothing", 1), ("capture", 0), ("capture", 3)):
            self.assertEqual(run(runs.TOP / "tools/explain", kind, code)[:2], (2, ""))
        self.assertEqual(run(runs.TOP / "tools/explain", "policy")[:2], (2, ""))


if __name__ == "__main__":
    unittest.main()
