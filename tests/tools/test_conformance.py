"""tests/tools/conformance on cases and programs that are made here: what the program for people is given, and what differs."""
import json
import pathlib
import shutil
import subprocess
import sys
import tempfile
import unittest

CONFORMANCE = pathlib.Path(__file__).resolve().parent / "conformance"
CASES = {"few": ([], "no words\n"), "files": (["check", "policy"], "check policy\n"),
         "option": (["check", "--help", "-"], "check --help -\n"), "block": (["calm"], "calm\n")}
# What answers as the cases want, if it is given the words of a case.
SCRIPT = 'if [ $# -eq 0 ]; then echo no words; else echo "$*"; fi\n'
# What answers so too, as the program for people does: it has options, and a word behind `--` is none.
FRONT = """[ "$1" = --block ] && shift
[ "$1" = --plain ] || exit 2
shift
if [ "${1-}" = -- ]; then shift; else case " $* " in *" -"*) echo an option; exit 0 ;; esac; fi
"""


class Conformance(unittest.TestCase):
    """The script in a folder with suites of its own, and programs of a shell's lines."""

    def setUp(self):
        folder = tempfile.TemporaryDirectory()
        self.addCleanup(folder.cleanup)
        self.top = pathlib.Path(folder.name)
        (self.top / "tools").mkdir()
        (self.top / "cases").mkdir()
        shutil.copy2(CONFORMANCE, self.top / "tools/conformance")
        for suite, (words, text) in CASES.items():
            case = {"name": "one", "suite": suite, "words": words, "files": {}, "stdout": {"text": text}, "status": 0}
            (self.top / "cases" / (suite + ".jsonl")).write_text(json.dumps(case) + "\n")

    def place(self, name, lines):
        """A program where the toolchain leaves it."""
        path = self.top / "crates" / name / "out" / name
        path.parent.mkdir(parents=True, exist_ok=True)
        path.write_text("#!/bin/sh\n" + lines)
        path.chmod(0o755)
        return path

    def run_on(self, *words):
        """The status and the lines of the script."""
        done = subprocess.run([sys.executable, "-B", "tools/conformance", *words], cwd=self.top, stdin=subprocess.DEVNULL,
                              capture_output=True, text=True, check=False)
        return done.returncode, done.stdout.splitlines()

    def test_each_program_has_its_suites(self):
        for name, lines in (("replay_main", SCRIPT), ("block_app", SCRIPT), ("zovatsemo", FRONT + SCRIPT)):
            self.place(name, lines)
        self.assertEqual(self.run_on()[1][-1], "all: 4 passed, 0 failed")
        told = ["block: 1 passed, 0 failed", "few: 1 passed, 0 failed", "files: 1 passed, 0 failed", "option: 1 passed, 0 failed",
                "all: 4 passed, 0 failed"]
        self.assertEqual(self.run_on("--front"), (0, told))

    def test_block_is_given_to_its_suites_alone(self):
        self.place("zovatsemo", 'case "$1 $2" in "--block --plain") shift 2; echo "$*" ;; *) echo otherwise ;; esac\n')
        self.assertEqual(self.run_on("--front", "block"), (0, ["block: 1 passed, 0 failed"]))
        self.assertEqual(self.run_on("--front", "files")[0], 1)

    def test_suites_of_the_program_for_people(self):
        case = {"name": "one", "suite": "front_few", "words": ["check"], "files": {}, "stdout": {"text": "check\n"}, "status": 0}
        (self.top / "cases/front_few.jsonl").write_text(json.dumps(case) + "\n")
        self.place("replay_main", SCRIPT)
        self.place("block_app", SCRIPT)
        self.place("zovatsemo", FRONT + SCRIPT)
        self.assertEqual(self.run_on()[1][-1], "all: 4 passed, 0 failed")
        self.assertEqual(self.run_on("--front")[1][-1], "all: 5 passed, 0 failed")
        self.assertEqual(self.run_on("--front", "front_few"), (0, ["front_few: 1 passed, 0 failed"]))
        self.assertEqual(self.run_on("front_few"), (2, ["conformance: the suite front_few needs --front"]))

    def test_a_program_that_answers_otherwise(self):
        self.place("replay_main", SCRIPT)
        for lines in (SCRIPT, "exit 0\n", FRONT + "exit 0\n", FRONT + SCRIPT + "exit 1\n"):
            path = self.place("zovatsemo", lines)
            for words in ([], ["--program", str(path)]):
                status, told = self.run_on("--front", *words)
                self.assertEqual((status, told[-1]), (1, "all: 0 passed, 4 failed"), lines)

    def test_a_case_that_differs_is_told_with_all_its_words(self):
        self.place("zovatsemo", FRONT + "echo otherwise\n")
        status, told = self.run_on("--front", "option")
        self.assertEqual((status, told[0]), (1, "one: --plain -- check --help -"))
        self.assertIn("    again: tools/conformance --front --only one option", told)

    def answer_otherwise(self, **answer):
        """Has the program for people answer a case of `files` otherwise."""
        (self.top / "cases/front").mkdir(exist_ok=True)
        answers = [{"suite": "files", "name": "one", "why": "It may.", "stdout": {"text": "another\n"}, "status": 0, **answer}]
        (self.top / "cases/front/answers.json").write_text(json.dumps(answers))

    def test_an_answer_of_the_program_for_people(self):
        self.place("replay_main", SCRIPT)
        self.place("zovatsemo", "echo another\n")
        self.assertEqual(self.run_on("--front", "files")[0], 1)
        self.answer_otherwise()
        self.assertEqual(self.run_on("--front", "files"), (0, ["files: 1 passed, 0 failed"]))
        self.assertEqual(self.run_on("files"), (0, ["files: 1 passed, 0 failed"]))
        self.assertEqual(self.run_on("--front", "few")[0], 1)

    def test_an_answer_that_cannot_be_meant(self):
        self.place("zovatsemo", FRONT + SCRIPT)
        for answer in ({"name": "two"}, {"why": ""}, {"stdout": {"text": "check policy\n"}}):
            self.answer_otherwise(**answer)
            self.assertEqual(self.run_on("--front", "files")[0], 2, answer)
            self.assertEqual(self.run_on("--front", "few"), (0, ["few: 1 passed, 0 failed"]))

    def test_no_program(self):
        self.place("replay_main", SCRIPT)
        status, told = self.run_on("--front", "files")
        self.assertEqual((status, told), (3, ["conformance: no program for the suite files; looked for crates/zovatsemo/out/zovatsemo"]))


if __name__ == "__main__":
    unittest.main()
