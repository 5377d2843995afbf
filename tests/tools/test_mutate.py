"""The runs of tests/tools/mutate, over programs that stand in for the built one."""
import importlib.machinery
import importlib.util
import pathlib
import subprocess
import sys
import tempfile
import unittest

MUTATE = pathlib.Path(__file__).resolve().parent / "mutate"


def loaded():
    """tests/tools/mutate as a module."""
    loader = importlib.machinery.SourceFileLoader("mutate", str(MUTATE))
    module = importlib.util.module_from_spec(importlib.util.spec_from_loader("mutate", loader))
    loader.exec_module(module)
    return module


mutate = loaded()


def answer(body, *words):
    """The status and the text of a few runs on a program of a shell's lines."""
    with tempfile.TemporaryDirectory() as folder:
        program = pathlib.Path(folder) / "program"
        program.write_text("#!/bin/sh\n" + body)
        program.chmod(0o755)
        told = subprocess.run([sys.executable, "-B", str(MUTATE), "--program", str(program), "--runs", "4", *words],
                              capture_output=True, text=True)
        return told.returncode, told.stdout


class Mutate(unittest.TestCase):
    def test_a_fault_with_its_status_may_be_told(self):
        self.assertEqual((0, "mutate: 4 runs of seed 1, 0 that answered otherwise; 4 with status 3\n"),
                         answer("echo fault policy 23 1\nexit 3\n"))

    def test_what_may_not_be_answered(self):
        for body, why in (("echo fault policy 23 1\nexit 4\n", "status"), ("printf 'fault policy 23 1'\nexit 3\n", "ends with no line feed"),
                          ("echo fault target 1 0\nexit 3\n", "status 3 with the last line"), ("exit 0\n", "ends with no line feed"),
                          ("echo fault words 0 0\nexit 2\n", "status 2"), ("exit 10\n", "status 10"), ("kill -SEGV $$\n", "signal 11"),
                          ("echo a 1 1 root 0\n", "status 0 with the last line")):
            status, text = answer(body)
            self.assertEqual((1, True), (status, why in text), text)
            self.assertIn("4 that answered otherwise", text)

    def test_a_run_is_drawn_from_the_seed_and_its_number(self):
        runs = [mutate.Run(*drawn) for drawn in ((5, 7), (5, 7), (5, 8), (6, 7))]
        answers = [(run.words, run.files) for run in runs]
        self.assertEqual(answers[0], answers[1])
        self.assertNotIn(answers[0], answers[2:])

    def test_files_are_changed(self):
        originals = [data for example in mutate.EXAMPLES for contents in example.values() for data in contents]
        for number in range(1, 300):
            files = mutate.Run(1, number).files.values()
            self.assertTrue(any(data not in originals for data in files), number)

    def test_without_a_program(self):
        told = subprocess.run([sys.executable, "-B", str(MUTATE), "--program", "/nothing"], capture_output=True, text=True)
        self.assertEqual(3, told.returncode)


if __name__ == "__main__":
    unittest.main()
