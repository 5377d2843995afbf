"""tests/mistakes/run on programs that stand in for the built ones: what it refuses."""
import json
import pathlib
import subprocess
import sys
import tempfile
import unittest

import built

RUN = built.HERE.parent / "mistakes/run"
ROWS = [json.loads(line) for line in (RUN.parent / "table.jsonl").read_text(encoding="utf-8").splitlines()]
COUNT = len(ROWS)
QUIET = sum(1 for row in ROWS if row["status"] == 0 and row.get("silent"))  # right if nothing is told


class Mistakes(unittest.TestCase):
    """A program of a shell's lines, on each mistake."""

    def told(self, lines, *more):
        """The status and the last line for such a program."""
        with tempfile.TemporaryDirectory() as folder:
            program = pathlib.Path(folder) / "program"
            program.write_text("#!/bin/sh\n" + lines)
            program.chmod(0o755)
            done = subprocess.run([sys.executable, "-B", str(RUN), str(program), *more], capture_output=True, text=True, check=False)
        return done.returncode, done.stdout.splitlines()[-1]

    def front(self):
        """The built program for people."""
        return built.program("test_mistakes", None, front=True)

    def test_nothing_is_told(self):
        self.assertEqual(self.told("exit 0\n"), (1, "%d mistakes, %d wrong" % (COUNT, COUNT - QUIET)))

    def test_another_status(self):
        self.assertEqual(self.told("%s \"$@\"\nexit 99\n" % self.front()), (1, "%d mistakes, %d wrong" % (COUNT, COUNT)))

    def test_the_line_of_a_fault(self):
        status, told = self.told("%s \"$@\"\nstatus=$?\necho fault words 0 0\nexit $status\n" % self.front())
        self.assertEqual(status, 1)
        self.assertRegex(told, r"^%d mistakes, [1-9]\d\d wrong$" % COUNT)

    def test_the_program_for_scripts_answers_otherwise(self):
        status, told = self.told("exec %s \"$@\"\n" % self.front(), "/bin/true")
        self.assertEqual(status, 1)
        self.assertRegex(told, r"^%d mistakes, [1-9]\d+ wrong$" % COUNT)


if __name__ == "__main__":
    unittest.main()
