"""Faults of output and input of the built programs: an answer that can't be written past some byte, and files that can't be read."""
import os
import resource
import subprocess
import tempfile
import unittest

import built

FULL = "/dev/full"  # takes no byte
UNREADABLE = "/proc/self/mem"  # can be opened, and its first read fails
SHELF_FAULT, SINK_FAULT = 8, 9
NEAR = 8  # bytes at both ends of an answer, past each of which one run can't write
EXAMPLE = built.EXAMPLES / "office"
FILES = {name: str(EXAMPLE / name) for name in ("policy", "target", "capture", "script")}
SHARED = ["check {policy}", "plan {policy} {target}", "direct {policy} {capture} {script}", "link {policy} {target} {capture} 1000000000",
          "replay {policy} {target} {capture} {script} tap bytes", "soak 7 200"]
FIRST = [*SHARED, "forward {policy} {target} {capture} 1000000000", "via {policy} {topology} {map} {target} {capture} {script}"]
# The programs, each by a suite and whether it is the one for people, and their commands.
COMMANDS = {("", False): FIRST, ("block", False): [*SHARED, "calm {policy} {target}"],
            ("", True): [*FIRST, *("--plain " + command for command in FIRST)]}


def placed(folder):
    """The files of the office, with a topology that `plan` fits and the map that it tells, for `via`."""
    topology, given = os.path.join(folder, "topology"), os.path.join(folder, "map")
    four = "(leaf leaf leaf leaf)"
    with open(topology, "w", encoding="ascii") as file:
        file.write("(%s %s)\n" % (four, four))
    with open(given, "w", encoding="ascii") as file:
        file.write("map root -\n")
        for place, (node, leaves) in enumerate((("urgent", "voice video ssh dns"), ("normal", "web mail backup other"))):
            file.write("map %s %d\n" % (node, place))
            for number, leaf in enumerate(leaves.split()):
                file.write("map %s %d.%d\n" % (leaf, place, number))
    return {**FILES, "topology": topology, "map": given}


def answer(program, words, out, most=None):
    """The status of a run that writes to this file, which can't grow past this many bytes, if a number is given."""
    before, hard = resource.getrlimit(resource.RLIMIT_FSIZE)
    resource.setrlimit(resource.RLIMIT_FSIZE, (before if most is None else most, hard))
    try:
        # Python ignores the signal of a file that would grow too long, and so does the program then: its write fails.
        return subprocess.run([str(program), *words], stdin=subprocess.DEVNULL, stdout=out, stderr=subprocess.DEVNULL, timeout=60,
                              restore_signals=False).returncode
    finally:
        resource.setrlimit(resource.RLIMIT_FSIZE, (before, hard))


class Faults(unittest.TestCase):
    def setUp(self):
        folder = tempfile.TemporaryDirectory(prefix="faults-")
        self.addCleanup(folder.cleanup)
        self.folder, self.files = folder.name, placed(folder.name)

    def each(self):
        """Each command of each program."""
        for (suite, front), commands in COMMANDS.items():
            program = built.runner.program_for(suite, None, front)
            self.assertIsNotNone(program, "no program; looked for %s" % built.runner.programs(suite, None, front))
            for command in commands:
                yield program, [word.format(**self.files) for word in command.split()]

    def written(self, program, words, most=None):
        """The status of a run, and what it writes into a file that can't grow past this many bytes, if a number is given."""
        path = os.path.join(self.folder, "out")
        with open(path, "wb") as out:
            status = answer(program, words, out, most)
        with open(path, "rb") as out:
            return status, out.read()

    def test_an_answer_that_can_not_be_written_past_some_byte(self):
        for program, words in self.each():
            with self.subTest(program=program.name, words=words):
                status, whole = self.written(program, words)
                self.assertEqual((0, True), (status, len(whole) > 0))
                self.assertEqual((status, whole), self.written(program, words, len(whole)))
                step, last = max(1, len(whole) // 10), max(0, len(whole) - NEAR)
                for most in sorted({*range(min(NEAR, len(whole))), *range(0, len(whole), step), *range(last, len(whole))}):
                    self.assertEqual((SINK_FAULT, whole[:most]), self.written(program, words, most), "past %d bytes" % most)
                with open(FULL, "wb") as out:
                    self.assertEqual(SINK_FAULT, answer(program, words, out))

    def test_files_that_can_not_be_read(self):
        for program, words in self.each():
            for place, word in enumerate(words):
                if word in self.files.values():
                    for bad in (self.folder, UNREADABLE, os.path.join(self.folder, "absent")):
                        with self.subTest(program=program.name, words=words, bad=bad, place=place):
                            self.assertEqual((SHELF_FAULT, b""), self.written(program, [*words[:place], bad, *words[place + 1:]]))


if __name__ == "__main__":
    unittest.main()
