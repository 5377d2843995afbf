"""Faults of files, names and streams: each ends with status 2 and one line, and never with a traceback."""
import os
import resource
import struct
import subprocess
import unittest
import xml.etree.ElementTree

import runs

LOOK, MAKE = runs.TOP / "tools/look", runs.TOP / "tools/make_capture"
HEAD = struct.pack("<IHHiIII", 0xA1B2C3D4, 2, 4, 0, 0, 0, 1)
ONE = "a 1 1 %s 0\nend pushed 1 popped 0 empty 0 held 1 unsent %d\n"
MOST_SECONDS = 5
NAME = b"n\xff\x1b[31m\n<&>\"'$x$"


def limited():
    """Keeps a command from more memory than it needs."""
    resource.setrlimit(resource.RLIMIT_AS, (10 ** 9, 10 ** 9))


class Streams(runs.Case):
    """Commands that are run as processes of their own."""

    def run_shell(self, text, *words, before=None):
        """The status of a shell's command with some arguments, what it writes, and its errors."""
        done = subprocess.run(["bash", "-c", text, "bash", *words], cwd=self.folder, stdout=subprocess.PIPE,
                              stderr=subprocess.PIPE, preexec_fn=before, timeout=180)
        self.assertNotIn(b"Traceback", done.stderr)
        return done.returncode, done.stdout.decode("utf-8", "replace"), done.stderr.decode("utf-8", "replace")

    def test_a_record_that_claims_gigabytes(self):
        report = self.write("report", ONE % ("one", 0))
        huge = HEAD + struct.pack("<IIII", 1, 0, 0xFFFFFFFF, 60)
        capture = self.folder / "capture"
        with open(capture, "wb") as stream:  # a file with a hole, of the length that the record claims
            stream.write(huge)
            stream.truncate(len(huge) + 0xFFFFFFFF)
        begun = resource.getrusage(resource.RUSAGE_CHILDREN)
        status, written, errors = self.run_shell('"$@"', LOOK, report, "--capture", capture, before=limited)
        used = resource.getrusage(resource.RUSAGE_CHILDREN)
        self.assertEqual((status, written), (2, ""))
        self.assertIn("record 1 claims 4,294,967,295 captured bytes, and at most 262,144 are possible", errors)
        self.assertLess(used.ru_utime + used.ru_stime - begun.ru_utime - begun.ru_stime, MOST_SECONDS)

    def test_a_block_that_claims_too_much(self):
        section = struct.pack("<IIIHHqI", 0x0A0D0D0A, 28, 0x1A2B3C4D, 1, 0, -1, 28)
        interface = struct.pack("<IIHHII", 1, 20, 1, 0, 0, 20)
        packet = struct.pack("<IIIIIIII", 6, 32, 0, 0, 0, 0xFFFFFFF0, 60, 32)
        report = self.write("report", ONE % ("one", 0))
        for data, said in ((section + interface + packet, "block 3 claims more captured bytes than it has"),
                           (section + struct.pack("<II", 6, 0xFFFFFFF0), "block 2 claims a length of 4,294,967,280 bytes"),
                           (section + interface[:-2], "block 2 is cut, or its two lengths differ"),
                           (section + packet.replace(b"\xf0\xff\xff\xff", bytes(4)),
                            "block 2 is too short, or names an unknown interface")):
            with self.subTest(said):
                _, _, errors = self.run_shell('"$@"', LOOK, report, "--capture", self.write("capture", data))
                self.assertIn("it has 0 whole packets (%s), and" % said, errors)

    def test_numbers_beyond_63_bits(self):
        for unsent in (2 ** 63, 2 ** 64 + 1, 10 ** 4000):
            report = self.write("report", ONE % ("one", unsent) if unsent < 10 ** 100 else
                                "a 1 1 one 0\nend pushed 1 popped 0 empty 0 held 1 unsent 1%s\n" % ("0" * 4000))
            self.assertEqual(self.run_shell('"$@"', LOOK, report)[0], 0)
            status, _, errors = self.run_shell('"$@"', LOOK, report, "--capture", runs.OFFICE / "capture")
            self.assertEqual((status, errors.count("\n")), (2, 1))
            self.assertIn("it has 8 whole packets, and", errors)

    def test_names_of_leaves(self):
        for length, status in ((64, 0), (65, 2), (300, 2)):
            report = self.write("report", ONE % ("x" * length, 0))
            for words in ((), ("--out", "p.svg"), ("--out", "p.png", "--panel", "backlog", "--width", "2")):
                found = self.run_shell('"$@"', LOOK, report, *words)
                self.assertEqual(found[0], status, found)
            if status:
                self.assertIn("line 1: a leaf's name has more than 64 letters", found[2])

    def test_names_of_files_that_are_not_text(self):
        path = os.fsencode(self.folder) + b"/" + NAME
        with open(path, "w") as stream:
            stream.write(ONE % ("one", 0))
        shown = r"n\xff\x1b[31m\n<&>" + "\"'$x$"
        for text in ('"$@"', 'LC_ALL=C PYTHONUTF8=0 PYTHONCOERCECLOCALE=0 "$@"'):
            self.assertIn("A: %s/%s" % (self.folder, shown), self.run_shell(text, LOOK, path, "--against", path)[1])
        for name in ("p.svg", "p.png", "p.pdf", "p.html"):
            with self.subTest(name):
                self.assertEqual(self.run_shell('"$@"', LOOK, path, "--out", name, "--command", NAME), (0, "", ""))
        tree = xml.etree.ElementTree.parse(self.folder / "p.svg")
        texts = [text.text for text in tree.iter("{http://www.w3.org/2000/svg}text")]
        self.assertIn("report %s/%s" % (self.folder, shown), texts)
        status, _, errors = self.run_shell('"$@"', LOOK, path, NAME)
        self.assertEqual((status, errors.count("\n"), "\x1b" in errors), (2, 1, False))
        status, _, errors = self.run_shell('"$@"', runs.TOP / "tools/compare", path, "--target", "t", "--capture", "c",
                                           "--rate", "1Mbit")
        self.assertEqual((status, "the name isn't text in UTF-8" in errors), (2, True))

    def test_closed_streams(self):
        report = self.write("report", ONE % ("one", 0))
        for text, status, said in (('"$@" - <&-', 2, "look: standard input is closed, so there is no report to read\n"),
                                   ('"$@" report >&-', 2, "look: standard output is closed\n"),
                                   ('"$@" report >/dev/full', 2, "look: standard output: No space left on device\n"),
                                   ('{ sleep 0.5; "$@" report; } | :; exit ${PIPESTATUS[0]}', 2,
                                    "look: standard output: Broken pipe\n"),
                                   ('"$@" report <&- 2>&-', 0, ""), ('"$@" report <&- >&- 2>&-', 2, ""),
                                   ('"$@" nothing 2>&-', 2, ""), ('"$@" --nothing 2>&-', 2, ""),
                                   ('"$@" report --out p.svg <&- >&-', 0, "")):
            with self.subTest(text):
                found = self.run_shell(text, LOOK)
                self.assertEqual(found[::2], (status, said))
        self.assertEqual(report.read_text(), ONE % ("one", 0))
        xml.etree.ElementTree.parse(self.folder / "p.svg")

    def test_captures_of_another_kind_are_not_converted(self):
        whole = (runs.OFFICE / "capture").read_bytes()
        for data, said in ((b"", "it isn't a capture of the classic format"), (b"hello", "it isn't a capture"),
                           ((runs.OFFICE / "capture.pcapng").read_bytes(), "it is pcapng already"),
                           (whole[:20], "it has fewer than 24 bytes"), (whole[:30], "record 1 is cut"),
                           (whole[:-1], "record 8 claims 42 captured bytes, and is cut"),
                           (HEAD + struct.pack("<IIII", 1, 0, 0xFFFFFFFF, 60),
                            "record 1 claims 4,294,967,295 captured bytes, and at most 262,144 are possible")):
            path = self.write("given", data)
            status, _, errors = self.run_shell('"$@"', MAKE, "made", "--of", path)
            with self.subTest(said):
                self.assertEqual((status, errors.count("\n")), (2, 1))
                self.assertIn("make_capture: %s: %s" % (path, said), errors)
                self.assertFalse((self.folder / "made").exists())
        self.assertEqual(self.run_shell('"$@"', MAKE, "made", "--of", "no")[::2],
                         (2, "make_capture: no: No such file or directory\n"))

    def test_a_capture_in_the_other_byte_order_is_converted(self):
        data = struct.pack(">IHHiIII", 0xA1B2C3D4, 2, 4, 0, 0, 0, 1) + struct.pack(">IIII", 1, 5, 2, 60) + b"xy"
        path = self.write("given", data)
        self.assertEqual(self.run_shell('"$@"', MAKE, "made", "--of", path)[0], 0)
        made = (self.folder / "made").read_bytes()
        self.assertIn(struct.pack("<IIIIII", 0, *divmod(10 ** 9 + 5000, 2 ** 32), 2, 60, 0x7978), made)

    def test_how_long_traffic_lasts(self):
        for length in ("0", "-5", "1e3", "600001", "9" * 30):
            status, _, errors = self.run_shell('"$@"', MAKE, "made", "--milliseconds", length)
            self.assertEqual((status, "from 1 to 600000 milliseconds" in errors), (2, True))


if __name__ == "__main__":
    unittest.main()
