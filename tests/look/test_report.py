"""Damaged reports, captures and words: what is there is shown, and one line says what is wrong."""
import io
import os
import pty
import struct
import subprocess
import tempfile
import unittest

import runs
from zovatsemo_look import capture, progress

HEAD = "a 1 1 one 0\na 2 2 two 0/7\n"
WHOLE = HEAD + "d 3 1 one 0\nend pushed 2 popped 1 empty 0 held 1 unsent 0\n"
TAPS = "tap bytes 1 9\ntap order 0 1\ntap first 1\ntap drops 0 0\n"
BROKEN = [
    (HEAD, "line 3: the report stops before the end of the run"),
    (HEAD + "d 3 1 one", "line 3: the report is cut inside this line"),
    (HEAD + "a 4 3 one 0\n", "line 3: event 3 was to come here, and not 4"),
    (HEAD + "x 4 3 one\n", "line 3: event 3 was to come here, and not 4"),
    (HEAD + "e 2\n", "line 3: event 3 was to come here, and not 2"),
    (HEAD + "a 3 4 one 0\n", "line 3: packet 3 was to come here, and not 4"),
    (HEAD + "d 3 3 one 0\n", "line 3: packet 3 isn't queued"),
    (HEAD + "d 3 0 one 0\n", "line 3: packet 0 isn't queued"),
    (HEAD + "d 3 1 one 0\nd 4 1 one 0\n", "line 4: packet 1 isn't queued"),
    (HEAD + "x 3 3 one\nd 4 3 one 0\n", "line 4: packet 3 isn't queued"),
    (HEAD + "d 3 1 two 0\n", "line 3: packet 1 arrived at the leaf one"),
    (HEAD + "a 3 3 one 0 5\n", "line 3: an arrival has no start"),
    (HEAD + "d 3 1 one 0 5\nd 4 2 two 0/7\n", "line 4: some departures have a start and some have none"),
    (HEAD + "d 3 1 one 0 9223372036854775808\n", "line 3: a start of more than 292 years isn't shown"),
    (HEAD + "d 3 1 one  0\n", "line 3: this is no line of a report"),
    (HEAD + "d 3 1 one 0/\n", "line 3: this is no line of a report"),
    (HEAD + "soak pushed 1 popped 1 empty 0 sum 1\n", "line 3: this is no line of a report"),
    (HEAD + "z" * 100000, "line 3: the report is cut inside this line"),
    (HEAD + "end pushed 3 popped 0 empty 0 held 2 unsent 0\n",
     "line 3: the end says pushed 3, and the lines before have 2"),
    (HEAD + "end pushed 2 popped 0 empty 0 held 2 unsent 0 dropped 1\n",
     "line 3: the end says dropped 1, and the lines before have 0"),
    (WHOLE + "e 4\n", "line 5: a line after the end of the run"),
    (WHOLE + "tap sum 1\n", "line 5: a line after the end of the run"),
    (WHOLE + "tap bytes 1 9\ntap order 0 1", "line 6: the report is cut inside this line"),
    (WHOLE + "tap bytes 1\n", "line 5: by the lines before, the tap bytes says 1"),
    (WHOLE + "tap bytes 2 9\n", "line 5: by the lines before, the tap bytes says 1"),
    (WHOLE + "tap order 1 1\n", "line 5: by the lines before, the tap order says 0 1"),
    (WHOLE + "tap first 1 2\n", "line 5: by the lines before, the tap first says 1"),
    (WHOLE + "tap drops 1 9\n", "line 5: by the lines before, the tap drops says 0"),
    (WHOLE + "tap first 1\ntap first 1\n", "line 6: a second line of the tap first"),
    (HEAD + "fault capture 6 3\ntap first\n", "line 4: a line after the end of the run"),
]
TWO_HELD = r"\none +1 +0 +0 +1 +- +- +- +- +- +1 +0\ntwo +1 +0 +0 +1 "


class Damaged(unittest.TestCase):
    """Reports that break off."""

    def test_the_last_line_says_where(self):
        with tempfile.TemporaryDirectory() as folder:
            for text, wrong in BROKEN:
                report = runs.write(folder, "report", text)
                status, written, errors = runs.look(report)
                with self.subTest(text[:200]):
                    self.assertEqual((status, errors), (2, ""))
                    self.assertEqual(written.splitlines()[-1], "%s: broken at %s" % (report, wrong))

    def test_what_is_there_is_shown(self):
        with tempfile.TemporaryDirectory() as folder:
            _, written, _ = runs.look(runs.write(folder, "report", HEAD + "d 3 3 one 0\n"))
        self.assertRegex(written, TWO_HELD)

    def test_a_fault_is_an_end(self):
        with tempfile.TemporaryDirectory() as folder:
            report = runs.write(folder, "report", HEAD + "fault capture 6 3\n")
            status, written, _ = runs.look(report)
        self.assertEqual(status, 0)
        self.assertRegex(written, TWO_HELD)
        self.assertEqual(written.splitlines()[-1], "%s: the run ended with fault capture 6 3" % report)

    def test_lines_of_taps_are_shown(self):
        with tempfile.TemporaryDirectory() as folder:
            report = runs.write(folder, "report", WHOLE + TAPS)
            status, written, errors = runs.look(report)
            self.assertEqual((status, errors), (0, ""))
            self.assertTrue(written.endswith("\n\n" + TAPS), written)
            _, written, _ = runs.look(report, "--against", report)
        self.assertIn("\nA: tap order 0 1\n", written)

    def test_bytes_that_are_no_text(self):
        with tempfile.TemporaryDirectory() as folder:
            report = os.path.join(folder, "report")
            with open(report, "wb") as stream:
                stream.write(HEAD.encode() + b"\xff\x00\n")
            self.assertIn("line 3: this is no line of a report", runs.look(report)[1])


class Captures(unittest.TestCase):
    """What is read of a capture, by bytes that were written by hand: a packet at 2.000003 s and one at 1 s."""

    def read(self, order, magic, fractions, most=2):
        """The lengths and moments of the first packets of a capture of two."""
        records = ((2, fractions[0], 3, 1500), (1, fractions[1], 0, 60))
        data = struct.pack(order + "IHHiIII", magic, 2, 4, 0, 0, 0, 1)
        data += b"".join(struct.pack(order + "IIII", *record) + bytes(record[2]) for record in records)
        stream = io.BytesIO(data)
        found = capture.read_capture(stream, most, progress.Progress("capture", stream))
        return list(found.lengths), list(found.moments)

    def test_orders_of_bytes_and_units(self):
        expected = ([1500, 60], [2000003000, 1000000000])
        for order in "<>":
            self.assertEqual(self.read(order, 0xA1B2C3D4, (3, 0)), expected)
            self.assertEqual(self.read(order, 0xA1B23C4D, (3000, 0)), expected)

    def block(self, order, kind, *numbers, behind=b""):
        """A block of pcapng with some numbers of four bytes and some bytes behind them."""
        body = struct.pack(order + "%dI" % len(numbers), *numbers) + behind
        length = struct.pack(order + "I", len(body) + 12)
        return struct.pack(order + "I", kind) + length + body + length

    def section(self, order, *blocks):
        """A section of pcapng with some blocks behind its header."""
        version = struct.pack(order + "HHq", 1, 0, -1)
        return b"".join([self.block(order, 0x0A0D0D0A, 0x1A2B3C4D, behind=version),
                         *(self.block(order, *block[0], **block[1]) for block in blocks)])

    def interface(self, order, unit=None):
        """The block of an interface, with an option that names its unit behind another."""
        options = struct.pack(order + "HH4sHHB3xHH", 2, 3, b"if0", 9, 1, unit, 0, 0) if unit is not None else b""
        return (1, 1, 0), {"behind": options}

    def test_pcapng(self):
        first = self.section("<", self.interface("<"), self.interface("<", 9), self.interface("<", 128 + 10),
                             ((6, 0, 0, 2000003, 4, 1500), {"behind": bytes(4)}), ((6, 1, 1, 5, 0, 60), {}),
                             ((5, 0, 0), {}), ((3, 100), {"behind": bytes(100)}), ((6, 2, 0, 1536, 0, 61), {}))
        second = self.section(">", self.interface(">", 3), ((6, 0, 0, 7, 0, 62), {}), ((6, 1, 0, 7, 0, 63), {}))
        stream = io.BytesIO(first + second)
        found = capture.read_capture(stream, 9, progress.Progress("capture", stream))
        self.assertEqual(list(found.lengths), [1500, 60, 100, 61, 62])
        self.assertEqual(list(found.moments), [2000003000, 2 ** 32 + 5, 2 ** 32 + 5, 1500000000, 7000000])
        for cut in range(len(first)):
            stream = io.BytesIO(first[:cut] if cut > 4 else first[:5])
            self.assertLess(len(capture.read_capture(stream, 9, progress.Progress("capture", stream)).lengths), 5)

    def test_no_more_than_asked_for(self):
        self.assertEqual(self.read("<", 0xA1B2C3D4, (3, 0), most=1), ([1500], [2000003000]))


class Refused(unittest.TestCase):
    """Words and captures that can't be used."""

    def look_with_capture(self, folder, data):
        """What tools/look says of a capture of some bytes."""
        broken = os.path.join(folder, "broken")
        with open(broken, "wb") as stream:
            stream.write(data)
        report, _ = runs.write_link_run(folder)
        status, written, errors = runs.look(report, "--capture", broken)
        self.assertEqual((status, written), (2, ""))
        return errors

    def test_captures(self):
        with tempfile.TemporaryDirectory() as folder:
            _, written = runs.write_link_run(folder)
            whole = written.read_bytes()
            later = whole[:24] + b"\x01\x00\x00\x00" + whole[28:]
            for data, said in ((b"", "fewer than 24 bytes"),
                               (bytes(24), "no capture of the classic format and no pcapng"),
                               (b"\x0a\x0d\x0d\x0a" + bytes(20), "0 whole packets (block 1 has no byte order), and"),
                               (whole + whole[24:], "more than the 10 packets of which"),
                               (whole[:-1], "9 whole packets (record 10 is cut), and"),
                               (later, "packet 3 starts at 0 in")):
                with self.subTest(said):
                    self.assertIn(said, self.look_with_capture(folder, data))

    def test_words(self):
        report = runs.OFFICE / "report"
        self.assertEqual(runs.look()[0], 2)
        self.assertEqual(runs.look(report, "--out", "page.txt")[0], 2)
        self.assertEqual(runs.look(report, "--against-command", "x")[0], 2)
        self.assertIn("the leaves are: web, voice", runs.look(report, "--leaf", "nobody")[2])
        self.assertEqual(runs.look("no/such/report"), (2, "", "look: no/such/report: No such file or directory\n"))


class Terminal(unittest.TestCase):
    """How far the work is, where standard error is a terminal and where it isn't."""

    def errors_at_a_terminal(self, *words):
        """What the command writes to a terminal that is its standard error alone."""
        mine, its = pty.openpty()
        with subprocess.Popen([runs.TOP / "tools/look", *words], stdout=subprocess.DEVNULL, stderr=its) as child:
            os.close(its)
            said = b""
            while True:
                try:
                    said += os.read(mine, 4096)
                except OSError:  # the other end is closed
                    break
        os.close(mine)
        self.assertEqual(child.returncode, 0)
        return said

    def test_what_is_done_is_said(self):
        with tempfile.TemporaryDirectory() as folder:
            page = os.path.join(folder, "page.svg")
            said = self.errors_at_a_terminal(runs.OFFICE / "report", "--out", page)
            self.assertIn(b"drawing picture 4 of 4", said)
            self.assertTrue(said.endswith(b"\r\x1b[K"), said)
            done = subprocess.run([runs.TOP / "tools/look", runs.OFFICE / "report", "--out", page], check=True,
                                  stdout=subprocess.PIPE, stderr=subprocess.PIPE)
            self.assertEqual((done.stdout, done.stderr), (b"", b""))


if __name__ == "__main__":
    unittest.main()
