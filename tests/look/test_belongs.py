"""Reports and captures that don't belong together, and files that are of another kind: rejected before anything is shown."""
import struct
import unittest

import runs
from zovatsemo_look import belongs, capture, progress, sources

BUSY = "a 1 1 one 0\na 2 2 one 0\nd 3 1 one 0 0\nd 4 2 one 0 %d\nend pushed 2 popped 2 empty 0 held 0 unsent 0\n"
TAPPED = "a 1 1 one 0\nx 2 2 one\nd 3 1 one 0\nend pushed 1 popped 1 empty 0 held 0 unsent 0 dropped 1\n%s\n"


def classic(*packets):
    """A classic capture of packets, each with a timestamp in nanoseconds and a length, and no captured bytes."""
    records = (struct.pack("<IIII", moment // 10 ** 9, moment % 10 ** 9, 0, length) for moment, length in packets)
    return struct.pack("<IHHiIII", 0xA1B23C4D, 2, 4, 0, 0, 0, 1) + b"".join(records)


class Belongs(runs.Case):
    """What tools/look says of files that don't belong together."""

    def assert_rejected(self, said, *words):
        status, written, errors = runs.look(*words)
        self.assertEqual((status, written, errors.count("\n")), (2, "", 1), (written, errors))
        self.assertIn(said, errors)

    def test_runs_of_different_captures(self):
        self.assert_rejected("the runs are of different captures: %s speaks of 10 packets, and %s of 8" % (
            self.report, runs.OFFICE / "report"), self.report, "--against", runs.OFFICE / "report")

    def test_a_cut_report_has_at_most_the_packets_of_the_other(self):
        lines = runs.LINK_REPORT.splitlines(True)
        for kept, status in ((6, 2), (len(lines) - 1, 2)):
            cut = self.write("cut", "".join(lines[:kept]))
            self.assertEqual(runs.look(cut, "--against", self.report)[0::2], (status, ""))
        more = self.write("more", "".join("a %d %d one 0\n" % (at, at) for at in range(1, 12)))
        self.assert_rejected("of different captures", more, "--against", self.report)

    def test_timestamps_that_do_not_fit_the_events(self):
        moments = list(runs.LINK_MOMENTS)
        for at, moment, said in ((4, 40, None), (4, 0, "packet 5 has the timestamp 0, and"), (6, 101, None),
                                 (6, 99, "has a departure before it that starts at 100"), (7, 201, "packet 7 starts at 200"),
                                 (0, 1, "packet 3 starts at 0 in")):
            changed = moments[:at] + [moment] + moments[at + 1:]
            path = self.write("changed", classic(*zip(changed, runs.LINK_LENGTHS)))
            with self.subTest(at=at, moment=moment):
                if said:
                    self.assert_rejected(said, self.report, "--capture", path)
                else:
                    self.assertEqual(runs.look(self.report, "--capture", path)[0], 0)

    def test_lengths_that_fit_no_rate(self):
        lengths = list(runs.LINK_LENGTHS)
        lengths[0] = 150
        path = self.write("changed", classic(*zip(runs.LINK_MOMENTS, lengths)))
        self.assert_rejected("fit the starts of %s at no rate" % self.report, self.report, "--capture", path)

    def test_a_rate_that_is_not_that_of_the_run(self):
        self.assertEqual(runs.look(self.report, "--capture", self.capture, "--rate", "8Gbit")[0], 0)
        self.assert_rejected("aren't those of a link of 1 Gbit/s", self.report, "--capture", self.capture, "--rate", "1Gbit")
        office = (runs.OFFICE / "report", "--capture", runs.OFFICE / "capture", "--rate", "1Mbit")
        self.assert_rejected("--rate goes with reports of `link`", *office)

    def test_rates_are_found_from_starts(self):
        path = self.write("two", classic((0, 1000), (0, 1000)))
        for gap, least, most in ((1000, 10 ** 9, 1001001001), (1, 10 ** 12, 10 ** 12), (3, 333333333334, 499999999999)):
            run = sources.read_run(str(self.write("busy", BUSY % gap)))
            with open(path, "rb") as stream:
                pace = belongs.Pace(capture.read_capture(stream, 2, progress.Progress("two", stream)), run)
            self.assertEqual((pace.least, pace.most), (least, most))

    def test_bytes_of_taps(self):
        path = self.write("two", classic((0, 1000), (0, 70)))
        for tap, said in (("tap bytes 1 1000", None), ("tap drops 1 70", None),
                          ("tap bytes 1 999", "would say 1000 bytes, and it says 999"),
                          ("tap drops 1 7", "would say 70 bytes")):
            report = self.write("tapped", TAPPED % tap)
            with self.subTest(tap):
                if said:
                    self.assert_rejected(said, report, "--capture", path)
                else:
                    self.assertEqual(runs.look(report, "--capture", path)[0], 0)

    def test_a_policy_without_the_leaf(self):
        policy = self.write("policy", "policy 1\nclass a\nleaf web using fifo classes a\n")
        self.assert_rejected("has packets at the leaf voice, and its policy has no such leaf", self.report, "--policy",
                             policy)

    def test_files_of_another_kind(self):
        for name, data, said in (("text", b"hello\n", "it isn't a report: line 1: this is no line of a report"),
                                 ("nothing", b"", "it isn't a report: it is empty"),
                                 ("zeros", bytes(9000), "it isn't a report: line 1"),
                                 ("classic", classic((0, 1)), "it is a capture and not a report"),
                                 ("pcapng", (runs.OFFICE / "capture.pcapng").read_bytes(), "it is a capture and not")):
            path = self.write(name, data)
            with self.subTest(name):
                self.assert_rejected("%s: %s" % (path, said), path)
                self.assert_rejected(said, self.report, "--against", path)
        self.assert_rejected("it is no capture of the classic format and no pcapng", self.report, "--capture", self.report)
        self.assert_rejected("Is a directory", self.folder)

    def test_nothing_is_written_if_something_is_wrong(self):
        out = self.folder / "page.svg"
        self.assert_rejected("it has 8 whole packets", self.report, "--capture", runs.OFFICE / "capture", "--out", out)
        self.assertFalse(out.exists())
        out.write_text("kept")
        self.assert_rejected("has no leaf or class", self.report, "--out", out, "--assert", "x.drops == 0")
        self.assertEqual(out.read_text(), "kept")


if __name__ == "__main__":
    unittest.main()
