"""tools/compare: two policies on one link, sweeps, verdicts, classes, and what is rejected. The program is that of the
checkout; the numbers of examples/uplink are those of the README, and the classes' were worked out by hand."""
import csv
import io
import json
import os
import subprocess
import types
import unittest

import runs
import test_page
from zovatsemo_look import compare as comparing

UPLINK = runs.TOP / "examples/uplink"
WORDS = ("--target", UPLINK / "target", "--capture", UPLINK / "capture", "--rate", "10Mbit")
STRICT, FIRST = UPLINK / "strict", UPLINK / "first-come"
SHARED = """policy 1
class small when len 0..300
class large when len 1300..9999
class medium
leaf rest using fifo prio 1 classes small medium
leaf web using fifo prio 0 classes large
node root using strict children web rest
"""


class Compare(runs.Case):
    """What tools/compare writes, and its status."""

    def test_two_policies(self):
        status, written, errors = runs.compare(STRICT, FIRST, *WORDS)
        self.assertEqual((status, errors), (0, ""))
        lines = written.splitlines()
        self.assertEqual(lines[:2], ["A: %s" % STRICT, "B: %s" % FIRST])
        row = next(line for line in lines if line.startswith("voice"))
        self.assertEqual(row.split(), "voice 24 24 0 0 4,800 1.4% 0.144 0.00 0.880|87.160 1.120|146.720 1.160|146.760 "
                                      "1.160|146.760 1|13 0".split())
        self.assertIn("262      voice       118               262       144", lines)

    def test_the_numbers_are_those_of_the_reports(self):
        reports = []
        for policy in (STRICT, FIRST):
            done = subprocess.run([runs.TOP / "zovatsemo", "link", policy, UPLINK / "target", UPLINK / "capture", "1250000"],
                                  stdout=subprocess.PIPE, check=True)
            reports.append(self.folder / policy.name)
            reports[-1].write_bytes(done.stdout)
        _, looked, _ = runs.look(reports[0], "--against", reports[1], "--capture", UPLINK / "capture", "--rate", "10Mbit")
        _, compared, _ = runs.compare(STRICT, FIRST, *WORDS)
        self.assertEqual(looked.splitlines()[2:], compared.splitlines()[2:])
        self.assertGreater(len(looked.splitlines()), 20)

    def test_a_verdict(self):
        asserted = ("--assert", "A:voice.p99 <= 2ms", "--assert", "web.share >= 30%", "--assert", "B:voice.p99 <= 2ms")
        status, written, _ = runs.compare(STRICT, FIRST, *WORDS, *asserted)
        self.assertEqual(status, 1)
        self.assertEqual(written.splitlines()[-5:], [
            "1 of 4 checks failed",
            "FAILED  B:voice.p99 <= 2ms  B, 10 Mbit/s: 146.76 ms",
            "holds   A:voice.p99 <= 2ms  A, 10 Mbit/s: 1.16 ms",
            "holds   web.share >= 30%    A, 10 Mbit/s: about 55.356%",
            "holds   web.share >= 30%    B, 10 Mbit/s: about 55.356%"])
        self.assertEqual(runs.compare(STRICT, FIRST, *WORDS, *asserted[:4])[0], 0)

    def test_one_policy(self):
        status, written, _ = runs.compare(STRICT, *WORDS, "--assert", "voice.p99 <= 1.16 ms")
        self.assertEqual((status, written.splitlines()[-1]), (0, "holds   voice.p99 <= 1.16 ms  10 Mbit/s: 1.16 ms"))

    def test_a_sweep_has_one_row_a_rate(self):
        words = (*WORDS[:-1], "1Mbit,10Mbit,100Mbit")
        status, written, _ = runs.compare(STRICT, FIRST, *words, "--leaf", "voice", "--unit", "ms", "--assert",
                                          "A:voice.p99 <= 2ms")
        self.assertEqual(status, 1)
        rows = [line.split() for line in written.splitlines() if line.startswith(("voice", "all leaves"))]
        self.assertEqual([row[1:3] for row in rows[:3]], [["1", "Mbit/s"], ["10", "Mbit/s"], ["100", "Mbit/s"]])
        self.assertEqual((len(rows), rows[1][13]), (6, "1.160|146.760"))
        self.assertIn("FAILED  A:voice.p99 <= 2ms  A, 1 Mbit/s: 10.8 ms", written)

    def test_a_picture_of_a_sweep(self):
        out, rates = self.folder / "sweep.svg", "1Mbit,1.1Mbit,10Mbit,1Gbit"
        self.assertEqual(runs.compare(STRICT, FIRST, *WORDS[:-1], rates, "--out", out)[::2], (0, ""))
        page = test_page.xml.etree.ElementTree.parse(out).getroot()
        words = test_page.words(page)
        for word in ("99th percentile of delays by rate", "rate of the link in Mbit/s", "A: policy %s" % STRICT, "1", "10",
                     "1,000"):
            self.assertIn(word, words)
        self.assertNotIn("1.1", words)

    def test_the_points_of_a_sweep(self):
        from zovatsemo_look import curves, page
        given = types.SimpleNamespace(block=False, policies=[str(STRICT)], target=str(UPLINK / "target"), out=None,
                                      capture=str(UPLINK / "capture"))
        studies = [comparing.Comparison(given).study(rate) for rate in (1250000, 12500000)]
        drawn = curves.Sweep(page.Page(studies[0], ["voice"], page.Look(9, False, False, False, True, ""), studies))
        self.assertEqual(drawn.unit.name, "ms")
        self.assertEqual(list(drawn.points_of("voice", 0)), [(10 ** 7, 10 ** 8), (1.16, 0.115157)])

    def test_comma_separated_values_and_json(self):
        words = (*WORDS[:-1], "1Mbit,10Mbit")
        status, written, _ = runs.compare(STRICT, FIRST, *words, "--csv")
        rows = list(csv.DictReader(io.StringIO(written)))
        self.assertEqual((status, len(rows)), (0, 16))
        row = next(row for row in rows if row["run"] == "B" and row["leaf"] == "voice" and row["median"] == "87160000")
        keys = ("rate_bytes_per_second", "arrived", "p99", "delay_unit", "share_percent", "throughput_bits_per_second")
        self.assertEqual([row[key] for key in keys], ["1250000", "24", "146760000", "ns", "1.440144", "144014.401"])
        status, written, _ = runs.compare(STRICT, FIRST, *words, "--json", "--assert", "B:voice.p99 <= 2ms")
        found = json.loads(written)
        self.assertEqual((status, len(found["runs"]), len(found["assertions"])), (1, 4, 2))
        self.assertEqual(found["assertions"][1], {"assertion": "B:voice.p99 <= 2ms", "holds": False, "run": "B",
                                                  "rate_bytes_per_second": 1250000, "found": "146.76 ms"})
        self.assertEqual(found["runs"][3]["leaves"][0]["p99"], 146760000)

    def test_rank_stores_count_spills(self):
        status, written, _ = runs.compare(UPLINK / "shares", *WORDS, "--block")
        self.assertEqual(status, 0)
        self.assertRegex(written.splitlines()[0], r", 0 packets unsent, \d+ spills?$")

    def test_classes_that_share_a_leaf(self):
        policy = self.write("policy", SHARED)
        text = ("small.arrived == 24", "medium.arrived == 120", "large.arrived == 123", "rest.arrived == 144",
                "small.bytes == 4800", "medium.bytes == 144000", "small.backlog <= 24", "medium.backlog <= 120",
                "small.max <= 300ms", "medium.drops == 0%")
        status, written, errors = runs.compare(policy, *WORDS, *(word for one in text for word in ("--assert", one)))
        self.assertEqual((status, errors), (0, ""), written)
        status, written, errors = runs.compare(policy, *WORDS, "--assert", "tiny.p99 < 1s")
        self.assertEqual((status, written), (2, ""))
        self.assertIn("no leaf or class 'tiny'; its leaves are rest, web, all", errors)
        other = self.write("other", SHARED.replace("leaf web", "leaf small").replace("children web", "children small"))
        self.assertIn("small names two things", runs.compare(other, *WORDS, "--assert", "small.drops == 0")[2])

    def test_a_leaf_without_packets(self):
        policy = self.write("policy", SHARED.replace("len 0..300", "len 0..3").replace(
            "classes small medium", "classes medium").replace("leaf web", "leaf tiny using fifo classes small\nleaf web")
            .replace("children web", "children tiny web"))
        status, written, _ = runs.compare(policy, *WORDS, "--assert", "tiny.p99 <= 1s", "--assert", "small.drops == 0")
        self.assertEqual(status, 1)
        row = next(line for line in written.splitlines() if line.startswith("tiny"))
        self.assertEqual(row.split(), "tiny 0 0 0 0 0 0.0% 0.000 - - - - - 0 0".split())
        self.assertIn("FAILED  tiny.p99 <= 1s    10 Mbit/s: no packet departed", written)


    def test_a_capture_without_packets(self):
        capture = self.write("empty", (UPLINK / "capture").read_bytes()[:24])
        words = (STRICT, FIRST, *WORDS[:3], capture, *WORDS[4:])
        asserted = ("A:voice.p99 <= 2ms", "A:web.share <= 50%", "A:all.throughput <= 1Mbit", "all.drops == 0")
        status, written, errors = runs.compare(*words, *(word for text in asserted for word in ("--assert", text)))
        self.assertEqual((status, errors), (1, ""))
        lines = [line.split(None, 1) for line in written.splitlines()[-6:]]
        self.assertEqual(lines[0], ["3", "of 5 checks failed"])
        reasons = ("no packet departed", "no packet departed at all", "the run takes no time")
        for (word, said), why in zip(lines[1:4], reasons):
            self.assertEqual((word, said.rpartition(": ")[2]), ("FAILED", why))
        for name in ("page.html", "page.svg"):
            self.assertEqual(runs.compare(*words, "--out", self.folder / name)[::2], (0, ""))


class Rejected(runs.Case):
    """Each mistake has one line that names the file, the position and the cause, and status 2."""

    def assert_rejected(self, said, *words):
        status, written, errors = runs.compare(*words)
        self.assertEqual((status, written, errors.count("\n")), (2, "", 1), errors)
        self.assertIn(said, errors)

    def test_arguments(self):
        self.assert_rejected("the following arguments are required: --target, --capture, --rate", STRICT)
        self.assert_rejected("at most two are compared", STRICT, STRICT, STRICT, *WORDS)
        self.assert_rejected("'10Mb' is no rate", STRICT, *WORDS[:-1], "10Mb")
        self.assert_rejected("names a rate twice", STRICT, *WORDS[:-1], "1Mbit,125000")
        self.assert_rejected("--panel draws one rate, and --rate names 2", STRICT, *WORDS[:-1], "1Mbit,2Mbit", "--out",
                             "x.svg", "--panel", "delay")
        self.assert_rejected("there is no leaf 'nobody'; the leaves are: voice, web, backup", STRICT, *WORDS, "--leaf",
                             "nobody")
        self.assert_rejected("not allowed with argument", STRICT, *WORDS, "--csv", "--json")

    def test_files(self):
        self.assert_rejected("compare: no/such: No such file or directory", "no/such", *WORDS)
        self.assert_rejected("/dev/null: it isn't a regular file", "/dev/null", *WORDS)
        os.mkfifo(self.folder / "pipe")
        self.assert_rejected("pipe: it isn't a regular file", STRICT, *WORDS[:3], self.folder / "pipe", *WORDS[4:])
        self.assert_rejected("it isn't a policy: it has no line `leaf`", UPLINK / "busy", *WORDS)
        self.assert_rejected("there is no folder /no", STRICT, *WORDS, "--out", "/no/x.html")

    def test_what_the_program_rejects(self):
        policy = self.write("policy", STRICT.read_text().replace("using strict", "using drr"))
        self.assert_rejected("%s, line 9: a transaction, child, class or variable isn't declared" % policy, policy, *WORDS)
        target = self.write("target", "arity = 2\nheight = 0\n")
        self.assert_rejected("%s: " % target, STRICT, "--target", target, *WORDS[2:])
        capture = self.folder / "capture"
        capture.write_bytes((UPLINK / "capture").read_bytes()[:1000])
        self.assert_rejected("%s, record or block 17: " % capture, STRICT, *WORDS[:3], capture, *WORDS[4:])

    def test_a_missing_leaf_of_one_policy(self):
        other = self.write("one", "policy 1\nclass all\nleaf root using fifo classes all\n")
        queue = self.write("queue", "arities = []\n")
        self.assert_rejected("one has no leaf or class 'voice'; its leaves are root, all", other, "--target", queue,
                             *WORDS[2:], "--assert", "voice.p99 < 1s")


if __name__ == "__main__":
    unittest.main()
