"""The grammar of assertions, exact comparisons, and verdicts on reports. tests/look/test_compare.py has those on runs."""
import fractions
import unittest

import runs
from zovatsemo_look import assertions, guard, policy, units

EVENTS_REPORT = """a 1 1 one 0
a 2 2 one 0
a 3 3 one 0
x 4 4 one
d 5 1 one 0
d 6 3 one 0
d 7 2 one 0
end pushed 3 popped 3 empty 0 held 0 unsent 0 dropped 1
"""
HOLDS = ("web.min == 50ns", "web.median == 0.1us", "web.p99 == 250 ns", "web.p100 <= 250ns", "web.p0 >= 50ns",
         "web.p25 == 50ns", "web.p25.1 == 100ns", "voice.max < 0.081 us", "voice.p75 == 0ns", "voice.p75.1 == 80ns",
         "voice.p50 == 0ns", "web.share > 62.962962%", "web.share < 62.962963%", "web.share != 63%", "web.drops == 2",
         "web.drops == 2 packets", "web.drops > 33.333%", "web.drops < 33.334%", "all.drops == 20%", "web.backlog == 2",
         "all.backlog == 3 packets", "web.overtaken == 3", "web.arrived == 6", "web.departed == 4", "web.queued < 1",
         "web.bytes == 340 B", "all.bytes == 540 bytes", "all.throughput > 3.96Gbit/s", "all.throughput < 3.97 Gbit",
         "voice.throughput > 0.183486238532110091GB/s", "voice.throughput < 0.183486238532110092GB/s")
FAILS = (("web.p99 <= 249ns", "250 ns"), ("web.p99 < 0.25us", "250 ns"), ("web.share >= 63%", "about 62.963%"),
         ("all.share < 100%", "100%"), ("web.drops == 0", "2 packets"), ("web.drops <= 33%", "about 33.333%"),
         ("voice.drops != 0", "0 packets"), ("all.throughput >= 4Gbit", "about 3.963 Gbit/s"))
MALFORMED = (("web.p99", "doesn't read NAME.METRIC OP VALUE"), ("p99 <= 2ms", "doesn't read"),
             ("web.p99 =< 2ms", "doesn't read"),
             ("web.p99 <= ", "doesn't read"), ("", "doesn't read"), ("web.p101 <= 2ms", "there is no metric 'p101'"),
             ("web.p99ms <= 2ms", "doesn't read"), ("web.speed <= 2ms", "there is no metric 'speed'"),
             ("web.p99 <= 2", "p99 needs a unit: ns, us, ms, s or events"), ("web.p99 <= 2m", "p99 has no unit 'm'"),
             ("web.p99 <= 2%", "p99 has no unit '%'"), ("web.p99 <= 2ms 3", "is no number with a unit"),
             ("web.p99 <= 1e3ns", "is no number with a unit"), ("web.p99 <= -2ms", "is no number with a unit"),
             ("web.share >= 30", "share needs a unit: %"), ("web.share >= 30ms", "share has no unit 'ms'"),
             ("web.drops == 2 bytes", "drops has no unit 'bytes'"), ("web.backlog < 5%", "backlog has no unit '%'"),
             ("web.throughput > 5", "throughput needs a unit"), ("web.throughput > 5mb", "throughput has no unit 'mb'"),
             ("web.throughput > 5 Xbit/s", "throughput has no unit"), ("web.bytes > 5 packets", "bytes has no unit"),
             ("web.p99 <= B:web.share", "p99 and share can't be compared"))


class Grammar(unittest.TestCase):
    """What is an assertion, and what isn't."""

    def test_malformed_ones_are_rejected(self):
        for text, said in MALFORMED:
            with self.subTest(text), self.assertRaises(guard.LookError) as caught:
                assertions.Assertion(text)
            self.assertIn(said, str(caught.exception))

    def test_names_of_version_3(self):
        one = assertions.Assertion("B:web-1_a.p99 <= A:web--2.max")
        self.assertEqual(("B", "web-1_a", ("A", "web--2")), (one.letter, one.name, one.other[:2]))

    def test_classes_are_asked_in_the_version_of_their_policy(self):
        line = "class web-1 when dport {80, 443} or not ipv4"
        text = "policy %s # x\n" + line + "\nclass rest\nleaf root using fifo classes web-1 rest\n"
        for version in "123":
            asked = policy.Policy(text % version).one_leaf_a_class().splitlines()
            self.assertEqual(["policy " + version, line, "class rest", "leaf class_0 using fifo classes web-1"], asked[:4])

    def test_rates(self):
        for text, rate in (("1250000", 1250000), ("10Mbit", 1250000), ("1.5mbit/s", 187500), ("8bit", 1), ("2kB", 2000),
                           ("1.25MB/s", 1250000), ("8Tbit", 10 ** 12), ("100 kbit", 12500)):
            self.assertEqual(units.rate_of(text), rate)
        for text in ("", "0", "1bit", "10Mb", "10mbits", "-1", "1e6", "9Tbit", "10 M", "ten", "1.5"):
            with self.subTest(text), self.assertRaises(guard.LookError):
                units.rate_of(text)

    def test_names_of_rates(self):
        for rate, name in ((1250000, "10 Mbit/s"), (1, "8 bit/s"), (187500, "1.5 Mbit/s"), (1234567, "1,234,567 bytes/s")):
            self.assertEqual(units.rate_name(rate), name)

    def test_delays_are_shown_exactly(self):
        unit = units.DelayUnit("ms", 10 ** 6)
        self.assertEqual(unit.texts([1160000, 0, None, 57005731]), ["1.160000", "0.000000", None, "57.005731"])
        self.assertEqual(unit.texts([1160000, 20000]), ["1.16", "0.02"])
        self.assertEqual(units.decimal(fractions.Fraction(1234567, 1000), 1), "1,234.6")


class Verdict(runs.Case):
    """Assertions on the run of a link that was worked out by hand, and on one that counts events."""

    def judge(self, *texts, report=None, words=()):
        """The status, the verdict's lines and the errors for some assertions."""
        asserted = [word for text in texts for word in ("--assert", text)]
        given = ("--capture", self.capture, "--rate", 10 ** 9) if report is None else ()
        status, written, errors = runs.look(report or self.report, *given, *asserted, *words)
        return status, written.rpartition("\n\n")[2].splitlines(), errors

    def test_those_that_hold(self):
        status, lines, errors = self.judge(*HOLDS)
        self.assertEqual((status, lines[0], errors), (0, "0 of %d checks failed" % len(HOLDS), ""))

    def test_those_that_fail_say_what_was_found(self):
        for text, found in FAILS:
            with self.subTest(text):
                status, lines, _ = self.judge(text, "web.drops == 2")
                self.assertEqual((status, lines[0]), (1, "1 of 2 checks failed"))
                self.assertEqual(" ".join(lines[1].split()), "FAILED %s 8 Gbit/s: %s" % (text, found))

    def test_unknown_names_are_errors_and_no_verdict(self):
        for text, said in (("wbe.p99 <= 1s", "has no leaf or class 'wbe'; its leaves are web, voice, all"),
                           ("B:web.p99 <= 1s", "there is no run B"), ("web.p99 <= B:web.p99", "there is no run B"),
                           ("web.p99 <= 3 events", "the delays of these runs are in time")):
            with self.subTest(text):
                status, lines, errors = self.judge("web.drops == 0", text)
                self.assertEqual((status, lines), (2, []))
                self.assertIn(said, errors)

    def test_what_is_not_known_is_an_error(self):
        report = self.write("events", EVENTS_REPORT)
        for text, said in (("one.share > 1%", "share needs the capture"), ("one.bytes > 1", "bytes needs the capture"),
                           ("one.throughput > 1bit", "needs the capture"), ("one.p99 < 1ms", "are in events")):
            with self.subTest(text):
                status, lines, errors = self.judge(text, report=report)
                self.assertEqual((status, lines), (2, []))
                self.assertIn(said, errors)
        status, _, errors = runs.look(self.report, "--capture", self.capture, "--assert", "web.throughput > 1bit")
        self.assertEqual((status, errors.count("rate by --rate")), (2, 1))

    def test_delays_in_events(self):
        report = self.write("events", EVENTS_REPORT)
        status, lines, _ = self.judge("one.max <= 5 events", "one.min == 3events", "one.max < 5 events", report=report)
        self.assertEqual((status, lines[0]), (1, "1 of 3 checks failed"))
        self.assertEqual(lines[1].split(None, 1), ["FAILED", "one.max < 5 events   5 events"])

    def test_a_leaf_of_version_3(self):
        report = self.write("events", EVENTS_REPORT.replace("one", "web-1"))
        status, lines, _ = self.judge("web-1.drops == 1", report=report)
        self.assertEqual((status, lines[0]), (0, "0 of 1 check failed"))

    def test_a_leaf_without_packets_fails_on_its_delay(self):
        policy = self.write("policy", "policy 1\nclass a\nleaf web using fifo classes a\n"
                            "leaf voice using fifo classes b\nleaf idle using fifo classes c d\n")
        words = ("--policy", policy)
        status, lines, _ = self.judge("idle.p99 <= 1s", "idle.drops == 0", "idle.share == 0%", words=words)
        self.assertEqual((status, len(lines)), (1, 4))
        self.assertIn("no packet departed", lines[1])
        status, lines, _ = self.judge("idle.drops <= 1%", words=words)
        self.assertEqual(status, 1)
        self.assertIn("no packet arrived", lines[1])

    def test_a_run_that_is_not_whole_gets_no_verdict(self):
        for end in ("", "fault capture 6 9\n"):
            report = self.write("cut", EVENTS_REPORT.replace(EVENTS_REPORT.splitlines()[-1] + "\n", end))
            status, lines, errors = self.judge("one.drops == 1", report=report)
            self.assertEqual((status, lines), (2, []))
            self.assertIn("nothing can be asserted of a run that isn't whole", errors)

    def test_runs_against_each_other(self):
        slower = self.write("events", EVENTS_REPORT)
        faster = self.write("other", EVENTS_REPORT.replace("d 5 1", "d 5 3").replace("d 6 3", "d 6 1"))
        words = ("--against", faster)
        status, lines, _ = self.judge("A:one.min <= B:one.max", "one.max == 5 events", report=slower, words=words)
        self.assertEqual((status, len(lines)), (0, 4))
        status, lines, _ = self.judge("B:one.min > A:one.min", report=slower, words=words)
        self.assertEqual((status, lines[1]), (1, "FAILED  B:one.min > A:one.min  B: 2 events, against 3 events"))


if __name__ == "__main__":
    unittest.main()
