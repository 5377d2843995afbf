"""Tables compared with ones that were worked out by hand."""
import fractions
import tempfile
import unittest

import runs

OFFICE_TABLE = """16 events, 8 packets, 8 departures, 0 empty departures, 0 packets unsent
delay in events, from a packet's arrival to its departure

leaf        arrived  departed  drops  queued  bytes   share  min  median  p95  p99  max  backlog  overtaken
web               3         3      0       0  4,500   52.9%    6      11   14   14   14        3          3
voice             1         1      0       0    200    2.4%    3       3    3    3    3        1          0
other             1         1      0       0  1,000   11.8%    8       8    8    8    8        1          1
dns               1         1      0       0    100    1.2%    3       3    3    3    3        1          0
backup            1         1      0       0  1,500   17.6%    5       5    5    5    5        1          1
video             1         1      0       0  1,200   14.1%    2       2    2    2    2        1          0
all leaves        8         8      0       0  8,500  100.0%    2       5   14   14   14        6          5
"""
LINK_TABLE = """18 events, 10 packets, 8 departures, 0 empty departures, 0 packets unsent
delay in ns, from a packet's timestamp to its start

leaf        arrived  departed  drops  queued  bytes   share  min  median  p95  p99  max  backlog  overtaken
web               6         4      2       0    340   63.0%   50     100  250  250  250        2          3
voice             4         4      0       0    200   37.0%    0       0   80   80   80        1          0
all leaves       10         8      2       0    540  100.0%    0      50  250  250  250        3          3
"""
SWAPPED = """a 1 1 one 0
a 2 2 two 0
a 3 3 one 0
{}
end pushed 3 popped 2 empty 0 held 1 unsent 4
"""
AGAINST_TABLE = """
leaf        arrived  departed  drops  queued  min  median  p95  p99  max  backlog  overtaken
one               2       1|2      0     1|0  3|1     3|1  3|4  3|4  3|4        2        0|1
two               1       1|0      0     0|1  3|-     3|-  3|-  3|-  3|-        1          0
all leaves        3         2      0       1  3|1     3|1  3|4  3|4  3|4        3        0|1

1 packet changed position among the departures; those that moved most:
packet  leaf  position  in the other run  later by
1        one         1                 2         1
"""


class Table(unittest.TestCase):
    """What tools/look writes without --out."""

    def test_office(self):
        found = runs.look(runs.OFFICE / "report", "--capture", runs.OFFICE / "capture")
        self.assertEqual(found, (0, OFFICE_TABLE, ""))

    def test_link_with_drops_and_ties(self):
        with tempfile.TemporaryDirectory() as folder:
            report, capture = runs.write_link_run(folder)
            self.assertEqual(runs.look(report, "--capture", capture), (0, LINK_TABLE, ""))

    def test_link_without_capture_counts_events(self):
        with tempfile.TemporaryDirectory() as folder:
            report, _ = runs.write_link_run(folder)
            _, written, _ = runs.look(report, "--leaf", "voice")
        self.assertIn("delay in events", written)
        self.assertRegex(written, r"\nvoice +4 +4 +0 +0 +1 +2 +2 +2 +2 +1 +0\n")
        self.assertNotIn("\nweb ", written)

    def test_two_runs(self):
        with tempfile.TemporaryDirectory() as folder:
            first = runs.write(folder, "first", SWAPPED.format("d 4 1 one 0\nd 5 2 two 0"))
            second = runs.write(folder, "second", SWAPPED.format("d 4 3 one 0\nd 5 1 one 0"))
            status, written, _ = runs.look(first, "--against", second)
        self.assertEqual((status, written[written.index("\n\n") + 1:]), (0, AGAINST_TABLE))

    def test_half_a_percent(self):
        from zovatsemo_look import measures
        shares = [measures.share_text(fractions.Fraction(part, 2000)) for part in (1, 3, 0, 2000)]
        self.assertEqual(shares, ["0.1%", "0.2%", "0.0%", "100.0%"])

    def test_percentiles(self):
        from zovatsemo_look import measures
        values = list(range(1, 201))
        self.assertEqual([measures.percentile(values, percent) for percent in (0, 50, 95, 99, 100)],
                         [1, 100, 190, 198, 200])
        self.assertEqual(measures.percentile(values, fractions.Fraction("99.5")), 199)
        self.assertEqual(measures.percentile(values, fractions.Fraction("99.51")), 200)
        self.assertIsNone(measures.percentile([], 50))


if __name__ == "__main__":
    unittest.main()
