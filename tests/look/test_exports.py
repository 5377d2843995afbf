"""Tables in other forms and units, leaves without packets, and reports of rank stores."""
import csv
import io
import json
import types
import unittest

import runs
from zovatsemo_look import measures, report, study, table

POLICY = """policy 1 # leaf no using fifo classes none
class a
class b when len 1
leaf voice using fifo classes a
leaf idle using fifo classes b
leaf web using fifo classes c
"""


class Exports(runs.Case):
    """What tools/look writes with --csv, --json, --unit and --policy."""

    def look(self, *words, status=0):
        """What is written for the run of a link."""
        found = runs.look(self.report, "--capture", self.capture, *words)
        self.assertEqual(found[::2], (status, ""))
        return found[1]

    def test_comma_separated_values(self):
        rows = list(csv.DictReader(io.StringIO(self.look("--csv"))))
        self.assertEqual([row["leaf"] for row in rows], ["web", "voice", "all leaves"])
        self.assertEqual(rows[0], {
            "run": "A", "input": str(self.report), "rate_bytes_per_second": "", "leaf": "web", "arrived": "6",
            "departed": "4", "drops": "2", "queued": "0", "bytes": "340", "share_percent": "62.962963",
            "throughput_bits_per_second": "",
            "delay_unit": "ns", "min": "50", "median": "100", "p95": "250", "p99": "250", "max": "250", "backlog": "2",
            "overtaken": "3"})

    def test_json(self):
        found = json.loads(self.look("--json", "--rate", "1GB", "--assert", "voice.max <= 79ns", status=1))
        self.assertEqual(found["assertions"], [{"assertion": "voice.max <= 79ns", "holds": False, "run": "A",
                                                "rate_bytes_per_second": 10 ** 9, "found": "80 ns"}])
        run = found["runs"][0]
        self.assertEqual((run["events"], run["unsent"], run["spills"], run["error"]), (18, 0, None, None))
        self.assertEqual((run["all"]["leaf"], run["all"]["max"], run["all"]["drops"]), ("all leaves", 250, 2))
        self.assertEqual(run["leaves"][1]["throughput_bits_per_second"], 1467889908.257)

    def test_a_verdict_beside_comma_separated_values(self):
        asserted = ("--assert", "web.drops == 0", "--assert", "web.arrived == 6")
        status, written, errors = runs.look(self.report, "--csv", *asserted)
        self.assertEqual((status, len(written.splitlines())), (1, 4))
        self.assertEqual(errors.splitlines(), ["1 of 2 checks failed", "FAILED  web.drops == 0    2 packets",
                                               "holds   web.arrived == 6  6 packets"])

    def test_a_damaged_report_says_so_beside_the_values(self):
        cut = self.write("cut", runs.LINK_REPORT[:-20])
        said = "%s: broken at line 19: the report is cut inside this line\n" % cut
        for form in ("--csv", "--json"):
            status, written, errors = runs.look(cut, form)
            self.assertEqual((status, errors), (2, said))
            self.assertTrue(written)
        self.assertEqual(json.loads(written)["runs"][0]["error"] + "\n", said)

    def test_units(self):
        for unit, web in (("ns", "50 100 250 250 250"), ("us", "0.05 0.10 0.25 0.25 0.25"), ("auto", "50 100 250 250 250"),
                          ("ms", "0.000 0.000 0.000 0.000 0.000"), ("s", "0.000 0.000 0.000 0.000 0.000")):
            row = next(line for line in self.look("--unit", unit).splitlines() if line.startswith("web")).split()
            with self.subTest(unit):
                self.assertEqual(" ".join(row[7:12]), web)
        self.assertIn(",us,0.05,0.1,0.25,", self.look("--csv", "--unit", "us"))
        self.assertIn(",s,0.00000005,", self.look("--csv", "--unit", "s"))
        self.assertEqual(runs.look(self.report, "--unit", "ms")[0], 2)

    def test_the_unit_of_the_table_shows_the_shortest_delays(self):
        for voice, unit in ((80, "ns"), (99, "ns"), (100, "us"), (99999, "us"), (100000, "ms"), (10 ** 8, "s")):
            one = measures.Numbers(report.Leaf("voice"), [voice], None, None, None)
            other = measures.Numbers(report.Leaf("web"), [0, 10 ** 11], None, None, None)
            found = types.SimpleNamespace(is_time=True, tails=lambda: study.Study.tails(types.SimpleNamespace(
                numbers=[types.SimpleNamespace(by_name={"voice": one, "web": other})])))
            self.assertEqual(study.common_unit([found], None).name, unit)

    def test_a_cell_has_both_numbers_though_they_look_alike(self):
        self.assertEqual(table.cell([1, 2], ["0.000", "0.000"]), "0.000|0.000")
        self.assertEqual(table.cell([1, 1], ["0.000", "0.000"]), "0.000")
        self.assertEqual(table.cell([None, 0], [None, "0"]), "-|0")

    def test_thousands_are_separated(self):
        self.assertIn(" 4,500 ", runs.look(runs.OFFICE / "report", "--capture", runs.OFFICE / "capture")[1])
        text = "a 1 1 one 0\nend pushed 1 popped 0 empty 0 held 1 unsent 1234567\n"
        self.assertIn(", 1,234,567 packets unsent", runs.look(self.write("r", text))[1])

    def test_leaves_without_packets(self):
        policy = self.write("policy", POLICY)
        lines = self.look("--policy", policy).splitlines()
        self.assertEqual([line.split()[0] for line in lines[4:]], ["voice", "idle", "web", "all"])
        self.assertEqual(lines[5].split(), "idle 0 0 0 0 0 0.0% - - - - - 0 0".split())
        self.assertEqual(self.look("--policy", policy, "--leaf", "idle").splitlines()[4].split()[0], "idle")
        self.assertIn("idle", self.look("--policy", policy, "--csv"))
        status, _, errors = runs.look(self.report, "--leaf", "idle")
        self.assertEqual((status, errors), (2, "look: there is no leaf 'idle'; the leaves are: web, voice; with --policy, "
                                               "leaves without packets are known too\n"))

    def test_spills(self):
        text = "a 1 1 one 0\nd 2 1 one 0\nend pushed 1 popped 1 empty 0 held 0 unsent 0\n"
        for end, said in (("spills 4\n", "0 packets unsent, 4 spills"), ("spills 1\n", "0 packets unsent, 1 spill"),
                          ("spills 4\nspills 4\n", "broken at line 5: a second line of spills"),
                          ("spills 4 5\n", "broken at line 4: a line after the end of the run")):
            with self.subTest(end):
                self.assertIn(said, runs.look(self.write("r", text + end))[1])
        self.assertIn("it isn't a report: line 1", runs.look(self.write("r", "spills 4\n"))[2])


if __name__ == "__main__":
    unittest.main()
