"""The picture of sizes: a row for each node, its numbers, and files that aren't sizes."""
import json
import unittest

import runs
import test_page

OBJECT = {"nodes": [
    {"address": [], "serves": "root", "pushes": 9, "entries": 7, "rank": 9, "rank_bits": 4, "difference": 3, "difference_bits": 2, "stores": None},
    {"address": [1], "serves": "web", "pushes": 5, "entries": 1234, "rank": 0, "rank_bits": 0, "difference": 0, "difference_bits": 0, "stores": None},
    {"address": [0], "serves": None, "pushes": 4, "entries": 4, "rank": 9, "rank_bits": 4, "difference": 3, "difference_bits": 2, "stores": None},
    {"address": [0, 2], "serves": "$voice$", "pushes": 4, "entries": 4, "rank": 500, "rank_bits": 9, "difference": 200, "difference_bits": 8,
     "stores": None}], "entries": 1249, "memory": 59952, "passed": {"event": 1000, "packet": 7, "address": [0, 2], "limit": "rank_bits"}}
STORES = {"heads": 2, "entries": 31, "spilled": 11, "spills": 12345}


class Sizes(runs.Case):
    """What tools/look draws with --sizes."""

    def words(self, found, *words):
        """The words of the picture of sizes."""
        return test_page.words(test_page.drawn(self.folder, "--sizes", self.write("sizes", json.dumps(found)), *words))

    def test_each_node_has_its_numbers(self):
        found = self.words(OBJECT)
        labels = [word for word in found if word.startswith("/")]
        self.assertEqual(["/ root", "/0 transit", "/0/2 $voice$", "/1 web"], labels)
        for word in ("entries", "rank bits", "difference bits", "1,234", "9", "8", "all nodes: at most 1,249 entries; memory: 59,952 bits",
                     "limit passed: event 1,000, packet 7, node /0/2, by its rank bits", "most entries at once"):
            self.assertIn(word, found)
        self.assertNotIn("heads", found)

    def test_stores_have_columns(self):
        found = self.words({**OBJECT, "nodes": [{**node, "stores": STORES} for node in OBJECT["nodes"]]})
        for word in ("heads", "in a store", "spilled", "spills", "31", "12,345"):
            self.assertIn(word, found)

    def test_the_first_node_past_a_limit_has_its_colour(self):
        for passed, count in ((OBJECT["passed"], 1), (None, 0)):
            self.words({**OBJECT, "passed": passed})
            self.assertEqual(count, (self.folder / "page.svg").read_text().count("#d55e00"))

    def test_no_node_and_many_nodes(self):
        self.assertIn("all nodes: at most 0 entries", self.words({"nodes": [], "entries": 0, "memory": None, "passed": None}))
        many = [{**OBJECT["nodes"][1], "address": [1] * (at > 0) + [at] * (at > 0), "entries": 100 - at} for at in range(80)]
        many[1:1] = [{**OBJECT["nodes"][1], "address": [1], "entries": 99}]
        found = self.words({**OBJECT, "nodes": many, "passed": None})
        self.assertIn("21 nodes with fewer entries left out", found)
        self.assertEqual(60, sum(word.startswith("/") for word in found))

    def test_a_title_and_the_same_bytes(self):
        sizes, outs = self.write("sizes", json.dumps(OBJECT)), [self.folder / name for name in ("a.svg", "b.svg", "c.png", "d.pdf")]
        for out in outs:
            self.assertEqual((0, "", ""), runs.look("--sizes", sizes, "--out", out, "--command", "zovatsemo size " + "p t c s " * 30))
        self.assertEqual(outs[0].read_bytes(), outs[1].read_bytes())

    def test_other_files_are_rejected(self):
        first = OBJECT["nodes"][0]
        for found in ([], {}, 7, {**OBJECT, "nodes": 3}, {**OBJECT, "entries": -1}, {**OBJECT, "entries": "7"}, {**OBJECT, "passed": {"event": 1}},
                      {**OBJECT, "nodes": [{**first, "address": [True]}]}, {**OBJECT, "nodes": [first, {**OBJECT["nodes"][1], "stores": STORES}]},
                      {**OBJECT, "nodes": [{**first, "serves": 5}]}):
            status, _, errors = runs.look("--sizes", self.write("other", json.dumps(found)), "--out", self.folder / "x.svg")
            self.assertEqual((2, True), (status, errors.endswith("other: it isn't what `size` writes with --json\n")), found)
        self.assertEqual(2, runs.look("--sizes", self.report, "--out", self.folder / "x.svg")[0])

    def test_arguments_that_do_not_go_together(self):
        for words, said in (((), "REPORT is missing"), (("--sizes", "f"), "--sizes needs --out"), (("--sizes", "f", "--out", "x.html"), "--sizes needs --out"),
                            (("r", "--sizes", "f", "--out", "x.svg"), "--sizes goes without REPORT"),
                            (("--sizes", "f", "--out", "x.svg", "--panel", "delay"), "--sizes goes without --panel"),
                            (("--sizes", "f", "--out", "x.svg", "--width", "3"), "--width is from 5.5 to 20 inches here")):
            status, _, errors = runs.look(*words)
            self.assertEqual((2, True), (status, said in errors), (words, errors))


if __name__ == "__main__":
    unittest.main()
