"""The plain sizes of a run that is worked out by hand."""
import unittest

import plain_fabric
import plain_size as plain

# A root over the leaf one and the leaf two, which is below a transit node.
PLAN = "least 2\nmap root - -\nmap one 0 0\nmap two 1 1.0\n"

# Packets 1 and 2 are of leaf two, 3 of leaf one. Packet 2 overtakes 1 at the leaf, and 3 overtakes both at the root.
REPORT = """a 1 1 two 5/9
a 2 2 two 5/4
a 3 3 one 2/0
x 4 4 one
d 5 3 one 2/0
d 6 2 two 5/4
d 7 1 two 5/9
end pushed 3 popped 3 empty 0 held 0 unsent 0 dropped 1
"""
TEXT = """node / root: at most 3 entries of 3 pushed; greatest rank 5, 3 bits; greatest difference 3, 2 bits
  stores: at most 2 heads, 2 entries in a store, 0 spilled; 0 spills
node /0 one: at most 1 entries of 1 pushed; greatest rank 0, 0 bits; greatest difference 0, 0 bits
  stores: at most 1 heads, 1 entries in a store, 0 spilled; 0 spills
node /1 transit: at most 2 entries of 2 pushed; greatest rank 5, 3 bits; greatest difference 0, 0 bits
  stores: at most 1 heads, 2 entries in a store, 0 spilled; 0 spills
node /1/0 two: at most 2 entries of 2 pushed; greatest rank 9, 4 bits; greatest difference 5, 3 bits
  stores: at most 1 heads, 1 entries in a store, 1 spilled; 1 spills
all nodes: at most 8 entries
memory: 384 bits, for 16 bits of rank and 32 of entry
"""


class Worked(unittest.TestCase):
    """The run above."""

    def test_text(self):
        self.assertEqual(plain.text_of(plain.Sizes(PLAN, REPORT), True, (16, 32)), TEXT)

    def test_json(self):
        object_of = plain.json_of(plain.Sizes(PLAN, REPORT, 2)).replace(" ", "")
        self.assertIn('{"address":[1],"serves":null,"pushes":2,"entries":2,"rank":5,"rank_bits":3,', object_of)
        self.assertIn('"entries":8,"memory":null,"passed":{"event":3,"packet":3,"address":[],"limit":"entries"}}', object_of)

    def test_first_limit(self):
        for limits, passed in (((3, 4), None), ((2, None), (3, 3, (), "entries")), ((1, 3), (1, 1, (1, 0), "rank_bits")),
                               ((1, None), (2, 2, (), "entries")), ((0, 0), (1, 1, (), "entries")), ((None, 2), (1, 1, (), "rank_bits"))):
            self.assertEqual(plain.Sizes(PLAN, REPORT, *limits).passed, passed)

    def test_no_packet(self):
        self.assertEqual(plain.text_of(plain.Sizes(PLAN, "end pushed 0 popped 0 empty 0 held 0 unsent 0\n")), "all nodes: at most 0 entries\n")

    def test_another_order_is_seen(self):
        with self.assertRaises(plain_fabric.Differs):
            plain.Sizes(PLAN, REPORT.replace("d 6 2 two 5/4", "d 6 1 two 5/9"))


if __name__ == "__main__":
    unittest.main()
