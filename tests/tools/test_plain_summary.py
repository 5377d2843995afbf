"""The plain sums of runs that are worked out by hand, and of random runs against the same numbers reckoned another way."""
import random
import struct
import unittest

import plain_summary as plain

POLICY = "policy 2\nclass a\nclass b\nleaf one using fifo weight 2 classes a\nleaf two using fifo classes b\n"

# Two packets of leaf one and one of leaf two, on a link that sends a byte a nanosecond.
REPORT = """a 1 1 one 0
a 2 2 one 0
x 3 3 one
a 4 4 two 0
d 5 1 one 0 100
d 6 4 two 0 200
d 7 2 one 0 500
end pushed 3 popped 3 empty 0 held 0 unsent 0 dropped 1
"""


def capture_of(packets):
    """A capture with nanoseconds of packets of these lengths and timestamps, of which nothing is captured."""
    records = [struct.pack("<IIII", timestamp // 10**9, timestamp % 10**9, 0, length) for length, timestamp in packets]
    return struct.pack("<IHHiIII", 0xA1B23C4D, 2, 4, 0, 0, 65535, 1) + b"".join(records)


def random_run(draw, count):
    """The report and the packets of a first-come run over one leaf, and the delays and the greatest backlog as it made them."""
    packets, lines, delays, queued, free, now, most = [], [], [], [], 0, 0, 0

    def send(until):
        nonlocal free
        while queued and free < until:
            number = queued.pop(0)
            delays.append(free - packets[number - 1][1])
            lines.append("d %d %d root 0 %d" % (len(lines) + 1, number, free))
            free += packets[number - 1][0]

    for number in range(1, count + 1):
        now += draw.randrange(200)
        packets.append((draw.randrange(1, 300), now))
        send(now)
        if not queued:
            free = max(free, now)
        queued.append(number)
        lines.append("a %d %d root 0" % (len(lines) + 1, number))
        most = max(most, len(queued))
    send(float("inf"))
    return "\n".join(lines), packets, delays, most, free


# The same run as JSON lines, as far as the sums need them.
JSON_LINES = """{"kind":"arrive","event":1,"packet":1,"leaf":"one","class":1,"bytes":100,"timestamp":0,"ranks":[0]}
{"kind":"arrive","event":2,"packet":2,"leaf":"one","class":1,"bytes":50,"timestamp":50,"ranks":[0]}
{"kind":"drop","event":3,"packet":3,"leaf":"one","class":1,"bytes":70,"timestamp":60}
{"kind":"arrive","event":4,"packet":4,"leaf":"two","class":2,"bytes":300,"timestamp":100,"ranks":[0]}
{"kind":"depart","event":5,"packet":1,"leaf":"one","class":1,"bytes":100,"ranks":[0],"start":100,"finish":200}
{"kind":"depart","event":6,"packet":4,"leaf":"two","class":2,"bytes":300,"ranks":[0],"start":200,"finish":500}
{"kind":"depart","event":7,"packet":2,"leaf":"one","class":1,"bytes":50,"ranks":[0],"start":500,"finish":550}
{"kind":"end","arrived":3,"departed":3,"dropped":1,"empty":0,"queued":0,"unread":0}
"""

ONE = """: 2 packets departed, 1 dropped, 0 queued; 150 bytes; 272727272 bytes a second
  delay in ns: least 100, median 100, 95 % 450, 99 % 450, greatest 450, mean 275; jitter 350
  backlog: at most 2 packets, at most 150 bytes
"""
TWO = """: 1 packets departed, 0 dropped, 0 queued; 300 bytes; 750000000 bytes a second
  delay in ns: least 100, median 100, 95 % 100, 99 % 100, greatest 100, mean 100
  backlog: at most 1 packets, at most 300 bytes
"""
TEXT = """all: 3 packets departed, 1 dropped, 0 queued; 450 bytes; 818181818 bytes a second
  delay in ns: least 100, median 100, 95 % 450, 99 % 450, greatest 450, mean 216; jitter 175
  backlog: at most 3 packets, at most 450 bytes
""" + "leaf one" + ONE + "leaf two" + TWO + "class a" + ONE + "class b" + TWO + "fairness of the leaves by weight (Jain): 0.735294\n"


class Worked(unittest.TestCase):
    def test_a_run_of_two_leaves(self):
        capture = capture_of([(100, 0), (50, 50), (70, 60), (300, 100)])
        self.assertEqual(TEXT, plain.text(plain.summary(REPORT, capture, POLICY, 10**9)))
        self.assertEqual(TEXT, plain.text(plain.summary(JSON_LINES, capture, POLICY, 10**9)))

    def test_json(self):
        found = plain.as_json(plain.summary("a 1 1 one 0\nd 2 1 one 0\ne 3\n", capture_of([(9, 5)]), POLICY, 1))
        self.assertTrue(found.startswith(
            '{"all":{"arrived":1,"departed":1,"dropped":0,"queued":0,"bytes":9,"throughput":null,"delay":null,"jitter":null,'
            '"most_queued":1,"most_queued_bytes":9},"leaves":[{"name":"one","arrived":1,'))
        self.assertTrue(found.endswith('}],"jain":1.000000}\n'))

    def test_no_index(self):
        self.assertEqual("no bytes departed", plain.summary("", capture_of([]), POLICY, 1)["jain"])

    def test_ranks_of_percentiles(self):
        self.assertEqual([3, 1, 19, 20], [plain.percentile(range(1, n + 1), p) for n, p in ((5, 50), (2, 50), (20, 95), (20, 99))])

    def test_a_script_has_no_delays(self):
        found = plain.summary("a 1 1 one 0\nd 2 1 one 0\ne 3\n", capture_of([(9, 5)]), POLICY, 1)
        self.assertEqual((9, None, None), tuple(found["all"][key] for key in ("bytes", "delay", "throughput")))


class Made(unittest.TestCase):
    def test_random_runs(self):
        draw = random.Random(7)
        for _ in range(200):
            report, packets, delays, most, free = random_run(draw, draw.randrange(1, 40))
            found = plain.summary(report, capture_of(packets), "policy 1\nclass a\nleaf root using fifo classes a\n", 10**9)["all"]
            self.assertEqual(sum(delays) // len(delays), found["delay"]["mean"])
            self.assertEqual(most, found["most_queued"])
            self.assertEqual(found["bytes"] * 10**9 // (free - packets[0][1]), found["throughput"])
            ordered = sorted(delays)
            self.assertEqual(ordered[-(-len(ordered) * 95 // 100) - 1], found["delay"]["p95"])


if __name__ == "__main__":
    unittest.main()
