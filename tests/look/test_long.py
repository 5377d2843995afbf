"""A report of two million lines, in time and memory. The time is that of the processor, so other work on the machine
doesn't count."""
import os
import pathlib
import random
import re
import subprocess
import tempfile
import unittest

import runs

PACKETS = 1000000
LEAVES = ("voice", "video", "ssh", "dns", "web", "mail", "backup", "other")
MOST_SECONDS, MOST_MEMORY, MOST_PAGE = 60, 300 * 10 ** 6, 3 * 10 ** 6


def write_long_report(path):
    """Packets that leave in the order in which they came, up to 1,000 of them held."""
    draws = random.Random(1)
    leaves = [draws.choice(LEAVES) for _ in range(PACKETS)]
    with open(path, "w", buffering=1 << 20) as out:
        event = came = left = 0
        while left < PACKETS:
            event += 1
            if came < PACKETS and (came == left or (came - left < 1000 and draws.random() < 0.5)):
                came += 1
                out.write("a %d %d %s 1/%d/%d\n" % (event, came, leaves[came - 1], came * 1000, came * 37))
            else:
                left += 1
                out.write("d %d %d %s 1/%d/%d\n" % (event, left, leaves[left - 1], left * 1000, left * 37))
        out.write("end pushed %d popped %d empty 0 held 0 unsent 0\n" % (PACKETS, PACKETS))


def measured(*words):
    """What the command writes, its status, its seconds, and the bytes of memory that it took at most."""
    child = subprocess.Popen([runs.TOP / "tools/look", *words], stdout=subprocess.PIPE)
    written = child.stdout.read().decode()
    child.stdout.close()
    _, status, used = os.wait4(child.pid, 0)
    child.returncode = status
    return written, status, used.ru_utime + used.ru_stime, used.ru_maxrss * 1024


class Long(unittest.TestCase):
    """Two million lines."""

    def test_two_million_lines(self):
        with tempfile.TemporaryDirectory() as folder:
            report, page = pathlib.Path(folder) / "report", pathlib.Path(folder) / "page.html"
            write_long_report(report)
            for words in ((report,), (report, "--out", page)):
                written, status, seconds, memory = measured(*words)
                with self.subTest(len(words)):
                    self.assertEqual(status, 0)
                    self.assertLess(seconds, MOST_SECONDS)
                    self.assertLess(memory, MOST_MEMORY)
                if words == (report,):
                    self.assertTrue(written.startswith("2,000,000 events, 1,000,000 packets, 1,000,000 departures"))
            text = page.read_text()
            self.assertLess(len(text), MOST_PAGE)
            self.assertEqual(len(re.findall(r'density-\w+"', text)), len(LEAVES))
            self.assertIn('"packets":1000000,', text)


if __name__ == "__main__":
    unittest.main()
