"""The suites of version 3 are those that make_links writes."""
import pathlib
import subprocess
import sys
import unittest

HERE = pathlib.Path(__file__).resolve().parent


class Suites(unittest.TestCase):
    def test_the_suites_are_those_that_make_links_writes(self):
        for words, name in ([], "front_links"), (["texts"], "front_texts"):
            done = subprocess.run([sys.executable, "-B", HERE / "make_links", *words], check=True, capture_output=True)
            self.assertEqual((HERE.parent / ("cases/%s.jsonl" % name)).read_bytes(), done.stdout)


if __name__ == "__main__":
    unittest.main()
