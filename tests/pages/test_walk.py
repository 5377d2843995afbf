"""docs/walk.txt is what tools/walk writes from the built libraries, and docs/ARCHITECTURE.md has its counts."""
import pathlib
import re
import subprocess
import tempfile
import unittest

import pages

PAGE = pages.TOP / "docs/walk.txt"
NOT_BUILT = 3


def walk(*words):
    done = subprocess.run([pages.TOP / "tools/walk", *words], stdout=subprocess.PIPE, stderr=subprocess.PIPE, text=True)
    if done.returncode == NOT_BUILT:
        raise unittest.SkipTest("the libraries aren't built")
    return done.returncode


class Walk(unittest.TestCase):
    def test_the_list_is_current(self):
        self.assertEqual(0, walk("--check"))

    def test_a_list_that_is_not_current_is_rejected(self):
        with tempfile.TemporaryDirectory() as folder:
            page = pathlib.Path(folder, "walk.txt")
            self.assertEqual(1, walk("--check", "--page", page))
            self.assertEqual(0, walk("--page", page))
            self.assertEqual(PAGE.read_text(), page.read_text())
            page.write_text(page.read_text().replace("Run::arrive_next", "Run::arrive", 1))
            self.assertEqual(1, walk("--check", "--page", page))

    def test_the_page_has_its_counts(self):
        functions = re.findall(r"^ *(\w+::\w+) +(\S+)$", PAGE.read_text(), re.MULTILINE)
        files = {file for _, file in functions}
        counts = "%d functions, %d files, %d crates" % (len(functions), len(files), len({file.split("/")[0] for file in files}))
        self.assertIn(counts + "\n", PAGE.read_text())
        self.assertIn(counts, (pages.TOP / "docs/ARCHITECTURE.md").read_text())


if __name__ == "__main__":
    unittest.main()
