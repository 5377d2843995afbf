"""docs/PICTURES.md: the pictures that its commands draw. What they print is compared by tests/pages. The screenshot is
taken by hand.

The program is the built one of the repository, or that of the variable ZOVATSEMO.
"""
import os
import pathlib
import subprocess
import sys
import tempfile
import unittest

import runs
import test_page

sys.path.insert(0, str(runs.TOP / "tests/pages"))

import pages  # noqa: E402  (its folder is named just above)

PAGE = runs.TOP / "docs/PICTURES.md"
PICTURES = runs.TOP / "docs/pictures"
SCREENSHOT = "page.png"
PROGRAM = pathlib.Path(os.environ.get("ZOVATSEMO", runs.TOP / pages.PROGRAM))


def drawn_of(path):
    """What a picture tells: its packets and its words."""
    page = test_page.xml.etree.ElementTree.parse(path).getroot()
    return test_page.bars(page, r"packet-(\d+)"), test_page.bars(page, r"packet-other-(\d+)"), test_page.words(page)


class Documents(unittest.TestCase):
    """The page on pictures."""

    def test_the_pictures(self):
        self.assertTrue(PROGRAM.is_file(), "there is no built program %s" % PROGRAM)
        kept = sorted(path.name for path in PICTURES.iterdir() if path.name != SCREENSHOT)
        self.assertIn("(pictures/%s)" % SCREENSHOT, PAGE.read_text())
        self.assertTrue((PICTURES / SCREENSHOT).read_bytes().startswith(b"\x89PNG"))
        with pages.Copy(PROGRAM) as copy:
            drawn = copy.top / "docs/pictures"
            for path in drawn.iterdir():
                path.unlink()
            for commands in pages.sections(PAGE.read_text()):
                copy.run(commands)
            self.assertEqual(sorted(path.name for path in drawn.iterdir()), kept)
            for name in kept:
                self.assertIn("(pictures/%s)" % name, PAGE.read_text())
                self.assertEqual(drawn_of(drawn / name), drawn_of(PICTURES / name))

    def test_captures_are_made_by_their_commands(self):
        for kept, words in ((runs.TOP / "examples/uplink/capture", ()),
                            (runs.TOP / "examples/cookbook/capture", ("--tenants",)),
                            (runs.TOP / "examples/any/capture", ("--link", "276", "--milliseconds", "40")),
                            (runs.OFFICE / "capture.pcapng", ("--of", runs.OFFICE / "capture"))):
            with tempfile.TemporaryDirectory() as folder:
                made = pathlib.Path(folder) / "capture"
                subprocess.run([runs.TOP / "tools/make_capture", made, *words], check=True)
                self.assertEqual(made.read_bytes(), kept.read_bytes())


if __name__ == "__main__":
    unittest.main()
